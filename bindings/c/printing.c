/* Calls the functions that print, and that which gives a keypad text, with a buffer of every length up to that of what is printed, and longer ones. What a call must not store
 * to cannot be written: the buffer, `length` and `place` with a refusal that keeps them, and the bytes of the buffer past what is printed. So
 * a store of even the same value would end the program: what no contract can say of the time during a call. The text cannot be written
 * either. Text, buffer and cells stand against a page that cannot be touched. */
#define _DEFAULT_SOURCE
#include "cullpethi.h"

#include <stdio.h>
#include <string.h>
#include <sys/mman.h>
#include <unistd.h>

/* The rest is what is past the end of the buffer's page. */
enum { TEXT, BUFFER, LENGTH, PLACE, PAGES, REST = PAGES };

static unsigned passed, failed;
static size_t page_size;
static uint8_t *pages[PAGES + 1];

static void lend(int which, int how) {
    if (mprotect(pages[which], page_size, how)) perror("mprotect");
}

/* Pages with one behind each that cannot be touched. */
static void map(void) {
    for (int i = 0; i < PAGES; i++) {
        pages[i] = mmap(NULL, 3 * page_size, PROT_NONE, MAP_PRIVATE | MAP_ANONYMOUS, -1, 0);
        if (pages[i] == MAP_FAILED) {
            perror("mmap");
            _exit(2);
        }
    }
    pages[REST] = pages[BUFFER] + page_size;
}

/* The last n bytes of a page. */
static void *last(int which, size_t n) { return pages[which] + page_size - n; }

/* What is called: the printing of an interval; with a text, its listing; or a keypad text by its number; and what is expected of a buffer that is
 * long enough. */
struct expected {
    int32_t months, days;
    int64_t nanos;
    const char *text;
    size_t len;
    uint8_t unit, status;
    size_t place;
    const char *printed;
    size_t printed_len;
    int keypad;
    uint64_t k;
};

static uint8_t call(const struct expected *e, uint8_t *buffer, size_t room) {
    size_t *length = last(LENGTH, sizeof *length);
    if (e->keypad) return cullpethi_keypad_text(e->k, buffer, room, length);
    if (e->text == NULL) return cullpethi_write_interval(e->months, e->days, e->nanos, buffer, room, length);
    return cullpethi_list_interval(last(TEXT, e->len), e->len, e->unit, buffer, room, length, last(PLACE, sizeof(size_t)));
}

static int has_place(uint8_t status) {
    return status == CULLPETHI_INTERVAL || status == CULLPETHI_REPEATED_UNIT || status == CULLPETHI_OVERFLOW;
}

/* Whether a page is full of the mark, but for its last n bytes. */
static int kept(int which, uint8_t mark, size_t n) {
    for (size_t i = 0; i < page_size - n; i++)
        if (pages[which][i] != mark) return 0;
    return 1;
}

/* Fills the pages with the mark, and lends each as it may be used. */
static void prepare(const struct expected *e, uint8_t status, int rest, uint8_t mark) {
    for (int i = 0; i <= PAGES; i++) {
        lend(i, PROT_READ | PROT_WRITE);
        memset(pages[i], mark, page_size);
    }
    if (e->text != NULL) memcpy(last(TEXT, e->len), e->text, e->len);
    lend(TEXT, PROT_READ);
    lend(REST, rest ? PROT_READ : PROT_NONE);
    if (status != CULLPETHI_OK) lend(BUFFER, PROT_READ), lend(LENGTH, PROT_READ);
    if (!has_place(status)) lend(PLACE, PROT_READ);
}

/* One call: what is printed ends with the buffer's page, and the rest of a longer buffer is behind it. */
static int holds(const struct expected *e, size_t room, uint8_t mark) {
    int fits = e->status == CULLPETHI_OK && e->printed_len <= room;
    uint8_t status = e->status == CULLPETHI_OK && !fits ? CULLPETHI_BUFFER : e->status;
    size_t written = fits ? e->printed_len : 0, told = fits ? sizeof told : 0, placed = has_place(status) ? sizeof placed : 0;
    prepare(e, status, fits && room > written, mark);
    uint8_t *buffer = last(BUFFER, fits ? written : room);
    if (call(e, buffer, room) != status) return 0;
    lend(REST, PROT_READ);
    return kept(BUFFER, mark, written) && (!fits || memcmp(buffer, e->printed, written) == 0) && kept(REST, mark, 0) &&
           kept(LENGTH, mark, told) && (!fits || *(size_t *)last(LENGTH, told) == written) &&
           kept(PLACE, mark, placed) && (placed == 0 || *(size_t *)last(PLACE, placed) == e->place) &&
           (e->text == NULL || memcmp(last(TEXT, e->len), e->text, e->len) == 0);
}

/* A buffer of each length up to one byte more than what is printed, and one of another page. */
static void expect(struct expected e) {
    int good = 1;
    for (size_t room = 0; room <= e.printed_len + 1; room++)
        good = good && holds(&e, room, 0x5A) && holds(&e, room, 0xFF);
    size_t longer = e.status == CULLPETHI_OK ? e.printed_len + page_size : page_size;
    if (good && holds(&e, longer, 0x5A) && holds(&e, longer, 0xFF)) {
        passed++;
    } else {
        failed++;
        printf("failed: %d %d %lld, '%.*s' in unit %u, keypad text %llu\n", e.months, e.days, (long long)e.nanos, (int)e.len, e.text ? e.text : "", e.unit,
               (unsigned long long)e.k);
    }
}

#define WRITTEN(months, days, nanos, text) \
    expect((struct expected){months, days, nanos, NULL, 0, 0, CULLPETHI_OK, 0, text, sizeof(text) - 1, 0, 0})
#define LISTED(unit, text, lines) \
    expect((struct expected){0, 0, 0, text, sizeof(text) - 1, unit, CULLPETHI_OK, 0, lines, sizeof(lines) - 1, 0, 0})
#define REFUSED(unit, text, status, place) \
    expect((struct expected){0, 0, 0, text, sizeof(text) - 1, unit, status, place, NULL, 0, 0, 0})
#define KEYPAD(k, text) expect((struct expected){0, 0, 0, NULL, 0, 0, CULLPETHI_OK, 0, text, sizeof(text) - 1, 1, k})
#define NO_KEYPAD(k) expect((struct expected){0, 0, 0, NULL, 0, 0, CULLPETHI_KEYPAD, 0, NULL, 0, 1, k})

static void written(void) {
    WRITTEN(0, 0, 0, "0 months");
    WRITTEN(1, 0, 0, "1 months");
    WRITTEN(0, -1, 0, "-1 days");
    WRITTEN(0, 0, INT64_MIN, "-9223372036854775808 nanoseconds");
    WRITTEN(INT32_MIN, INT32_MIN, INT64_MIN, "-2147483648 months -2147483648 days -9223372036854775808 nanoseconds");
    WRITTEN(INT32_MAX, 0, 1000000000, "2147483647 months 1000000000 nanoseconds");
    WRITTEN(10, -100, 0, "10 months -100 days");
    WRITTEN(0, 9, -10, "9 days -10 nanoseconds");
    WRITTEN(-9, 99, INT64_MAX, "-9 months 99 days 9223372036854775807 nanoseconds");
}

static void listed(void) {
    LISTED(CULLPETHI_MONTH, "1.5 months -.5 days", "unit=month whole=1 frac=500000000000000\nunit=day whole=0 frac=-500000000000000\n");
    LISTED(CULLPETHI_HOUR, "-0 wee\u212As 2", "unit=week whole=0 frac=0\nunit=hour whole=2 frac=0\n");
    LISTED(CULLPETHI_DAY, "-0.000000000000001", "unit=day whole=0 frac=-1\n");
    LISTED(CULLPETHI_MONTH, "-9223372036854775808.999999999999999 NANOSECONDS",
           "unit=nanosecond whole=-9223372036854775808 frac=-999999999999999\n");
    LISTED(CULLPETHI_MONTH, "0010.50c 007us", "unit=century whole=10 frac=500000000000000\nunit=microsecond whole=7 frac=0\n");
    /* each unit */
    LISTED(CULLPETHI_MONTH, "1nanosecond 2us 3ms 4s\u30005m 6h 7d 8w 9mon 10y 11dec 12c",
           "unit=nanosecond whole=1 frac=0\nunit=microsecond whole=2 frac=0\nunit=millisecond whole=3 frac=0\n"
           "unit=second whole=4 frac=0\nunit=minute whole=5 frac=0\nunit=hour whole=6 frac=0\nunit=day whole=7 frac=0\n"
           "unit=week whole=8 frac=0\nunit=month whole=9 frac=0\nunit=year whole=10 frac=0\nunit=decade whole=11 frac=0\n"
           "unit=century whole=12 frac=0\n");
    LISTED(CULLPETHI_CENTURY, "-1.5", "unit=century whole=-1 frac=-500000000000000\n");
    LISTED(CULLPETHI_NANOSECOND, "-1.5", "unit=nanosecond whole=-1 frac=-500000000000000\n");
}

/* The reader's number and place, whatever the buffer. */
static void refused(void) {
    REFUSED(CULLPETHI_DAY, "1 day 2", CULLPETHI_REPEATED_UNIT, 6);
    REFUSED(CULLPETHI_MONTH, "306783378 weeks 0.1 months -2 days", CULLPETHI_OVERFLOW, 16);
    REFUSED(CULLPETHI_MONTH, "1 day ", CULLPETHI_INTERVAL, 6);
    REFUSED(CULLPETHI_MONTH, "", CULLPETHI_INTERVAL, 0);
    REFUSED(CULLPETHI_MONTH, "1ms\xC2", CULLPETHI_NOT_UTF8, 0);
    REFUSED(CULLPETHI_SECOND, "1 day 2 h 9223372037", CULLPETHI_OVERFLOW, 10);
}

/* 255 before all. */
static void no_unit(void) {
    for (int unit = CULLPETHI_NANOSECOND + 1; unit < 256; unit++) {
        REFUSED((uint8_t)unit, "1 day", CULLPETHI_NO_UNIT, 0);
        REFUSED((uint8_t)unit, "1 day x", CULLPETHI_NO_UNIT, 0);
        REFUSED((uint8_t)unit, "\xFF", CULLPETHI_NO_UNIT, 0);
    }
}

/* The seams, and 17 whatever the buffer. */
static void keypad(void) {
    KEYPAD(0, "0c");
    KEYPAD(11, "0nanosecond");
    KEYPAD(12, "1c");
    KEYPAD(119, "9nanosecond");
    KEYPAD(120, "0c 0dec");
    KEYPAD(230, "0dec 0c");
    KEYPAD(13319, "9nanosecond 9us");
    KEYPAD(13320, "0c 0dec 0y");
    KEYPAD(134422, "0nanosecond 0dec 0mon");
    KEYPAD(CULLPETHI_KEYPAD_TEXTS - 1, "9nanosecond 9us 9ms");
    NO_KEYPAD(CULLPETHI_KEYPAD_TEXTS);
    NO_KEYPAD(UINT64_C(1) << 32);
    NO_KEYPAD(UINT64_MAX);
}

int main(void) {
    page_size = (size_t)sysconf(_SC_PAGESIZE);
    map();
    written();
    listed();
    refused();
    no_unit();
    keypad();
    printf("%u passed, %u failed\n", passed, failed);
    return failed != 0;
}
