/* Calls the four readers of intervals with cells that cannot be written where a call must not write: `place` with 0, 1, 11 and 255, the
 * values with any refusal. So a store of even the same value would end the program: what no contract can say of the time during a call.
 * Each cell stands against a page that cannot be touched, and so does the text, which cannot be written either. */
#define _DEFAULT_SOURCE
#include "cullpethi.h"

#include <stdio.h>
#include <string.h>
#include <sys/mman.h>
#include <unistd.h>

/* Cells: months or days, days or milliseconds, nanoseconds, the place; and the text. */
enum { A, B, C, PLACE, TEXT, PAGES };

static unsigned passed, failed;
static size_t page_size;
static uint8_t *pages[PAGES];

/* A page with a page behind it that cannot be touched. */
static uint8_t *page(void) {
    uint8_t *at = mmap(NULL, 2 * page_size, PROT_READ | PROT_WRITE, MAP_PRIVATE | MAP_ANONYMOUS, -1, 0);
    if (at == MAP_FAILED || mprotect(at + page_size, page_size, PROT_NONE)) {
        perror("mmap");
        _exit(2);
    }
    return at;
}

static void lend(int which, int writable) {
    if (mprotect(pages[which], page_size, writable ? PROT_READ | PROT_WRITE : PROT_READ)) perror("mprotect");
}

/* The last n bytes of a page. */
static void *last(int which, size_t n) { return pages[which] + page_size - n; }

/* The readers; a number from 0 is month-day-nano with that default unit. */
enum { YEAR_MONTH = -3, DAY_TIME = -2, MONTH_DAY_NANO = -1 };

static uint8_t call(int reader, const uint8_t *text, size_t len) {
    int32_t *a = last(A, 4), *b = last(B, 4);
    int64_t *c = last(C, 8);
    size_t *place = last(PLACE, sizeof *place);
    switch (reader) {
    case YEAR_MONTH: return cullpethi_parse_interval_year_month(text, len, a, place);
    case DAY_TIME: return cullpethi_parse_interval_day_time(text, len, a, b, place);
    case MONTH_DAY_NANO: return cullpethi_parse_interval_month_day_nano(text, len, a, b, c, place);
    default: return cullpethi_parse_interval_month_day_nano_config(text, len, (uint8_t)reader, a, b, c, place);
    }
}

static int has_place(uint8_t status) {
    return status == CULLPETHI_INTERVAL || status == CULLPETHI_REPEATED_UNIT || status == CULLPETHI_OVERFLOW;
}

/* Whether a page is full of the mark, but for its last n bytes. */
static int kept(int which, uint8_t mark, size_t n) {
    for (size_t i = 0; i < page_size - n; i++)
        if (pages[which][i] != mark) return 0;
    return 1;
}

static int holds(int reader, const char *text, size_t len, uint8_t status, size_t place, uint8_t mark) {
    for (int i = 0; i < PAGES; i++) {
        lend(i, 1);
        memset(pages[i], mark, page_size);
    }
    uint8_t *at = memcpy(last(TEXT, len), text, len);
    lend(TEXT, 0);
    for (int i = A; i <= C; i++) lend(i, status == CULLPETHI_OK);
    lend(PLACE, has_place(status));
    if (call(reader, at, len) != status) return 0;
    size_t told = has_place(status) ? sizeof told : 0;
    return kept(PLACE, mark, told) && (told == 0 || *(size_t *)last(PLACE, told) == place) &&
           kept(A, mark, status ? 0 : 4) && kept(B, mark, status ? 0 : 4) && kept(C, mark, status ? 0 : 8) && memcmp(at, text, len) == 0;
}

static void expect(int reader, const char *text, size_t len, uint8_t status, size_t place) {
    if (holds(reader, text, len, status, place, 0x5A) && holds(reader, text, len, status, place, 0xFF)) {
        passed++;
    } else {
        failed++;
        printf("failed: reader %d of '%.*s'\n", reader, (int)len, text);
    }
}

#define ONE(reader, text, status, place) expect(reader, text, sizeof(text) - 1, status, place)
/* The four readers, the last with each default unit. */
#define ALL(text, status, place) \
    for (int reader = YEAR_MONTH; reader <= CULLPETHI_NANOSECOND; reader++) ONE(reader, text, status, place)

/* 0, 1, 11 and 255: the place is kept. */
static void no_place(void) {
    ALL("0 months", CULLPETHI_OK, 0);
    ALL("-1 century 1 decade 12 years -1 mon", CULLPETHI_OK, 0);
    ALL("5 m\xC3", CULLPETHI_NOT_UTF8, 0);
    ALL("1 day x \xFF", CULLPETHI_NOT_UTF8, 0);
    ALL("\xE3\x80", CULLPETHI_NOT_UTF8, 0);
    ONE(YEAR_MONTH, "1 year 2 days", CULLPETHI_NARROWED, 0);
    ONE(YEAR_MONTH, "1 ms", CULLPETHI_NARROWED, 0);
    ONE(DAY_TIME, "71582789 months -23 days", CULLPETHI_NARROWED, 0);
    ONE(DAY_TIME, "1 us", CULLPETHI_NARROWED, 0);
    ONE(DAY_TIME, "2147483648 ms", CULLPETHI_NARROWED, 0);
    for (int unit = CULLPETHI_NANOSECOND + 1; unit < 256; unit++) {
        ONE(unit, "1 day", CULLPETHI_NO_UNIT, 0);
        ONE(unit, "1 day x", CULLPETHI_NO_UNIT, 0);
    }
}

/* 8, 9 and 10: the values are kept, also where components in front of the place were read. */
static void place_told(void) {
    ALL("", CULLPETHI_INTERVAL, 0);
    ALL("1 year ", CULLPETHI_INTERVAL, 7);
    ALL("1 year 2 months 3 days 4 hours x", CULLPETHI_INTERVAL, 31);
    ALL("1\xE3\x80\x80year\xC2\xA0-2mons 1-2 days", CULLPETHI_INTERVAL, 17);
    ALL("1 year 1 YR", CULLPETHI_REPEATED_UNIT, 7);
    ALL("1 year 2 months 3 days 4 hours 5 days 6 hours", CULLPETHI_REPEATED_UNIT, 31);
    ALL("178956971 years", CULLPETHI_OVERFLOW, 0);
    ALL("1 day 2147483647 months 1 year -1 decade", CULLPETHI_OVERFLOW, 24);
    ALL("1 year 1 month 9223372036854775807 nanoseconds 1 us", CULLPETHI_OVERFLOW, 47);
}

int main(void) {
    page_size = (size_t)sysconf(_SC_PAGESIZE);
    for (int i = 0; i < PAGES; i++) pages[i] = page();
    no_place();
    place_told();
    printf("%u passed, %u failed\n", passed, failed);
    return failed != 0;
}
