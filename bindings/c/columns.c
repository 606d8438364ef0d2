/* Calls cullpethi_parse_column, accepted and refused. Bytes that a call must not read stand in a page that cannot be touched: those past the
 * last end, and all where 13 or 255 is due. The ends and the cells stand against such a page. What is only lent to be read cannot be
 * written; where a call must not write, the cells and the index cannot either, so that a store of even the same value would end the
 * program: what no contract can say of the time during a call. */
#define _DEFAULT_SOURCE
#include "cullpethi.h"

#include <stdio.h>
#include <string.h>
#include <sys/mman.h>
#include <unistd.h>

enum { ROOM = 16, INDEX = 77 };

static unsigned passed, failed;
static size_t page_size;

/* A page with a page behind it that cannot be touched. */
static uint8_t *page(void) {
    uint8_t *pages = mmap(NULL, 2 * page_size, PROT_READ | PROT_WRITE, MAP_PRIVATE | MAP_ANONYMOUS, -1, 0);
    if (pages == MAP_FAILED || mprotect(pages + page_size, page_size, PROT_NONE)) {
        perror("mmap");
        _exit(2);
    }
    return pages;
}

static void lend(uint8_t *at, int how) {
    if (mprotect(at, page_size, how)) perror("mprotect");
}

/* A column, what it is called with, and what is expected. */
struct expected {
    uint8_t column;
    const char *texts;
    size_t texts_len;
    const uint32_t *ends;
    size_t ends_len, cells_len;
    uint8_t status;
    size_t index;
    const int64_t *values;
};

/* The last n bytes of a page. */
static void *last(uint8_t *at, size_t n) { return at + page_size - n; }

static int holds(const struct expected *e, int64_t mark) {
    static uint8_t *bytes, *numbers, *cells, *told;
    if (bytes == NULL) bytes = page(), numbers = page(), cells = page(), told = page();
    lend(bytes, PROT_READ | PROT_WRITE), lend(numbers, PROT_READ | PROT_WRITE);
    lend(cells, PROT_READ | PROT_WRITE), lend(told, PROT_READ | PROT_WRITE);
    size_t reach = e->status >= CULLPETHI_COLUMN || e->ends_len == 0 ? 0 : e->ends[e->ends_len - 1];
    uint8_t *texts = memcpy(last(bytes, reach), e->texts, reach);
    uint32_t *ends = memcpy(last(numbers, 4 * e->ends_len), e->ends, 4 * e->ends_len);
    int64_t *at = last(cells, 8 * e->cells_len), want[ROOM];
    size_t *index = last(told, sizeof *index);
    *index = INDEX;
    for (size_t i = 0; i < e->cells_len; i++) at[i] = want[i] = mark;
    if (e->status == CULLPETHI_OK) memcpy(want, e->values, 8 * e->ends_len);
    lend(bytes, PROT_READ), lend(numbers, PROT_READ);
    if (e->status != CULLPETHI_OK) lend(cells, PROT_READ);
    if (e->index == INDEX) lend(told, PROT_READ);
    uint8_t status = cullpethi_parse_column(e->column, texts, e->texts_len, ends, e->ends_len, at, e->cells_len, index);
    return status == e->status && *index == e->index && memcmp(at, want, 8 * e->cells_len) == 0 &&
           memcmp(texts, e->texts, reach) == 0 && memcmp(ends, e->ends, 4 * e->ends_len) == 0;
}

static void expect(struct expected e) {
    if (holds(&e, 0x5A5A5A5A5A5A5A5A) && holds(&e, -1)) {
        passed++;
    } else {
        failed++;
        printf("failed: column %u of '%.*s'\n", e.column, (int)e.texts_len, e.texts);
    }
}

#define LIST(...) (const uint32_t[]){__VA_ARGS__}, sizeof((const uint32_t[]){__VA_ARGS__}) / 4
#define READ(column, texts, cells, ends, ...) \
    expect((struct expected){column, texts, sizeof(texts) - 1, ends, cells, CULLPETHI_OK, INDEX, (const int64_t[]){__VA_ARGS__}})
#define REFUSED(column, texts, cells, ends, status, index) \
    expect((struct expected){column, texts, sizeof(texts) - 1, ends, cells, status, index, NULL})
#define NOT_READ(column, texts, cells, ends, status) \
    expect((struct expected){column, texts, sizeof(texts) - 1, ends, cells, status, INDEX, NULL})
#define NONE (const uint32_t[]){0}, 0

static void accepted(void) {
    READ(CULLPETHI_TIMESTAMP_NANOSECOND, "1970-01-01T00:00:00.0000000011969-12-31T23:59:59.999999999", 2, LIST(29, 58), 1, -1);
    READ(CULLPETHI_TIMESTAMP_MICROSECOND, "1970-01-01T00:00:00.0000019", 1, LIST(27), 1);
    READ(CULLPETHI_TIMESTAMP_MILLISECOND, "1969-12-31T23:59:59.0005", 1, LIST(24), -999);
    READ(CULLPETHI_TIMESTAMP_SECOND, " 1970-01-01T00:00:01\n1970-01-02", 2, LIST(21, 31), 1, 86400);
    READ(CULLPETHI_TIME64_NANOSECOND, "23:59:601234", 2, LIST(8, 12), 86400000000000, 1234);
    READ(CULLPETHI_TIME64_MICROSECOND, "00:00:00.0000019-9223372036854775808", 2, LIST(16, 36), 1, INT64_MIN);
    READ(CULLPETHI_TIME32_MILLISECOND, "2147483647-1", 2, LIST(10, 12), INT32_MAX, -1);
    READ(CULLPETHI_TIME32_SECOND, "12:00 PM-2147483648", 2, LIST(8, 19), 43200, INT32_MIN);
    READ(CULLPETHI_DATE32, "1970-01-021969-12-31", 3, LIST(10, 20), 1, -1);
    READ(CULLPETHI_DATE64, "1970-01-021969-12-31T23:59:59.0005", 2, LIST(10, 34), 86400000, -1000);
    /* no texts, with bytes and cells or without; bytes past the last end that are no text */
    READ(CULLPETHI_DATE32, "", 0, NONE, 0);
    READ(CULLPETHI_DATE32, "2020", 2, NONE, 0);
    READ(CULLPETHI_TIME32_SECOND, "1:00\xFFx", 4, LIST(4), 3600);
}

static void refused(void) {
    REFUSED(CULLPETHI_TIME32_SECOND, "x1:002:00", 3, LIST(1, 5, 9), CULLPETHI_TIME_OF_DAY, 0);
    REFUSED(CULLPETHI_TIME32_SECOND, "1:00x2:00", 3, LIST(4, 5, 9), CULLPETHI_TIME_OF_DAY, 1);
    REFUSED(CULLPETHI_TIME32_SECOND, "1:002:00x", 4, LIST(4, 8, 9), CULLPETHI_TIME_OF_DAY, 2);
    REFUSED(CULLPETHI_TIME32_SECOND, "1:00xy", 3, LIST(4, 5, 6), CULLPETHI_TIME_OF_DAY, 1);
    REFUSED(CULLPETHI_TIME32_SECOND, "1:002:00", 3, LIST(4, 4, 8), CULLPETHI_TIME_OF_DAY, 1);
    REFUSED(CULLPETHI_DATE32, "", 1, LIST(0), CULLPETHI_DATE, 0);
    REFUSED(CULLPETHI_TIMESTAMP_NANOSECOND, "\xC3\xA9", 2, LIST(1, 2), CULLPETHI_NOT_UTF8, 0);
    REFUSED(CULLPETHI_TIMESTAMP_SECOND, "1970-01-011970-01-01_1970-01-01T", 3, LIST(10, 21, 32), CULLPETHI_SEPARATOR, 1);
    REFUSED(CULLPETHI_TIMESTAMP_MILLISECOND, "1970-01-01T", 1, LIST(11), CULLPETHI_TIME, 0);
    REFUSED(CULLPETHI_TIMESTAMP_MICROSECOND, "1970-01-01T00:00:00+", 1, LIST(20), CULLPETHI_TAIL, 0);
    REFUSED(CULLPETHI_TIMESTAMP_SECOND, "9999-12-31", 1, LIST(10), CULLPETHI_RANGE, 0);
    REFUSED(CULLPETHI_TIME32_MILLISECOND, "2147483648", 1, LIST(10), CULLPETHI_TIME_OF_DAY, 0);
    REFUSED(CULLPETHI_TIME64_NANOSECOND, "1234 1234", 2, LIST(4, 9), CULLPETHI_TIME_OF_DAY, 1);
    REFUSED(CULLPETHI_DATE64, "2020-01-01 2020-01-01", 2, LIST(11, 21), CULLPETHI_TIME, 0);
}

/* 13 before any text, also where a text would be refused; 255 before 13. */
static void not_read(void) {
    NOT_READ(CULLPETHI_TIME32_SECOND, "1:00", 2, LIST(4, 3), CULLPETHI_COLUMN);
    NOT_READ(CULLPETHI_TIME32_SECOND, "1:00", 1, LIST(5), CULLPETHI_COLUMN);
    NOT_READ(CULLPETHI_TIME32_SECOND, "x1:00", 1, LIST(1, 5), CULLPETHI_COLUMN);
    NOT_READ(CULLPETHI_TIME32_SECOND, "x", 3, LIST(1, UINT32_MAX, 1), CULLPETHI_COLUMN);
    NOT_READ(CULLPETHI_TIME32_SECOND, "", 0, LIST(0), CULLPETHI_COLUMN);
    for (int column = CULLPETHI_DATE64 + 1; column < 256; column++)
        NOT_READ((uint8_t)column, "1:00", 0, LIST(9), CULLPETHI_NO_COLUMN);
}

int main(void) {
    page_size = (size_t)sysconf(_SC_PAGESIZE);
    accepted();
    refused();
    not_read();
    printf("%u passed, %u failed\n", passed, failed);
    return failed != 0;
}
