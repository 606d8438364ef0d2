/* Calls the two functions that convert records, with each length of the buffer up to that of what is written, and longer ones. What a call
 * must not store to cannot be written: the records that are read, the buffer and `index` with a refusal, and the bytes of the buffer past the
 * last record. So a store of even the same value would end the program: what no contract can say of the time during a call. Records,
 * buffer and index stand against a page that cannot be touched. */
#define _DEFAULT_SOURCE
#include "cullpethi.h"

#include <stdio.h>
#include <string.h>
#include <sys/mman.h>
#include <unistd.h>

enum { OLD = 8, NEW = 16, MOST = 5 };

static unsigned passed, failed;
static size_t page_size;
/* The page of the records that are read, of the buffer with one behind it for its rest, and of the index. */
static uint8_t *read_page, *buffer, *rest, *told;

static uint8_t *map(void) {
    uint8_t *pages = mmap(NULL, 3 * page_size, PROT_NONE, MAP_PRIVATE | MAP_ANONYMOUS, -1, 0);
    if (pages == MAP_FAILED) {
        perror("mmap");
        _exit(2);
    }
    return pages;
}

static void lend(uint8_t *page, int how) {
    if (mprotect(page, page_size, how)) perror("mprotect");
}

/* The last n bytes of a page. */
static void *last(uint8_t *page, size_t n) { return page + page_size - n; }

static int is_all(const uint8_t *page, size_t n, uint8_t mark) {
    for (size_t i = 0; i < n; i++)
        if (page[i] != mark) return 0;
    return 1;
}

/* A record of each kind, by its numbers. */
struct record {
    int32_t months, days, millis;
    int64_t nanos;
};

/* A number's lowest bytes, the lowest first: by division, not as this machine holds it. */
static uint8_t *put(uint8_t *at, int64_t z, int n) {
    uint64_t u = (uint64_t)z;
    for (int i = 0; i < n; i++, u /= 256) *at++ = (uint8_t)(u % 256);
    return at;
}

static uint8_t *put_old(uint8_t *at, const struct record *r) { return put(put(at, r->days, 4), r->millis, 4); }
static uint8_t *put_new(uint8_t *at, const struct record *r) { return put(put(put(at, r->months, 4), r->days, 4), r->nanos, 8); }

/* What is called and with how many bytes, the status and index of a buffer that is long enough, and what is written there then. */
struct expected {
    int back;
    const uint8_t *from;
    size_t from_len;
    uint8_t status;
    size_t index;
    const uint8_t *to;
    size_t to_len;
};

/* One call with a buffer of `room` bytes. Where records are written they end with the buffer's page, and the rest is behind it. */
static int holds(const struct expected *e, size_t room, uint8_t mark) {
    uint8_t status = e->status != CULLPETHI_RECORDS && room < e->to_len ? CULLPETHI_BUFFER : e->status;
    size_t written = status == CULLPETHI_OK ? e->to_len : 0, *index = last(told, sizeof *index);
    uint8_t *pages[] = {read_page, buffer, rest, told};
    for (int i = 0; i < 4; i++) lend(pages[i], PROT_READ | PROT_WRITE), memset(pages[i], mark, page_size);
    uint8_t *from = memcpy(last(read_page, e->from_len), e->from, e->from_len);
    uint8_t *to = last(buffer, status == CULLPETHI_OK ? written : room);
    lend(read_page, PROT_READ);
    lend(rest, status == CULLPETHI_OK && room > written ? PROT_READ : PROT_NONE);
    if (written == 0) lend(buffer, PROT_READ);
    if (status != CULLPETHI_NARROWED) lend(told, PROT_READ);
    uint8_t got = e->back ? cullpethi_month_day_nano_to_day_time(from, e->from_len, to, room, index)
                          : cullpethi_day_time_to_month_day_nano(from, e->from_len, to, room);
    lend(rest, PROT_READ);
    size_t in_told = status == CULLPETHI_NARROWED ? sizeof *index : 0;
    return got == status && memcmp(from, e->from, e->from_len) == 0 && is_all(buffer, page_size - written, mark) && is_all(rest, page_size, mark) &&
           memcmp(last(buffer, written), e->to, written) == 0 && is_all(told, page_size - in_told, mark) && (in_told == 0 || *index == e->index);
}

static void expect(struct expected e) {
    for (size_t room = 0; room <= e.to_len + 40; room++) {
        if (holds(&e, room, 0x5A) && holds(&e, room, 0xFF)) {
            passed++;
        } else {
            failed++;
            printf("failed: %s of %zu bytes into %zu\n", e.back ? "back" : "conversion", e.from_len, room);
        }
    }
}

/* Records that go both ways. */
static void both_ways(const struct record *records, size_t n) {
    uint8_t old[OLD * MOST], new[NEW * MOST], *at = old, *to = new;
    for (size_t i = 0; i < n; i++) at = put_old(at, records + i), to = put_new(to, records + i);
    expect((struct expected){0, old, OLD * n, CULLPETHI_OK, 0, new, NEW * n});
    expect((struct expected){1, new, NEW * n, CULLPETHI_OK, 0, old, OLD * n});
}

/* New records of which one has no old record. */
static void stays(const struct record *records, size_t n, size_t index) {
    uint8_t new[NEW * MOST], *to = new;
    for (size_t i = 0; i < n; i++) to = put_new(to, records + i);
    expect((struct expected){1, new, NEW * n, CULLPETHI_NARROWED, index, NULL, OLD * n});
}

/* A length that is no multiple, with any room. */
static void uneven(void) {
    static const uint8_t bytes[3 * NEW] = {1};
    for (size_t n = 1; n < sizeof bytes; n++) {
        if (n % OLD != 0) expect((struct expected){0, bytes, n, CULLPETHI_RECORDS, 0, NULL, 2 * n});
        if (n % NEW != 0) expect((struct expected){1, bytes, n, CULLPETHI_RECORDS, 0, NULL, n / 2});
    }
}

static void accepted(void) {
    static const int32_t ends[] = {INT32_MIN, INT32_MIN + 1, -256, -8, -1, 0, 1, 7, 255, 256, 0x01020304, INT32_MAX - 1, INT32_MAX};
    enum { ENDS = sizeof ends / sizeof ends[0] };
    for (size_t i = 0; i < ENDS; i++)
        for (size_t j = 0; j < ENDS; j++)
            both_ways(&(struct record){0, ends[i], ends[j], (int64_t)ends[j] * 1000000}, 1);
    static const struct record several[MOST] = {
        {0, 1, 2, 2000000}, {0, INT32_MIN, INT32_MAX, INT64_C(2147483647000000)}, {0, 0, 0, 0}, {0, -3, -4, -4000000},
        {0, INT32_MAX, INT32_MIN, INT64_C(-2147483648000000)},
    };
    for (size_t n = 0; n <= MOST; n++) both_ways(several, n);
}

static void refused(void) {
    static const struct record no_old[] = {
        {1, 0, 0, 0}, {-1, 30, 0, 0}, {INT32_MIN, 0, 0, 0}, {256, 0, 0, 0}, {0, 5, 0, 1}, {0, 5, 0, -1}, {0, 5, 0, 999999}, {0, 5, 0, -1000001},
        {0, -1, 0, INT64_C(2147483648000000)}, {0, -1, 0, INT64_C(2147483647000001)}, {0, -1, 0, INT64_C(-2147483648000001)},
        {0, -1, 0, INT64_C(-2147483649000000)}, {0, 0, 0, INT64_MAX}, {0, 0, 0, INT64_MIN}, {0, 0, 0, INT64_C(4294967296000000)},
    };
    for (size_t i = 0; i < sizeof no_old / sizeof no_old[0]; i++)
        for (size_t n = 1; n <= 3; n++)
            for (size_t at = 0; at < n; at++) {
                struct record all[MOST] = {{0, 1, 2, 2000000}, {0, -1, -2, -2000000}, {0, 0, 0, 0}, {0, 0, 0, 0}, {0, 0, 0, 0}};
                all[at] = no_old[i];
                stays(all, n, at);
            }
}

int main(void) {
    page_size = (size_t)sysconf(_SC_PAGESIZE);
    read_page = map(), buffer = map(), rest = buffer + page_size, told = map();
    uneven();
    accepted();
    refused();
    printf("%u passed, %u failed\n", passed, failed);
    return failed != 0;
}
