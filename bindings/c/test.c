/* Calls every function of the library, accepted and refused. A text stands between two pages that cannot be touched, first against the
 * one behind it and then against the one before it, and cannot be written; each cell has neighbours that must stay as they are. */
#define _DEFAULT_SOURCE
#include "cullpethi.h"

#include <stdio.h>
#include <string.h>
#include <sys/mman.h>
#include <unistd.h>

static unsigned passed, failed;
static uint8_t *page;
static size_t page_size;

/* Cells of each width, with a neighbour on either side. */
struct wide {
    int64_t before, cell, after;
};

struct narrow {
    int32_t before, cell, after;
};

struct size {
    size_t before, cell, after;
};

struct byte {
    uint8_t before, cell, after;
};

struct cells {
    struct narrow a, b;
    struct wide c;
    struct size place;
    struct byte leap;
};

/* Two marks, so that a cell that was written cannot pass for one that was kept. */
static const uint8_t marks[2] = {0x5A, 0xA5};

typedef uint8_t call(const uint8_t *text, size_t len, uint8_t unit, struct cells *cells);

/* What is expected in the cells; a cell that the function does not have keeps its mark, and `place` does but with 8, 9 and 10. */
struct expected {
    uint8_t status;
    int uses; /* bit 0: cell a, bit 1: cell b, bit 2: cell c, bit 3: the mark, which stands in b here */
    int32_t a, b;
    int64_t c;
    size_t place;
};

#define WIDE(name) \
    static uint8_t call_##name(const uint8_t *text, size_t len, uint8_t unit, struct cells *cells) { \
        (void)unit; \
        return cullpethi_##name(text, len, &cells->c.cell); \
    }
#define NARROW(name) \
    static uint8_t call_##name(const uint8_t *text, size_t len, uint8_t unit, struct cells *cells) { \
        (void)unit; \
        return cullpethi_##name(text, len, &cells->a.cell); \
    }

WIDE(string_to_timestamp_nanos)
WIDE(string_to_time_nanoseconds)
WIDE(parse_timestamp_nanosecond)
WIDE(parse_timestamp_microsecond)
WIDE(parse_timestamp_millisecond)
WIDE(parse_timestamp_second)
WIDE(parse_time64_nanosecond)
WIDE(parse_time64_microsecond)
WIDE(parse_date64)
NARROW(parse_time32_millisecond)
NARROW(parse_time32_second)
NARROW(parse_date32)

static uint8_t call_site_stamp(const uint8_t *text, size_t len, uint8_t unit, struct cells *cells) {
    (void)unit;
    return cullpethi_site_stamp(text, len, &cells->c.cell, &cells->leap.cell);
}

static uint8_t call_parse_interval_year_month(const uint8_t *text, size_t len, uint8_t unit, struct cells *cells) {
    (void)unit;
    return cullpethi_parse_interval_year_month(text, len, &cells->a.cell, &cells->place.cell);
}

static uint8_t call_parse_interval_day_time(const uint8_t *text, size_t len, uint8_t unit, struct cells *cells) {
    (void)unit;
    return cullpethi_parse_interval_day_time(text, len, &cells->a.cell, &cells->b.cell, &cells->place.cell);
}

static uint8_t call_parse_interval_month_day_nano(const uint8_t *text, size_t len, uint8_t unit, struct cells *cells) {
    (void)unit;
    return cullpethi_parse_interval_month_day_nano(text, len, &cells->a.cell, &cells->b.cell, &cells->c.cell, &cells->place.cell);
}

static uint8_t call_parse_interval_month_day_nano_config(const uint8_t *text, size_t len, uint8_t unit, struct cells *cells) {
    return cullpethi_parse_interval_month_day_nano_config(text, len, unit, &cells->a.cell, &cells->b.cell, &cells->c.cell,
                                                          &cells->place.cell);
}

static int has_place(uint8_t status) {
    return status == CULLPETHI_INTERVAL || status == CULLPETHI_REPEATED_UNIT || status == CULLPETHI_OVERFLOW;
}

/* One call with the text at one end of its page, and with one mark. */
static int holds(call *f, const uint8_t *at, const char *text, size_t len, uint8_t unit, uint8_t mark, const struct expected *e) {
    struct cells cells, want;
    memset(&cells, mark, sizeof cells);
    memset(&want, mark, sizeof want);
    if (e->status == CULLPETHI_OK) {
        if (e->uses & 1) want.a.cell = e->a;
        if (e->uses & 2) want.b.cell = e->b;
        if (e->uses & 4) want.c.cell = e->c;
        if (e->uses & 8) want.leap.cell = (uint8_t)e->b;
    }
    if (has_place(e->status)) want.place.cell = e->place;
    uint8_t status = f(at, len, unit, &cells);
    return status == e->status && memcmp(&cells, &want, sizeof cells) == 0 && memcmp(at, text, len) == 0;
}

static void expect(const char *name, call *f, const char *text, size_t len, uint8_t unit, struct expected e) {
    int good = 1;
    for (int end = 0; end < 2; end++) {
        uint8_t *at = end ? page : page + page_size - len;
        if (mprotect(page, page_size, PROT_READ | PROT_WRITE)) perror("mprotect");
        memset(page, '0', page_size);
        memcpy(at, text, len);
        if (mprotect(page, page_size, PROT_READ)) perror("mprotect");
        for (int k = 0; k < 2; k++) good = good && holds(f, at, text, len, unit, marks[k], &e);
    }
    if (good) {
        passed++;
    } else {
        failed++;
        printf("failed: %s of '%.*s'\n", name, (int)len, text);
    }
}

#define EXPECT(name, text, unit, ...) expect(#name, call_##name, text, sizeof(text) - 1, unit, (struct expected){__VA_ARGS__})
#define IS64(name, text, value) EXPECT(name, text, 0, CULLPETHI_OK, 4, 0, 0, value, 0)
#define MARKED(name, text, value, leap) EXPECT(name, text, 0, CULLPETHI_OK, 12, 0, leap, value, 0)
#define IS32(name, text, value) EXPECT(name, text, 0, CULLPETHI_OK, 1, value, 0, 0, 0)
#define REFUSED(name, text, status) EXPECT(name, text, 0, status, 0, 0, 0, 0, 0)
#define REFUSED_AT(name, text, status, place) EXPECT(name, text, 0, status, 0, 0, 0, 0, place)

static void stamps(void) {
    IS64(string_to_timestamp_nanos, "2020-09-08T13:42:29.190855Z", 1599572549190855000);
    IS64(string_to_timestamp_nanos, "1970-01-02", 86400000000000);
    IS64(string_to_timestamp_nanos, "1677-09-21T00:12:43.145224192", INT64_MIN);
    IS64(string_to_timestamp_nanos, "2262-04-11T23:47:16.854775807Z", INT64_MAX);
    REFUSED(string_to_timestamp_nanos, "", CULLPETHI_DATE);
    REFUSED(string_to_timestamp_nanos, "\xFF", CULLPETHI_NOT_UTF8);
    REFUSED(string_to_timestamp_nanos, "2021-02-29", CULLPETHI_DATE);
    REFUSED(string_to_timestamp_nanos, "1970-01-01_", CULLPETHI_SEPARATOR);
    REFUSED(string_to_timestamp_nanos, "1970-01-01T", CULLPETHI_TIME);
    REFUSED(string_to_timestamp_nanos, "1970-01-01T00:00:00+", CULLPETHI_TAIL);
    REFUSED(string_to_timestamp_nanos, "1970-01-01T00:00:00+24:00", CULLPETHI_OFFSET);
    REFUSED(string_to_timestamp_nanos, "1970-01-01T00:00:00+24:00\xFF", CULLPETHI_NOT_UTF8);
    IS64(string_to_timestamp_nanos, "1970-01-01T01:00:00+01:00", 0);
    IS64(string_to_timestamp_nanos, "1970-01-01T00:00:00\xE3\x80\x80-0130", 5400000000000);
    IS64(string_to_timestamp_nanos, "2262-04-12T00:47:16.854775807+01", INT64_MAX);
    REFUSED(string_to_timestamp_nanos, "2262-04-12T00:47:16.854775808+01", CULLPETHI_RANGE);
    REFUSED(string_to_timestamp_nanos, "2262-04-11T23:47:16.854775808Z", CULLPETHI_RANGE);
    IS64(string_to_time_nanoseconds, "6:00 pm", 64800000000000);
    IS64(string_to_time_nanoseconds, "23:59:60", 86400000000000);
    REFUSED(string_to_time_nanoseconds, "1234", CULLPETHI_TIME_OF_DAY);
    REFUSED(string_to_time_nanoseconds, "\xC0", CULLPETHI_NOT_UTF8);
    MARKED(site_stamp, "1970-01-01T00:00:01.000000001Z", 1000000001, 0);
    MARKED(site_stamp, "2016-12-31T23:59:59Z", 1483228799000000000, 0);
    MARKED(site_stamp, "2016-12-31T23:59:60Z", 1483228800000000000, 1);
    MARKED(site_stamp, "2017-01-01T00:00:00Z", 1483228800000000000, 0);
    MARKED(site_stamp, "2015-06-30T23:59:60.5Z", 1435708800500000000, 1);
    REFUSED(site_stamp, "1970-01-01T00:00:01", CULLPETHI_SITE_STAMP);
    REFUSED(site_stamp, "2015-07-31T23:59:60Z", CULLPETHI_SITE_STAMP);
    REFUSED(site_stamp, "2015-06-31T23:59:60Z", CULLPETHI_DATE);
    REFUSED(site_stamp, "1970-01-01T00:00:01+", CULLPETHI_TAIL);
    REFUSED(site_stamp, "1970-01-01T00:00:01+00:00", CULLPETHI_SITE_STAMP);
    REFUSED(site_stamp, "1970-01-01T00:00:01+00:60", CULLPETHI_OFFSET);
}

static void columns(void) {
    IS64(parse_timestamp_nanosecond, "1969-12-31T23:59:59.0005", -999500000);
    REFUSED(parse_timestamp_nanosecond, " \xFF", CULLPETHI_NOT_UTF8);
    IS64(parse_timestamp_microsecond, "1969-12-31T23:59:59.0000005", -999999);
    REFUSED(parse_timestamp_microsecond, "1970-01-01_", CULLPETHI_SEPARATOR);
    IS64(parse_timestamp_millisecond, "1969-12-31T23:59:59.0005", -999);
    REFUSED(parse_timestamp_millisecond, "9999-12-31", CULLPETHI_RANGE);
    IS64(parse_timestamp_second, " 1970-01-01T00:00:01\n", 1);
    IS64(parse_timestamp_second, "\t2020-01-01T00:00:00+01 ", 1577833200);
    REFUSED(parse_timestamp_second, "2020-01-01T00:00:00+24 ", CULLPETHI_OFFSET);
    REFUSED(parse_timestamp_second, " 1970-01-01T", CULLPETHI_TIME);
    IS64(parse_time64_nanosecond, "23:59:60", 86400000000000);
    IS64(parse_time64_nanosecond, "1234", 1234);
    REFUSED(parse_time64_nanosecond, "1234 ", CULLPETHI_TIME_OF_DAY);
    IS64(parse_time64_microsecond, "00:00:00.0000019", 1);
    IS64(parse_time64_microsecond, "-9223372036854775808", INT64_MIN);
    REFUSED(parse_time64_microsecond, "\xED\xA0\x80", CULLPETHI_NOT_UTF8);
    IS64(parse_date64, "2020-1-1xy", 1577836800000);
    IS64(parse_date64, "1969-12-31T23:59:59.0005", -1000);
    IS64(parse_date64, "9999-12-31T23:59:59.999-23:59", 253402387139999);
    REFUSED(parse_date64, "1970-01-01T00:00:00+00:60", CULLPETHI_OFFSET);
    REFUSED(parse_date64, " 1970-01-01", CULLPETHI_DATE);
    IS32(parse_time32_millisecond, "00:00:00.9999", 999);
    IS32(parse_time32_millisecond, "2147483647", INT32_MAX);
    REFUSED(parse_time32_millisecond, "2147483648", CULLPETHI_TIME_OF_DAY);
    IS32(parse_time32_second, "12:00 PM", 43200);
    IS32(parse_time32_second, "-2147483648", INT32_MIN);
    REFUSED(parse_time32_second, "x", CULLPETHI_TIME_OF_DAY);
    IS32(parse_date32, " 1970-1-2 ", 1);
    IS32(parse_date32, "1969-12-31", -1);
    IS32(parse_date32, "0000-01-01T00:00:00+00:01", -719529);
    REFUSED(parse_date32, "1970-01-01T00:00:00-2400", CULLPETHI_OFFSET);
    REFUSED(parse_date32, "+2147483647-01-01", CULLPETHI_RANGE);
    REFUSED(parse_date32, "+2147483648-01-01", CULLPETHI_DATE);
}

static void intervals(void) {
    IS32(parse_interval_year_month, "5", 60);
    IS32(parse_interval_year_month, "-1 year 1 month", -11);
    REFUSED(parse_interval_year_month, "1 week", CULLPETHI_NARROWED);
    REFUSED(parse_interval_year_month, "1 year 2 days", CULLPETHI_NARROWED);
    REFUSED_AT(parse_interval_year_month, "178956971 years", CULLPETHI_OVERFLOW, 0);
    EXPECT(parse_interval_day_time, "1.5", 0, CULLPETHI_OK, 3, 1, 43200000, 0, 0);
    EXPECT(parse_interval_day_time, "-1 month 1 day", 0, CULLPETHI_OK, 3, -29, 0, 0, 0);
    EXPECT(parse_interval_day_time, "71582788 months 7 days", 0, CULLPETHI_OK, 3, INT32_MAX, 0, 0, 0);
    REFUSED(parse_interval_day_time, "71582788 months 8 days", CULLPETHI_NARROWED);
    REFUSED(parse_interval_day_time, "71582789 months -23 days", CULLPETHI_NARROWED);
    EXPECT(parse_interval_month_day_nano, "1.5 months", 0, CULLPETHI_OK, 7, 1, 15, 0, 0);
    EXPECT(parse_interval_month_day_nano, "-.5 days", 0, CULLPETHI_OK, 7, 0, 0, -43200000000000, 0);
    EXPECT(parse_interval_month_day_nano, "1 day 2", 0, CULLPETHI_OK, 7, 2, 1, 0, 0);
    EXPECT(parse_interval_month_day_nano, "306783378 weeks -2 days 0.1 months", 0, CULLPETHI_OK, 7, 0, INT32_MAX, 0, 0);
    REFUSED_AT(parse_interval_month_day_nano, "9223372036854775807 us", CULLPETHI_OVERFLOW, 0);
}

/* -1.5 in each default unit, and every number that is no unit's. */
static void units(void) {
    EXPECT(parse_interval_month_day_nano_config, "-1.5", CULLPETHI_CENTURY, CULLPETHI_OK, 7, -1800, 0, 0, 0);
    EXPECT(parse_interval_month_day_nano_config, "-1.5", CULLPETHI_DECADE, CULLPETHI_OK, 7, -180, 0, 0, 0);
    EXPECT(parse_interval_month_day_nano_config, "-1.5", CULLPETHI_YEAR, CULLPETHI_OK, 7, -18, 0, 0, 0);
    EXPECT(parse_interval_month_day_nano_config, "-1.5", CULLPETHI_MONTH, CULLPETHI_OK, 7, -1, -15, 0, 0);
    EXPECT(parse_interval_month_day_nano_config, "-1.5", CULLPETHI_WEEK, CULLPETHI_OK, 7, 0, -7, -302400000000000, 0);
    EXPECT(parse_interval_month_day_nano_config, "-1.5", CULLPETHI_DAY, CULLPETHI_OK, 7, 0, -1, -43200000000000, 0);
    EXPECT(parse_interval_month_day_nano_config, "-1.5", CULLPETHI_HOUR, CULLPETHI_OK, 7, 0, 0, -5400000000000, 0);
    EXPECT(parse_interval_month_day_nano_config, "-1.5", CULLPETHI_MINUTE, CULLPETHI_OK, 7, 0, 0, -90000000000, 0);
    EXPECT(parse_interval_month_day_nano_config, "-1.5", CULLPETHI_SECOND, CULLPETHI_OK, 7, 0, 0, -1500000000, 0);
    EXPECT(parse_interval_month_day_nano_config, "-1.5", CULLPETHI_MILLISECOND, CULLPETHI_OK, 7, 0, 0, -1500000, 0);
    EXPECT(parse_interval_month_day_nano_config, "-1.5", CULLPETHI_MICROSECOND, CULLPETHI_OK, 7, 0, 0, -1500, 0);
    EXPECT(parse_interval_month_day_nano_config, "-1.5", CULLPETHI_NANOSECOND, CULLPETHI_OK, 7, 0, 0, -1, 0);
    /* also where the text would be refused at a place */
    for (int unit = CULLPETHI_NANOSECOND + 1; unit < 256; unit++) {
        EXPECT(parse_interval_month_day_nano_config, "1", (uint8_t)unit, CULLPETHI_NO_UNIT, 0, 0, 0, 0, 0);
        EXPECT(parse_interval_month_day_nano_config, "1 day x", (uint8_t)unit, CULLPETHI_NO_UNIT, 0, 0, 0, 0, 0);
    }
}

/* A text that the four calls refuse with the same number at the same place, the last with each default unit. */
#define ALL_REFUSE(text, status, place) \
    REFUSED_AT(parse_interval_year_month, text, status, place); \
    REFUSED_AT(parse_interval_day_time, text, status, place); \
    REFUSED_AT(parse_interval_month_day_nano, text, status, place); \
    for (uint8_t unit = CULLPETHI_CENTURY; unit <= CULLPETHI_NANOSECOND; unit++) \
        EXPECT(parse_interval_month_day_nano_config, text, unit, status, 0, 0, 0, 0, place)

/* The first piece that is no amount or no unit. */
static void bad_pieces(void) {
    ALL_REFUSE("1-2 days", CULLPETHI_INTERVAL, 0);
    ALL_REFUSE("1 2day", CULLPETHI_INTERVAL, 2);
    ALL_REFUSE("1day2", CULLPETHI_INTERVAL, 1);
    ALL_REFUSE("1  day", CULLPETHI_INTERVAL, 2);
    ALL_REFUSE("1 ", CULLPETHI_INTERVAL, 2);
    ALL_REFUSE("1 day ", CULLPETHI_INTERVAL, 6);
    ALL_REFUSE("+1 day", CULLPETHI_INTERVAL, 0);
    ALL_REFUSE("", CULLPETHI_INTERVAL, 0);
    ALL_REFUSE("1 day x", CULLPETHI_INTERVAL, 6);
    ALL_REFUSE("1.5x", CULLPETHI_INTERVAL, 3);
    ALL_REFUSE("5 5", CULLPETHI_INTERVAL, 2);
    ALL_REFUSE("1 day 5 5", CULLPETHI_INTERVAL, 8);
    ALL_REFUSE("1 day -1.5x 2 dayz", CULLPETHI_INTERVAL, 10);
    ALL_REFUSE("1 day --1x", CULLPETHI_INTERVAL, 6);
    /* white space of 3 and of 2 bytes, U+212A */
    ALL_REFUSE("1\u3000day\u20032 weeKs 3 \u212A", CULLPETHI_INTERVAL, 20);
    ALL_REFUSE("1 wee\u212A 2 \u00A0days", CULLPETHI_INTERVAL, 11);
    /* 16 digits; 8 before 9, however late, and to the end of the text */
    ALL_REFUSE("1 day 2 hours 0.1234567890123456 days", CULLPETHI_INTERVAL, 14);
    ALL_REFUSE("1 day 1 day 1 day 2 dayz", CULLPETHI_INTERVAL, 20);
    ALL_REFUSE("1c 1dec 1y 1mon 1w 1d 1h 1m 1s 1ms 1us 1nanosecond 1c 1dec 1q", CULLPETHI_INTERVAL, 60);
    /* no place */
    ALL_REFUSE("\x80", CULLPETHI_NOT_UTF8, 0);
    ALL_REFUSE("1 day \xFF", CULLPETHI_NOT_UTF8, 0);
    ALL_REFUSE("1 day 1 day 1 \xED\xA0\x80", CULLPETHI_NOT_UTF8, 0);
}

/* The first component whose unit came before. */
static void repeats(void) {
    ALL_REFUSE("1 day 1 day", CULLPETHI_REPEATED_UNIT, 6);
    ALL_REFUSE("1 day 2 days 3 d", CULLPETHI_REPEATED_UNIT, 6);
    ALL_REFUSE("1 day 2 hours 3 DAYS 4 hours", CULLPETHI_REPEATED_UNIT, 14);
    ALL_REFUSE("1 day 99999999999999 years 2 days", CULLPETHI_REPEATED_UNIT, 27);
    ALL_REFUSE("1 day 2147483647 months 1 year -99999999999 days", CULLPETHI_REPEATED_UNIT, 31);
    ALL_REFUSE("1c 1dec 1y 1mon 1w 1d 1h 1m 1s 1ms 1us 1nanosecond 1c", CULLPETHI_REPEATED_UNIT, 51);
    ALL_REFUSE("1\u3000wee\u212A\u20032 weeks", CULLPETHI_REPEATED_UNIT, 13);
    /* the default unit repeats */
    REFUSED_AT(parse_interval_year_month, "1 year 2", CULLPETHI_REPEATED_UNIT, 7);
    REFUSED_AT(parse_interval_day_time, "1 d 1 h 2", CULLPETHI_REPEATED_UNIT, 8);
    REFUSED_AT(parse_interval_month_day_nano, "1mon 2", CULLPETHI_REPEATED_UNIT, 5);
    EXPECT(parse_interval_month_day_nano_config, "1 d 2", CULLPETHI_DAY, CULLPETHI_REPEATED_UNIT, 0, 0, 0, 0, 4);
    EXPECT(parse_interval_month_day_nano_config, "1 day 2 h 3", CULLPETHI_HOUR, CULLPETHI_REPEATED_UNIT, 0, 0, 0, 0, 10);
}

/* The component whose contribution or running total first does not fit. */
static void overflows(void) {
    ALL_REFUSE("2147483647 months 1 year", CULLPETHI_OVERFLOW, 18);
    ALL_REFUSE("306783378 weeks 0.1 months -2 days", CULLPETHI_OVERFLOW, 16);
    ALL_REFUSE("1 day 2147483647 months 1 year -1 decade", CULLPETHI_OVERFLOW, 24);
    ALL_REFUSE("2147483647 days 0.1 months 2147483648 years", CULLPETHI_OVERFLOW, 16);
    ALL_REFUSE("2147483647 days 1 week 2147483648 months", CULLPETHI_OVERFLOW, 16);
    ALL_REFUSE("3 mons -9223372036854775808.9 nanoseconds -1us", CULLPETHI_OVERFLOW, 42);
    ALL_REFUSE("1\u2003day\u3000178956971 years", CULLPETHI_OVERFLOW, 10);
    /* the default unit does not fit */
    REFUSED_AT(parse_interval_year_month, "-1 mon 178956971", CULLPETHI_OVERFLOW, 7);
    REFUSED_AT(parse_interval_day_time, "1 week 2147483641", CULLPETHI_OVERFLOW, 7);
    REFUSED_AT(parse_interval_month_day_nano, "1 day 2147483648", CULLPETHI_OVERFLOW, 6);
    EXPECT(parse_interval_month_day_nano_config, "1 day 2 h 9223372037", CULLPETHI_SECOND, CULLPETHI_OVERFLOW, 0, 0, 0, 0, 10);
}

int main(void) {
    page_size = (size_t)sysconf(_SC_PAGESIZE);
    uint8_t *pages = mmap(NULL, 3 * page_size, PROT_NONE, MAP_PRIVATE | MAP_ANONYMOUS, -1, 0);
    if (pages == MAP_FAILED) {
        perror("mmap");
        return 1;
    }
    page = pages + page_size;
    stamps();
    columns();
    intervals();
    units();
    bad_pieces();
    repeats();
    overflows();
    printf("%u passed, %u failed\n", passed, failed);
    return failed != 0;
}
