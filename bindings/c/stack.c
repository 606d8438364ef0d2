/* How much stack a call takes: each function is run on a stack of its own that was filled with a mark, on texts of every kind, and what is no
 * longer the mark counts. It is a measurement of these texts, compiled so; no proof bounds it. Fails past BOUND bytes, which the README names.
 * Linked with `-z now`: where memcpy is looked up at its first call, the dynamic linker takes some KB of stack, by the processor. */
#define _DEFAULT_SOURCE
#include "cullpethi.h"

#include <stdio.h>
#include <stdlib.h>
#include <string.h>
#include <ucontext.h>

enum { BOUND = 4096, ROOM = 65536, MARK = 0xA5 };

static unsigned char *stack;
static ucontext_t here, there;
static const uint8_t *text;
static size_t length;
static int which;
/* Not on the measured stack. */
static uint8_t buffer[1024];

static void column(int number) {
    int64_t cell;
    size_t index;
    uint32_t end = (uint32_t)length;
    cullpethi_parse_column((uint8_t)number, text, length, &end, 1, &cell, 1, &index);
}

static void run(void) {
    int32_t a, b;
    int64_t c;
    uint8_t leap;
    size_t place, written;
    switch (which) {
    case 0: cullpethi_string_to_timestamp_nanos(text, length, &c); break;
    case 1: cullpethi_string_to_time_nanoseconds(text, length, &c); break;
    case 2: cullpethi_site_stamp(text, length, &c, &leap); break;
    case 3: cullpethi_parse_timestamp_nanosecond(text, length, &c); break;
    case 4: cullpethi_parse_timestamp_microsecond(text, length, &c); break;
    case 5: cullpethi_parse_timestamp_millisecond(text, length, &c); break;
    case 6: cullpethi_parse_timestamp_second(text, length, &c); break;
    case 7: cullpethi_parse_time64_nanosecond(text, length, &c); break;
    case 8: cullpethi_parse_time64_microsecond(text, length, &c); break;
    case 9: cullpethi_parse_date64(text, length, &c); break;
    case 10: cullpethi_parse_time32_millisecond(text, length, &a); break;
    case 11: cullpethi_parse_time32_second(text, length, &a); break;
    case 12: cullpethi_parse_date32(text, length, &a); break;
    case 13: cullpethi_parse_interval_year_month(text, length, &a, &place); break;
    case 14: cullpethi_parse_interval_day_time(text, length, &a, &b, &place); break;
    case 15: cullpethi_parse_interval_month_day_nano(text, length, &a, &b, &c, &place); break;
    case 16: cullpethi_parse_interval_month_day_nano_config(text, length, CULLPETHI_HOUR, &a, &b, &c, &place); break;
    case 17: cullpethi_write_interval(INT32_MIN, INT32_MIN, INT64_MIN, buffer, sizeof buffer, &written); break;
    case 18: cullpethi_list_interval(text, length, CULLPETHI_HOUR, buffer, sizeof buffer, &written, &place); break;
    case 19: cullpethi_day_time_to_month_day_nano(text, length / 8 * 8, buffer, sizeof buffer); break;
    case 20: cullpethi_month_day_nano_to_day_time(text, length / 16 * 16, buffer, sizeof buffer, &place); break;
    case 21: cullpethi_keypad_text(CULLPETHI_KEYPAD_TEXTS - 1, buffer, sizeof buffer, &written); break;
    default: /* a column of one text, or what a call of nothing takes */
        if (which >= 22) column(which - 22);
        break;
    }
}

/* The bytes that a call on a text overwrote. */
static size_t used(int function, const char *words) {
    text = (const uint8_t *)words;
    length = strlen(words);
    which = function;
    memset(stack, MARK, ROOM);
    getcontext(&there);
    there.uc_stack.ss_sp = stack;
    there.uc_stack.ss_size = ROOM;
    there.uc_link = &here;
    makecontext(&there, run, 0);
    swapcontext(&here, &there);
    size_t kept = 0;
    while (kept < ROOM && stack[kept] == MARK) kept++;
    return ROOM - kept;
}

int main(void) {
    static const char *const texts[] = {
        "", "x", "2020-09-08T13:42:29.190855Z", "2020-09-08 134229", "2020-09-08", " 2020-09-08T13:42:29.190855999999 ", "2020-1-1xy", "20200908",
        "+2020-09-08", "-5877641-06-23", "2020-09-08T13:42:29+01:00",
        "2020-09-08T13:42:29 \t\xE3\x80\x80\xC2\x85-0130", "2020-09-08T13:42:29+24:00", "2016-12-31T23:59:60Z", "2020-02-30", "\xC3\xA9\xE2\x84\xAA\xF0\x9F\x98\x80",
        "\xFF\xFF\xFF\xFF\xFF\xFF\xFF\xFF\xFF\xFF\xFF", "09:26:56.123456789123 AM", " 6:00 pm ", "23:59:60", "1234", "-9223372036854775808",
        "1 day", "1.5 months -.5 days", "1 century 2 decades 3 years 4 mons 5 weeks 6 days 7 hours 8 mins 9.123456789012345 secs 1 ms 2 us 3 nanoseconds",
        "1 day 1 d", "1 day 2 hours 3 DAYS 4 hours", "1 day 2147483647 months 1 year -1 decade", "1\xE3\x80\x80" "day 1-2 days", "1 day x",
        "99999999999 years", "1 wee\xE2\x84\xAA", "1\xE3\x80\x80" "day", "9223372036854775808 nanoseconds",
        "-9223372036854775808.999999999999999 nanoseconds",
    };
    stack = malloc(ROOM);
    if (stack == NULL) return 2;
    size_t most = 0, nothing = used(-1, "");
    for (int function = 0; function < 32; function++)
        for (size_t i = 0; i < sizeof texts / sizeof texts[0]; i++) {
            size_t n = used(function, texts[i]) - nothing;
            if (n > most) most = n;
        }
    printf("stack: at most %zu bytes below the caller's frame\n", most);
    printf("%d passed, %d failed\n", most <= BOUND, most > BOUND);
    return most > BOUND;
}
