/* Readers of dates, times of day, timestamps and intervals, printing of intervals, conversion of interval records, and every small interval
 * text for a keypad's test, proved in Rattle.
 * Link with libcullpethi.a.
 *
 * Each function returns CULLPETHI_OK and writes its cells, or returns a refusal's number and leaves every cell as it was, but for the one
 * that tells where: `place` of an interval, `index` of a column or of records. That one is written exactly with the refusals that the function's comment
 * names, and is not stored to otherwise. A text is `len` bytes at `text`: it needs no end mark, and is neither altered nor read past its
 * end. Where `len` is 0, `text` may be any pointer but NULL. Each cell is aligned, and apart from the other cells and from the text. A call
 * touches no other memory of the caller, keeps nothing and allocates nothing, so any number of threads may call.
 */
#ifndef CULLPETHI_H
#define CULLPETHI_H

#include <stddef.h>
#include <stdint.h>

#ifdef __cplusplus
extern "C" {
#endif

/* What a function returns: the refusals in the order in which they are looked for. */
enum cullpethi_status {
    CULLPETHI_OK = 0,            /* the text is read, and the cells are written */
    CULLPETHI_NOT_UTF8 = 1,      /* the bytes are not well-formed UTF-8 */
    CULLPETHI_DATE = 2,          /* no date: no shape of one, no day of the calendar, or a stamp of fewer than 10 bytes */
    CULLPETHI_SEPARATOR = 3,     /* byte 10 of a longer stamp is not T, t or a space */
    CULLPETHI_TIME = 4,          /* no time part of a stamp, or a field of it is out of range */
    CULLPETHI_TAIL = 5,          /* bytes remain after the time that are neither a single final z or Z nor of an offset's shape */
    CULLPETHI_OFFSET = 15,       /* the hours or minutes of an offset are out of range */
    CULLPETHI_RANGE = 6,         /* the nanoseconds do not fit 64 signed bits, or the day number does not fit 32 */
    CULLPETHI_TIME_OF_DAY = 7,   /* a time-of-day text is neither a time nor, for a time column, an integer of its width */
    CULLPETHI_INTERVAL = 8,      /* an interval text has no division */
    CULLPETHI_REPEATED_UNIT = 9, /* a unit comes twice */
    CULLPETHI_OVERFLOW = 10,     /* a contribution or a running total does not fit */
    CULLPETHI_NARROWED = 11,     /* the narrowed interval form cannot hold the result */
    CULLPETHI_SITE_STAMP = 12,   /* the plain stamp reader accepts the text, but it is no site stamp */
    CULLPETHI_COLUMN = 13,       /* the ends of a column's texts fall or pass the bytes, or there are fewer cells than ends */
    CULLPETHI_BUFFER = 14,       /* the buffer is too short */
    CULLPETHI_RECORDS = 16,      /* the bytes are no whole number of records */
    CULLPETHI_KEYPAD = 17,       /* no keypad text has this number */
    CULLPETHI_NO_UNIT = 255,     /* the number of a default unit is none of cullpethi_unit */
    CULLPETHI_NO_COLUMN = 255    /* the number of a column is none of cullpethi_column */
};

/* The default unit of an interval: that of a last amount without one. */
enum cullpethi_unit {
    CULLPETHI_CENTURY = 0,
    CULLPETHI_DECADE = 1,
    CULLPETHI_YEAR = 2,
    CULLPETHI_MONTH = 3,
    CULLPETHI_WEEK = 4,
    CULLPETHI_DAY = 5,
    CULLPETHI_HOUR = 6,
    CULLPETHI_MINUTE = 7,
    CULLPETHI_SECOND = 8,
    CULLPETHI_MILLISECOND = 9,
    CULLPETHI_MICROSECOND = 10,
    CULLPETHI_NANOSECOND = 11
};

/* The columns that cullpethi_parse_column reads, each as the function of its name reads one text. */
enum cullpethi_column {
    CULLPETHI_TIMESTAMP_NANOSECOND = 0,
    CULLPETHI_TIMESTAMP_MICROSECOND = 1,
    CULLPETHI_TIMESTAMP_MILLISECOND = 2,
    CULLPETHI_TIMESTAMP_SECOND = 3,
    CULLPETHI_TIME64_NANOSECOND = 4,
    CULLPETHI_TIME64_MICROSECOND = 5,
    CULLPETHI_TIME32_MILLISECOND = 6,
    CULLPETHI_TIME32_SECOND = 7,
    CULLPETHI_DATE32 = 8,
    CULLPETHI_DATE64 = 9
};

/* A stamp, in nanoseconds since 1970-01-01T00:00:00Z: 2020-09-08T13:42:29.190855Z, 2020-09-08 13:42:29, 2020-09-08; with an offset
   2020-09-08T15:42:29+02:00, 2020-09-08 13:42:29 -0130, 2020-09-08T14:42:29+01. */
uint8_t cullpethi_string_to_timestamp_nanos(const uint8_t *text, size_t len, int64_t *nanos);

/* A time of day, in nanoseconds since midnight: 09:26:56.123 AM, 23:59:59, 6:00 pm. */
uint8_t cullpethi_string_to_time_nanoseconds(const uint8_t *text, size_t len, int64_t *nanos);

/* A site stamp, in nanoseconds since 1970-01-01: 2026-03-01T06:30:00Z, with a point and 1 to 9 digits if need be; second 60
   only as 23:59:60 on 30 June or 31 December, and then `leap` is 1, else 0. Both cells are written, or neither. */
uint8_t cullpethi_site_stamp(const uint8_t *text, size_t len, int64_t *nanos, uint8_t *leap);

/* A timestamp column: a stamp, as given or trimmed, in nanoseconds. */
uint8_t cullpethi_parse_timestamp_nanosecond(const uint8_t *text, size_t len, int64_t *nanos);

/* The same in microseconds, cut toward zero. */
uint8_t cullpethi_parse_timestamp_microsecond(const uint8_t *text, size_t len, int64_t *micros);

/* The same in milliseconds, cut toward zero. */
uint8_t cullpethi_parse_timestamp_millisecond(const uint8_t *text, size_t len, int64_t *millis);

/* The same in seconds, cut toward zero. */
uint8_t cullpethi_parse_timestamp_second(const uint8_t *text, size_t len, int64_t *seconds);

/* A time column: a time of day in nanoseconds; failing that, the text as an integer of 64 bits; failing that, a time once trimmed. */
uint8_t cullpethi_parse_time64_nanosecond(const uint8_t *text, size_t len, int64_t *nanos);

/* The same in microseconds; an integer stands as it is. */
uint8_t cullpethi_parse_time64_microsecond(const uint8_t *text, size_t len, int64_t *micros);

/* A date column in milliseconds since 1970-01-01: up to 10 bytes a date, beyond that a stamp, rounded down; never trimmed. */
uint8_t cullpethi_parse_date64(const uint8_t *text, size_t len, int64_t *millis);

/* A time column in milliseconds, or an integer of 32 bits. */
uint8_t cullpethi_parse_time32_millisecond(const uint8_t *text, size_t len, int32_t *millis);

/* A time column in seconds, or an integer of 32 bits. */
uint8_t cullpethi_parse_time32_second(const uint8_t *text, size_t len, int32_t *seconds);

/* A date column in days since 1970-01-01: the day of a date, or of a stamp in UTC, as given or trimmed. */
uint8_t cullpethi_parse_date32(const uint8_t *text, size_t len, int32_t *days);

/* The four readers of intervals have a cell `place`: where in the text a refusal is, as a number of bytes from 0 to `len`.
 *
 * A text is split at each White_Space character of Unicode, empty words included. A word with a character other than 0 to 9, point and
 * minus is an amount and a unit, parted before the first such character. Any other word is an amount, and its unit is the next word, or
 * there is none if it is the last. An amount and its unit are a component, which begins where its amount does.
 *
 * CULLPETHI_INTERVAL: where the first piece begins that is no amount or no unit, components from the left, the amount before its unit:
 * 0 in `1-2 days`, 2 in `1  day`, 6 in `1 day x`, whose second amount is empty.
 * CULLPETHI_REPEATED_UNIT: where the first component begins whose unit came before: 6 in `1 day 2 days 3 d`.
 * CULLPETHI_OVERFLOW: where the component begins whose contribution or running total first does not fit: 18 in `2147483647 months 1 year`.
 * Any other number: `place` is not stored to. With a refusal no other cell is stored to, not even during the call.
 */

/* An interval in months, where it has no days and no nanoseconds; years are the default unit. `place` is written with CULLPETHI_INTERVAL,
 * CULLPETHI_REPEATED_UNIT and CULLPETHI_OVERFLOW, and is not stored to otherwise. */
uint8_t cullpethi_parse_interval_year_month(const uint8_t *text, size_t len, int32_t *months, size_t *place);

/* An interval in days, 30 to a month, and milliseconds; days are the default unit. `place` is written with the same numbers. */
uint8_t cullpethi_parse_interval_day_time(const uint8_t *text, size_t len, int32_t *days, int32_t *millis, size_t *place);

/* An interval in months, days and nanoseconds; months are the default unit. `place` is written with the same numbers. */
uint8_t cullpethi_parse_interval_month_day_nano(const uint8_t *text, size_t len, int32_t *months, int32_t *days, int64_t *nanos,
                                                size_t *place);

/* The same with a default unit of cullpethi_unit. `place` is written with the same numbers, so not with CULLPETHI_NO_UNIT. */
uint8_t cullpethi_parse_interval_month_day_nano_config(const uint8_t *text, size_t len, uint8_t default_unit, int32_t *months,
                                                       int32_t *days, int64_t *nanos, size_t *place);

/* The two functions that print, and cullpethi_keypad_text, have `buffer_len` bytes at `buffer` and a cell `length`. Buffer, cells and text are
 * apart from one another. Where `buffer_len` is 0, `buffer` may be any pointer but NULL.
 *
 * CULLPETHI_OK: the buffer begins with what is printed, in ASCII and without an end mark, and `length` holds how many bytes that is. The
 * bytes past it are kept: they are not stored to.
 * CULLPETHI_BUFFER: the buffer is shorter than what is to be printed.
 * With this and any number but CULLPETHI_OK neither the buffer nor `length` is stored to, not even during the call.
 */

/* An interval as a text: whole amounts of months, days and nanoseconds in that order, with single spaces, those of 0 left out, `0 months`
 * where all are 0: `1 months -2 days`. A reader of months, days and nanoseconds reads it back as the same interval, with any default unit.
 * 68 bytes are always enough. */
uint8_t cullpethi_write_interval(int32_t months, int32_t days, int64_t nanos, uint8_t *buffer, size_t buffer_len, size_t *length);

/* The components of an interval text, in their order, each as a line with a line feed: that of `1.5 months` is
 * `unit=month whole=1 frac=500000000000000`. The unit is a name of cullpethi_unit in small letters, that of the default unit too; `whole` is
 * the whole part of the amount, and `frac` its fraction, with the sign, times ten to the fifteenth. There are at most 12 lines, each of at
 * most 66 bytes.
 *
 * CULLPETHI_NO_UNIT; then the number with which cullpethi_parse_interval_month_day_nano_config with this default unit refuses the text, and
 * `place` is written with the same numbers as there; then CULLPETHI_BUFFER. */
uint8_t cullpethi_list_interval(const uint8_t *text, size_t len, uint8_t default_unit, uint8_t *buffer, size_t buffer_len, size_t *length,
                                size_t *place);

/* A whole column of cullpethi_column. The texts lie end to end in `texts_len` bytes at `texts`: text i is the bytes from the end before it,
 * ends[i - 1], 0 for the first, up to ends[i]. There are `ends_len` of them, and `cells_len` cells; a value of 32 bits keeps its number.
 * Texts, ends, cells and `index` are apart from one another.
 *
 * CULLPETHI_OK: every text is accepted, cells[i] holds the value of text i, and later cells are as they were; `index` too.
 * CULLPETHI_NO_COLUMN, then CULLPETHI_COLUMN: no text is read, and cells and `index` are as they were.
 * Any other number: that of the first refused text, whose i `index` holds. No cell is written, not even during the call: a cell may be a
 * register. Bytes past the last end are not read. Where a length is 0, its pointer may be any but NULL.
 */
uint8_t cullpethi_parse_column(uint8_t column, const uint8_t *texts, size_t texts_len, const uint32_t *ends, size_t ends_len,
                               int64_t *cells, size_t cells_len, size_t *index);

/* The two functions that convert records of intervals have `from_len` bytes at `from` and `to_len` bytes at `to`. The two buffers lie apart from
 * each other and from `index`, and neither need be aligned. Where a length is 0, its pointer may be any but NULL.
 *
 * A day-time record, Arrow's that older controllers store, is 8 bytes: days, then milliseconds, 32 signed bits each, little endian. A
 * month-day-nano record is 16 bytes: months, days and nanoseconds in 32, 32 and 64 signed bits, likewise. Records lie one behind another.
 *
 * CULLPETHI_OK: every record at `from` is converted, and they are in the first bytes at `to`, twice `from_len` or half of it. What is past the
 * last one is kept, whatever its length: it is not stored to.
 * CULLPETHI_RECORDS: `from_len` is no multiple of the record at `from`. Then CULLPETHI_BUFFER: there is no room at `to` for all.
 * With these and with CULLPETHI_NARROWED nothing at `to` is stored to, not even during the call.
 */

/* Day-time records as month-day-nano records: months 0, the same days, and the milliseconds times 1,000,000. Every record goes. */
uint8_t cullpethi_day_time_to_month_day_nano(const uint8_t *from, size_t from_len, uint8_t *to, size_t to_len);

/* Month-day-nano records as day-time records. CULLPETHI_NARROWED, after the other two: `index` is the number, from 0, of the first record whose
 * months are not 0, whose nanoseconds are no multiple of 1,000,000, or whose milliseconds do not fit 32 bits. Months are not turned into
 * days. With any other number `index` is not stored to. */
uint8_t cullpethi_month_day_nano_to_day_time(const uint8_t *from, size_t from_len, uint8_t *to, size_t to_len, size_t *index);

/* How many keypad texts there are: 120 of one component, 13,200 of two and 1,320,000 of three. */
#define CULLPETHI_KEYPAD_TEXTS 1333320

/* Keypad text `k`, from 0, into `buffer`: see the functions that print. The texts are all interval texts of one to three components, each a digit
 * and one of c, dec, y, mon, w, d, h, m, s, ms, us, nanosecond, no unit twice, with single spaces: `0c` is the first and `9nanosecond 9us 9ms`
 * the last. Those of fewer components come first, then they go component by component from the left, each by its digit and then by its unit in
 * that order. A reader of months, days and nanoseconds accepts every one, with any default unit. 21 bytes are always enough.
 *
 * CULLPETHI_KEYPAD: `k` is CULLPETHI_KEYPAD_TEXTS or more. Then CULLPETHI_BUFFER. */
uint8_t cullpethi_keypad_text(uint64_t k, uint8_t *buffer, size_t buffer_len, size_t *length);

#ifdef __cplusplus
}
#endif

#endif
