//! The functions of the static library, and the one place that calls those with one cell.
use crate::{Refusal, Text};

/// A function with one cell.
pub type One<V> = unsafe extern "C" fn(*const u8, usize, *mut V) -> u8;

extern "C" {
    pub fn cullpethi_string_to_timestamp_nanos(text: *const u8, len: usize, nanos: *mut i64) -> u8;
    pub fn cullpethi_string_to_time_nanoseconds(text: *const u8, len: usize, nanos: *mut i64)
        -> u8;
    pub fn cullpethi_site_stamp(
        text: *const u8,
        len: usize,
        nanos: *mut i64,
        leap: *mut u8,
    ) -> u8;
    pub fn cullpethi_parse_timestamp_nanosecond(text: *const u8, len: usize, nanos: *mut i64)
        -> u8;
    pub fn cullpethi_parse_timestamp_microsecond(
        text: *const u8,
        len: usize,
        micros: *mut i64,
    ) -> u8;
    pub fn cullpethi_parse_timestamp_millisecond(
        text: *const u8,
        len: usize,
        millis: *mut i64,
    ) -> u8;
    pub fn cullpethi_parse_timestamp_second(text: *const u8, len: usize, seconds: *mut i64) -> u8;
    pub fn cullpethi_parse_time64_nanosecond(text: *const u8, len: usize, nanos: *mut i64) -> u8;
    pub fn cullpethi_parse_time64_microsecond(text: *const u8, len: usize, micros: *mut i64) -> u8;
    pub fn cullpethi_parse_date64(text: *const u8, len: usize, millis: *mut i64) -> u8;
    pub fn cullpethi_parse_time32_millisecond(text: *const u8, len: usize, millis: *mut i32) -> u8;
    pub fn cullpethi_parse_time32_second(text: *const u8, len: usize, seconds: *mut i32) -> u8;
    pub fn cullpethi_parse_date32(text: *const u8, len: usize, days: *mut i32) -> u8;
    pub fn cullpethi_parse_interval_year_month(
        text: *const u8,
        len: usize,
        months: *mut i32,
        place: *mut usize,
    ) -> u8;
    pub fn cullpethi_parse_interval_day_time(
        text: *const u8,
        len: usize,
        days: *mut i32,
        millis: *mut i32,
        place: *mut usize,
    ) -> u8;
    pub fn cullpethi_parse_interval_month_day_nano(
        text: *const u8,
        len: usize,
        months: *mut i32,
        days: *mut i32,
        nanos: *mut i64,
        place: *mut usize,
    ) -> u8;
    pub fn cullpethi_parse_interval_month_day_nano_config(
        text: *const u8,
        len: usize,
        default_unit: u8,
        months: *mut i32,
        days: *mut i32,
        nanos: *mut i64,
        place: *mut usize,
    ) -> u8;
    pub fn cullpethi_write_interval(
        months: i32,
        days: i32,
        nanos: i64,
        buffer: *mut u8,
        buffer_len: usize,
        length: *mut usize,
    ) -> u8;
    pub fn cullpethi_list_interval(
        text: *const u8,
        len: usize,
        default_unit: u8,
        buffer: *mut u8,
        buffer_len: usize,
        length: *mut usize,
        place: *mut usize,
    ) -> u8;
    pub fn cullpethi_parse_column(
        column: u8,
        texts: *const u8,
        texts_len: usize,
        ends: *const u32,
        ends_len: usize,
        cells: *mut i64,
        cells_len: usize,
        index: *mut usize,
    ) -> u8;
    pub fn cullpethi_day_time_to_month_day_nano(
        from: *const u8,
        from_len: usize,
        to: *mut u8,
        to_len: usize,
    ) -> u8;
    pub fn cullpethi_month_day_nano_to_day_time(
        from: *const u8,
        from_len: usize,
        to: *mut u8,
        to_len: usize,
        index: *mut usize,
    ) -> u8;
    pub fn cullpethi_keypad_text(
        k: u64,
        buffer: *mut u8,
        buffer_len: usize,
        length: *mut usize,
    ) -> u8;
}

/// The value that a function writes into its one cell.
pub fn one<T: Text + ?Sized, V: Default>(text: &T, f: One<V>) -> Result<V, Refusal> {
    let text = text.text_bytes();
    let mut cell = V::default();
    // SAFETY: the text is lent for the call, and the cell is a local that nothing else refers to.
    Refusal::unless_ok(unsafe { f(text.as_ptr(), text.len(), &mut cell) })?;
    Ok(cell)
}
