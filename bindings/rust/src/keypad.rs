//! Every small sheet entry, for a keypad's test.
use crate::{library, Refusal};
use std::iter::FusedIterator;
use std::ops::Range;

/// How many keypad texts there are: 120 of one component, 13,200 of two and 1,320,000 of three.
pub const KEYPAD_TEXTS: u64 = 1_333_320;

/// The longest keypad text, as `0nanosecond 0dec 0mon`.
const LONGEST_KEYPAD_TEXT: usize = 21;

/// Writes keypad text `k` from the front of a buffer on, and gives its length; the bytes past it are kept.
///
/// The keypad texts are all interval texts of one to three components, each a digit and one of `c`, `dec`, `y`, `mon`, `w`, `d`, `h`, `m`,
/// `s`, `ms`, `us`, `nanosecond`, no unit twice, with single spaces. Those of fewer components come first, then they go component by
/// component from the left, each by its digit and then by its unit in that order. They are numbered from 0, and a reader of months, days and
/// nanoseconds accepts every one, with any default unit. 21 bytes are always enough.
///
/// Refused with [`Keypad`](Refusal::Keypad) where `k` is [`KEYPAD_TEXTS`] or more, then with [`Buffer`](Refusal::Buffer) where the buffer is
/// too short. It is not touched then.
///
/// ```
/// # use cullpethi::*;
/// let mut buffer = [b'.'; 12];
/// assert_eq!(keypad_text(13_320, &mut buffer), Ok(10));
/// assert_eq!(&buffer, b"0c 0dec 0y..");
/// assert_eq!(keypad_text(13_320, &mut buffer[..9]), Err(Refusal::Buffer));
/// assert_eq!(keypad_text(KEYPAD_TEXTS, &mut []), Err(Refusal::Keypad));
/// ```
pub fn keypad_text(k: u64, buffer: &mut [u8]) -> Result<usize, Refusal> {
    let mut length = 0;
    // SAFETY: the buffer is lent to the call alone, and the length is a local that nothing else refers to.
    Refusal::unless_ok(unsafe {
        library::cullpethi_keypad_text(k, buffer.as_mut_ptr(), buffer.len(), &mut length)
    })?;
    Ok(length)
}

/// All keypad texts in their order, from number 0 on: those that [`keypad_text`] writes.
///
/// ```
/// # use cullpethi::*;
/// let mut texts = keypad_texts();
/// assert_eq!(texts.next().as_deref(), Some("0c"));
/// assert_eq!(texts.nth(11).as_deref(), Some("1c"));
/// assert_eq!(texts.next_back().as_deref(), Some("9nanosecond 9us 9ms"));
/// assert!(keypad_texts().take(120).all(|text| parse_interval_month_day_nano(&text).is_ok()));
/// ```
pub fn keypad_texts() -> KeypadTexts {
    KeypadTexts {
        left: 0..KEYPAD_TEXTS,
    }
}

/// The iterator of [`keypad_texts`].
#[derive(Clone, Debug)]
pub struct KeypadTexts {
    /// The numbers of the texts that are left.
    left: Range<u64>,
}

/// The text of a number below [`KEYPAD_TEXTS`].
fn text(k: u64) -> String {
    let mut buffer = vec![0; LONGEST_KEYPAD_TEXT];
    let length = keypad_text(k, &mut buffer).expect("21 bytes are enough");
    buffer.truncate(length);
    String::from_utf8(buffer).expect("the text is ASCII")
}

impl Iterator for KeypadTexts {
    type Item = String;

    fn next(&mut self) -> Option<String> {
        self.left.next().map(text)
    }

    fn nth(&mut self, n: usize) -> Option<String> {
        self.left.nth(n).map(text)
    }

    fn size_hint(&self) -> (usize, Option<usize>) {
        self.left.size_hint()
    }
}

impl DoubleEndedIterator for KeypadTexts {
    fn next_back(&mut self) -> Option<String> {
        self.left.next_back().map(text)
    }
}

// There are fewer than a `usize` counts.
impl ExactSizeIterator for KeypadTexts {}

impl FusedIterator for KeypadTexts {}
