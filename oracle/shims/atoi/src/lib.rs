//! The one trait of atoi that `parse.rs` names, for the number columns, which are not compared.
pub trait FromRadix10SignedChecked: Sized {
    fn from_radix_10_signed_checked(text: &[u8]) -> (Option<Self>, usize);
}

macro_rules! from_radix {
    ($($t:ty),*) => {
        $(impl FromRadix10SignedChecked for $t {
            fn from_radix_10_signed_checked(text: &[u8]) -> (Option<Self>, usize) {
                let sign = matches!(text.first(), Some(b'+' | b'-')) as usize;
                let digits = text[sign..].iter().take_while(|b| b.is_ascii_digit()).count();
                let end = if digits == 0 { 0 } else { sign + digits };
                (std::str::from_utf8(&text[..end]).ok().and_then(|s| s.parse().ok()), end)
            }
        })*
    };
}
from_radix!(i8, i16, i32, i64, u8, u16, u32, u64);
