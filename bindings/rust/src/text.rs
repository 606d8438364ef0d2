//! What passes as a text.
use std::borrow::Cow;
use std::rc::Rc;
use std::sync::Arc;

/// A text that a reader takes by reference: bytes or characters, however they are held.
///
/// Where arrow-cast takes `&str`, a `&String`, `&Cow<str>`, `&Box<str>`, `&Rc<str>` or `&Arc<str>` passes too; here each of them passes as
/// well, and the same of bytes. Bytes that are no UTF-8 are refused by the reader, with [`Refusal::NotUtf8`](crate::Refusal::NotUtf8). Any
/// other holder of bytes passes as a slice, `&held[..]`, or by an `impl` of this trait.
///
/// ```
/// use cullpethi::parse_date32;
/// use std::borrow::Cow;
/// use std::sync::Arc;
///
/// assert_eq!(parse_date32("1970-01-02"), Ok(1));
/// assert_eq!(parse_date32(b"1970-01-02"), Ok(1));
/// assert_eq!(parse_date32(&Cow::from("1970-01-02")), Ok(1));
/// assert_eq!(parse_date32(&Arc::<str>::from("1970-01-02")), Ok(1));
/// ```
pub trait Text {
    /// The bytes of the text.
    fn text_bytes(&self) -> &[u8];
}

impl Text for str {
    fn text_bytes(&self) -> &[u8] {
        self.as_bytes()
    }
}

impl Text for String {
    fn text_bytes(&self) -> &[u8] {
        self.as_bytes()
    }
}

impl Text for [u8] {
    fn text_bytes(&self) -> &[u8] {
        self
    }
}

impl<const N: usize> Text for [u8; N] {
    fn text_bytes(&self) -> &[u8] {
        self
    }
}

impl Text for Vec<u8> {
    fn text_bytes(&self) -> &[u8] {
        self
    }
}

/// Holders of a text are texts.
macro_rules! holders {
    ($($holder:ty),*) => {
        $(impl<T: Text + ?Sized> Text for $holder {
            fn text_bytes(&self) -> &[u8] {
                (**self).text_bytes()
            }
        })*
    };
}

holders!(&T, &mut T, Box<T>, Rc<T>, Arc<T>);

impl<T: Text + ToOwned + ?Sized> Text for Cow<'_, T> {
    fn text_bytes(&self) -> &[u8] {
        (**self).text_bytes()
    }
}
