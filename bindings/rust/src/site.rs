//! The site stamp, which is not in arrow-cast.
use crate::{library, Refusal, Text};

/// What a site stamp is read as.
#[derive(Clone, Copy, Debug, Default, Hash, PartialEq, Eq, PartialOrd, Ord)]
pub struct SiteStamp {
    /// Nanoseconds since 1970-01-01; second 60 is the next minute's first.
    pub nanos: i64,
    /// Whether the text's second is 60.
    pub leap: bool,
}

/// Reads a site stamp, and gives nanoseconds since 1970-01-01 and whether its second is 60. It is not in arrow-cast.
///
/// A site stamp is `yyyy-mm-ddThh:mm:ssZ` with capital letters, and behind the seconds a point and 1 to 9 digits or not; second 60 is only
/// read as `23:59:60` on 30 June or 31 December. Refused as by [`string_to_timestamp_nanos`](crate::string_to_timestamp_nanos), or, where
/// that reads the text, with [`SiteStamp`](Refusal::SiteStamp).
///
/// ```
/// # use cullpethi::*;
/// assert_eq!(site_stamp("1970-01-01T00:00:01Z"), Ok(SiteStamp { nanos: 1_000_000_000, leap: false }));
/// assert_eq!(site_stamp("1970-01-01 00:00:01Z"), Err(Refusal::SiteStamp));
/// let (leap, next) = (site_stamp("2015-06-30T23:59:60Z")?, site_stamp("2015-07-01T00:00:00Z")?);
/// assert_eq!(leap.nanos, next.nanos);
/// assert!(leap.leap && !next.leap);
/// assert_eq!(site_stamp("2015-07-31T23:59:60Z"), Err(Refusal::SiteStamp));
/// # Ok::<(), Refusal>(())
/// ```
pub fn site_stamp<T: Text + ?Sized>(text: &T) -> Result<SiteStamp, Refusal> {
    let text = text.text_bytes();
    let (mut nanos, mut leap) = (0, 0);
    // SAFETY: the text is lent for the call, and the cells are locals that nothing else refers to.
    Refusal::unless_ok(unsafe {
        library::cullpethi_site_stamp(text.as_ptr(), text.len(), &mut nanos, &mut leap)
    })?;
    Ok(SiteStamp {
        nanos,
        leap: leap != 0,
    })
}
