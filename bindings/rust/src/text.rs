//! Texts: where one is not UTF-8.

use crate::ffi;

/// Where a text is not UTF-8: the offset at which the first sequence begins that RFC 3629 does not allow. None for a good text.
///
/// ```
/// use gvdb::first_bad;
/// assert_eq!(first_bad("caf\u{E9}"), None);
/// assert_eq!(first_bad(b"caf\xE9"), Some(3)); // Latin-1
/// assert_eq!(first_bad(b"\xE9t\xE9"), Some(0));
/// assert_eq!(first_bad(b"a\xC3"), Some(1)); // cut
/// assert_eq!(first_bad(b"ok\xC0\x80"), Some(2)); // a zero in two bytes
/// ```
pub fn first_bad(text: impl AsRef<[u8]>) -> Option<usize> {
    let text = text.as_ref();
    Some(ffi::first_bad(text)).filter(|at| *at < text.len())
}
