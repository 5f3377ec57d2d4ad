//! Small ASCII texts stored in place: the codes of months and eras.

use crate::error::TinyStrError;
use core::fmt;
use core::ops::Deref;
use core::str;
use core::str::FromStr;

/// A text of at most `N` ASCII bytes, each from 1 to 127.
///
/// It compares and hashes like the text as a `str`. It corresponds to the type with this name in the crate `tinystr`.
///
/// # Examples
///
/// ```
/// use icu_calendar::types::TinyAsciiStr;
///
/// let era: TinyAsciiStr<16> = "reiwa".parse().unwrap();
/// assert_eq!(era, "reiwa");
/// assert!(era.starts_with("rei"));
/// ```
#[derive(Clone, Copy, PartialEq, Eq, Hash, PartialOrd, Ord)]
pub struct TinyAsciiStr<const N: usize> {
    /// The text, filled up with 0. So the order of the arrays is that of the texts.
    bytes: [u8; N],
}

impl<const N: usize> TinyAsciiStr<N> {
    /// Creates a text from bytes.
    ///
    /// # Errors
    ///
    /// The first of these that applies:
    ///
    /// - [`TinyStrError::TooLong`] if there are more than `N` bytes.
    /// - [`TinyStrError::NonAscii`] if a byte is 0 or above 127.
    ///
    /// # Examples
    ///
    /// ```
    /// use icu_calendar::types::TinyAsciiStr;
    ///
    /// let era = TinyAsciiStr::<16>::try_from_utf8(b"reiwa").unwrap();
    /// assert_eq!(era.as_str(), "reiwa");
    /// ```
    pub const fn try_from_utf8(bytes: &[u8]) -> Result<Self, TinyStrError> {
        if bytes.len() > N {
            return Err(TinyStrError::TooLong);
        }
        let mut held = [0; N];
        let mut i = 0;
        while i < bytes.len() {
            if bytes[i] == 0 || bytes[i] > 127 {
                return Err(TinyStrError::NonAscii);
            }
            held[i] = bytes[i];
            i += 1;
        }
        Ok(TinyAsciiStr { bytes: held })
    }

    /// Creates a text from a `str`.
    ///
    /// # Errors
    ///
    /// - The errors of [`TinyAsciiStr::try_from_utf8`].
    ///
    /// # Examples
    ///
    /// ```
    /// use icu_calendar::types::TinyAsciiStr;
    ///
    /// assert!(TinyAsciiStr::<4>::try_from_str("reiwa").is_err());
    /// ```
    pub const fn try_from_str(text: &str) -> Result<Self, TinyStrError> {
        TinyAsciiStr::try_from_utf8(text.as_bytes())
    }

    /// Creates a text from its bytes filled up with 0, which are ASCII.
    pub(crate) const fn of_filled(bytes: [u8; N]) -> Self {
        TinyAsciiStr { bytes }
    }

    /// Creates a text from the bytes of a code, which fit and are ASCII.
    pub(crate) const fn of_text(text: &[u8]) -> Self {
        match TinyAsciiStr::try_from_utf8(text) {
            Ok(text) => text,
            Err(_) => panic!("a code of a month or an era is a short ASCII text"),
        }
    }

    /// Returns the text as a `str`.
    ///
    /// # Examples
    ///
    /// ```
    /// use icu_calendar::tinystr;
    ///
    /// assert_eq!(tinystr!(16, "reiwa").as_str(), "reiwa");
    /// ```
    pub fn as_str(&self) -> &str {
        // All bytes are ASCII, so the text is never replaced.
        str::from_utf8(self.as_bytes()).unwrap_or("")
    }

    /// Returns the bytes of the text.
    ///
    /// # Examples
    ///
    /// ```
    /// use icu_calendar::tinystr;
    ///
    /// assert_eq!(tinystr!(16, "reiwa").as_bytes(), b"reiwa");
    /// ```
    pub fn as_bytes(&self) -> &[u8] {
        &self.bytes[..self.len()]
    }

    /// Returns the bytes of the text, filled up with 0 to `N`.
    ///
    /// # Examples
    ///
    /// ```
    /// use icu_calendar::tinystr;
    ///
    /// assert_eq!(tinystr!(4, "M01").all_bytes(), b"M01\0");
    /// ```
    pub const fn all_bytes(&self) -> &[u8; N] {
        &self.bytes
    }

    /// Returns the number of bytes, at most `N`.
    ///
    /// # Examples
    ///
    /// ```
    /// use icu_calendar::tinystr;
    ///
    /// assert_eq!(tinystr!(16, "reiwa").len(), 5);
    /// ```
    pub fn len(&self) -> usize {
        self.bytes.iter().position(|byte| *byte == 0).unwrap_or(N)
    }

    /// Returns `true` if the text has no bytes.
    ///
    /// # Examples
    ///
    /// ```
    /// use icu_calendar::tinystr;
    ///
    /// assert!(tinystr!(4, "").is_empty());
    /// ```
    pub fn is_empty(&self) -> bool {
        self.len() == 0
    }

    /// Returns the same text with room for `M` bytes, of which it keeps the first `M`.
    ///
    /// # Examples
    ///
    /// ```
    /// use icu_calendar::tinystr;
    ///
    /// assert_eq!(tinystr!(16, "reiwa").resize::<8>(), tinystr!(8, "reiwa"));
    /// ```
    pub fn resize<const M: usize>(self) -> TinyAsciiStr<M> {
        let mut bytes = [0; M];
        let count = self.len().min(M);
        bytes[..count].copy_from_slice(&self.bytes[..count]);
        TinyAsciiStr { bytes }
    }
}

impl<const N: usize> Deref for TinyAsciiStr<N> {
    type Target = str;

    fn deref(&self) -> &str {
        self.as_str()
    }
}

impl<const N: usize> PartialEq<str> for TinyAsciiStr<N> {
    fn eq(&self, other: &str) -> bool {
        self.as_str() == other
    }
}

impl<const N: usize> PartialEq<&str> for TinyAsciiStr<N> {
    fn eq(&self, other: &&str) -> bool {
        self.as_str() == *other
    }
}

impl<const N: usize> PartialEq<TinyAsciiStr<N>> for str {
    fn eq(&self, other: &TinyAsciiStr<N>) -> bool {
        self == other.as_str()
    }
}

impl<const N: usize> PartialEq<TinyAsciiStr<N>> for &str {
    fn eq(&self, other: &TinyAsciiStr<N>) -> bool {
        *self == other.as_str()
    }
}

impl<const N: usize> fmt::Debug for TinyAsciiStr<N> {
    fn fmt(&self, f: &mut fmt::Formatter<'_>) -> fmt::Result {
        fmt::Debug::fmt(self.as_str(), f)
    }
}

impl<const N: usize> fmt::Display for TinyAsciiStr<N> {
    fn fmt(&self, f: &mut fmt::Formatter<'_>) -> fmt::Result {
        fmt::Display::fmt(self.as_str(), f)
    }
}

/// Reads a text as [`TinyAsciiStr::try_from_str`] does.
impl<const N: usize> FromStr for TinyAsciiStr<N> {
    type Err = TinyStrError;

    fn from_str(text: &str) -> Result<Self, TinyStrError> {
        TinyAsciiStr::try_from_str(text)
    }
}

/// Creates a [`TinyAsciiStr`](crate::types::TinyAsciiStr) of a length from a literal, when the program is compiled.
///
/// # Examples
///
/// ```
/// use icu_calendar::tinystr;
///
/// assert_eq!(tinystr!(4, "M05L"), "M05L");
/// ```
#[macro_export]
macro_rules! tinystr {
    ($n:expr, $text:expr) => {{
        const TEXT: $crate::types::TinyAsciiStr<$n> =
            match $crate::types::TinyAsciiStr::try_from_str($text) {
                Ok(text) => text,
                Err(_) => panic!("the literal is too long, or isn't ASCII"),
            };
        TEXT
    }};
}
