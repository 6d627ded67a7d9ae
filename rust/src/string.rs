//! Texts that stand in the value itself up to a limit, and past it in a vector that clones share.

use crate::bytes::SmallBytes;
use crate::error::{Error, Rejected, assert_index, indices, indices_or_panic, inside};
use crate::proved::ecow_string as proved;
use crate::shim::alloc::Global;
use crate::shim::{granted, text_mut};
use crate::vec::EcoVec;
use alloc::borrow::Cow;
use alloc::string::String;
use core::fmt::{self, Display, Write};
use core::ops::{Add, AddAssign, RangeBounds};
use core::str::{FromStr, Utf8Error};

/// A text of what is printed, as `format!` of std makes it.
///
/// ```
/// assert_eq!(ecow::eco_format!("Hello {}!", 123), "Hello 123!");
/// ```
#[macro_export]
macro_rules! eco_format {
    ($($arg:tt)*) => { $crate::string::format(::core::format_args!($($arg)*)) };
}

/// Text: its UTF-8 bytes are inline, in the value itself, where they are at most `N`, and else spilled, in a vector whose
/// block clones share until one of them is written to.
///
/// Lengths and indices are of bytes. A text that comes to more than `N`, or gets room for more, spills. A spilled one stays
/// so until `shrink_to_fit`.
pub struct SmallText<const N: usize>(pub(crate) proved::SmallText<N>);

/// Text of which at most 15 bytes are in the value itself.
///
/// Its calls are those of [`SmallText`] and of `str`: [`push`](SmallText::push), [`push_str`](SmallText::push_str),
/// [`pop`](SmallText::pop), [`insert`](SmallText::insert), [`insert_str`](SmallText::insert_str),
/// [`remove`](SmallText::remove), [`replace`](SmallText::replace), [`replacen`](SmallText::replacen),
/// [`replace_range`](SmallText::replace_range), [`truncate`](SmallText::truncate), [`clear`](SmallText::clear),
/// [`repeat`](SmallText::repeat), [`make_mut`](SmallText::make_mut), [`reserve`](SmallText::reserve) and more.
pub type EcoString = SmallText<15>;

impl<const N: usize> SmallText<N> {
    const fn laid_out(text: &str) -> Self {
        SmallText(proved::SmallText { bytes: crate::bytes::laid_out(text.as_bytes()) })
    }

    /// A copy of the text.
    /// # Errors
    /// `Error::Memory`.
    ///
    ///     assert_eq!(ecow::EcoString::try_from_str("ab"), Ok("ab".into()));
    #[inline]
    pub fn try_from_str(text: &str) -> Result<Self, Error> {
        Ok(SmallText(proved::SmallText::from_str(Global, text)?))
    }

    /// What a value prints, or `None` if it answers an error, or memory is refused.
    ///
    ///     assert_eq!(ecow::EcoString::try_format(7), Some("7".into()));
    pub fn try_format(value: impl Display) -> Option<Self> {
        proved::SmallText::format(Global, value).ok().map(SmallText)
    }

    /// The text.
    ///
    ///     assert_eq!(ecow::EcoString::from("ab").as_str(), "ab");
    #[inline]
    #[must_use]
    pub fn as_str(&self) -> &str {
        self.0.as_str()
    }

    /// As [`make_mut`](Self::make_mut).
    /// # Errors
    /// `Error::Memory` if a shared text can't be copied.
    ///
    ///     assert!(ecow::EcoString::from("ab").try_make_mut().is_ok_and(|text| text == "ab"));
    pub fn try_make_mut(&mut self) -> Result<&mut str, Error> {
        let bytes = self.0.bytes.make_mut()?;
        Ok(text_mut(bytes))
    }

    /// Appends a text. A shared text is copied first.
    ///
    ///     let mut text = ecow::EcoString::from("ab"); text.push_str("cd");
    ///     assert_eq!(text, "abcd");
    #[inline]
    pub fn push_str(&mut self, text: &str) {
        granted(self.0.push_str(text));
    }

    /// As [`push_str`](Self::push_str).
    /// # Errors
    /// `Error::Capacity`, `Error::Memory`. Nothing is appended then.
    ///
    ///     assert_eq!(ecow::EcoString::from("ab").try_push_str("cd"), Ok(()));
    #[inline]
    pub fn try_push_str(&mut self, text: &str) -> Result<(), Error> {
        Ok(self.0.push_str(text)?)
    }

    /// Inserts a character at `index`, and moves what is behind it. A shared text is copied first.
    /// # Panics
    /// If `index` is greater than the length, or inside a character.
    ///
    ///     let mut text = ecow::EcoString::from("ab"); text.insert(1, 'x');
    ///     assert_eq!(text, "axb");
    #[track_caller]
    pub fn insert(&mut self, index: usize, c: char) {
        self.assert_boundary(index);
        granted(self.0.insert(index, c));
    }

    /// As [`insert`](Self::insert).
    /// # Errors
    /// `Error::Index` past the length; `Error::Boundary` inside a character; `Error::Capacity`, `Error::Memory`.
    ///
    ///     assert_eq!(ecow::EcoString::from("ab").try_insert(3, 'c'), Err(ecow::Error::Index));
    pub fn try_insert(&mut self, index: usize, c: char) -> Result<(), Error> {
        self.at_boundary(index)?;
        Ok(self.0.insert(index, c)?)
    }

    /// Inserts a text at `index`, and moves what is behind it. A shared text is copied first.
    /// # Panics
    /// If `index` is greater than the length, or inside a character.
    ///
    ///     let mut text = ecow::EcoString::from("ab"); text.insert_str(1, "xy");
    ///     assert_eq!(text, "axyb");
    #[track_caller]
    pub fn insert_str(&mut self, index: usize, text: &str) {
        self.assert_boundary(index);
        granted(self.0.insert_str(index, text));
    }

    /// As [`insert_str`](Self::insert_str).
    /// # Errors
    /// `Error::Index` past the length; `Error::Boundary` inside a character; `Error::Capacity`, `Error::Memory`.
    ///
    ///     assert_eq!(ecow::EcoString::from("é").try_insert_str(1, "cd"), Err(ecow::Error::Boundary));
    pub fn try_insert_str(&mut self, index: usize, text: &str) -> Result<(), Error> {
        self.at_boundary(index)?;
        Ok(self.0.insert_str(index, text)?)
    }

    /// Takes the character at `index`, and moves what is behind it. A shared text is copied first.
    /// # Panics
    /// If no character begins at `index`.
    ///
    ///     assert_eq!(ecow::EcoString::from("ab").remove(0), 'a');
    #[track_caller]
    pub fn remove(&mut self, index: usize) -> char {
        assert_index(index < self.len(), index, self.len());
        self.assert_boundary(index);
        granted(self.0.remove(index))
    }

    /// As [`remove`](Self::remove).
    /// # Errors
    /// `Error::Index` from the length on; `Error::Boundary` inside a character; `Error::Memory`.
    ///
    ///     assert_eq!(ecow::EcoString::from("ab").try_remove(2), Err(ecow::Error::Index));
    pub fn try_remove(&mut self, index: usize) -> Result<char, Error> {
        inside(index < self.len())?;
        self.at_boundary(index)?;
        Ok(self.0.remove(index)?)
    }

    /// Replaces the text of a range. A shared text is copied first. Not in the original; `String` has it.
    /// # Panics
    /// If `range` isn't in the text, or one of its ends is inside a character.
    ///
    ///     let mut text = ecow::EcoString::from("abc"); text.replace_range(..2, "x");
    ///     assert_eq!(text, "xc");
    #[track_caller]
    pub fn replace_range(&mut self, range: impl RangeBounds<usize>, text: &str) {
        let range = indices_or_panic(range, self.len());
        self.assert_boundary(range.start);
        self.assert_boundary(range.end);
        granted(self.0.replace_range(range, text));
    }

    /// As [`replace_range`](Self::replace_range).
    /// # Errors
    /// `Error::Index` for a range that isn't in the text; `Error::Boundary`, `Error::Capacity`, `Error::Memory`.
    ///
    ///     assert_eq!(ecow::EcoString::from("ab").try_replace_range(1..3, ""), Err(ecow::Error::Index));
    pub fn try_replace_range(&mut self, range: impl RangeBounds<usize>, text: &str) -> Result<(), Error> {
        let range = indices(range, self.len())?;
        self.at_boundary(range.start)?;
        self.at_boundary(range.end)?;
        Ok(self.0.replace_range(range, text)?)
    }

    /// The text with `to` in place of each `pat`.
    ///
    ///     assert_eq!(ecow::EcoString::from("a-b-c").replace("-", "+"), "a+b+c");
    #[must_use]
    pub fn replace(&self, pat: &str, to: &str) -> Self {
        granted(self.try_replace(pat, to))
    }

    /// As [`replace`](Self::replace).
    /// # Errors
    /// `Error::Capacity` past 2^63 - 1 bytes; `Error::Memory`.
    ///
    ///     assert_eq!(ecow::EcoString::from("ab").try_replace("a", "b"), Ok("bb".into()));
    pub fn try_replace(&self, pat: &str, to: &str) -> Result<Self, Error> {
        Ok(SmallText(self.0.replace(pat, to)?))
    }

    /// The text with `to` in place of the first `count` of `pat`.
    ///
    ///     assert_eq!(ecow::EcoString::from("a-b-c").replacen("-", "+", 1), "a+b-c");
    #[must_use]
    pub fn replacen(&self, pat: &str, to: &str, count: usize) -> Self {
        granted(self.try_replacen(pat, to, count))
    }

    /// As [`replacen`](Self::replacen).
    /// # Errors
    /// `Error::Capacity` past 2^63 - 1 bytes; `Error::Memory`.
    ///
    ///     assert_eq!(ecow::EcoString::from("aa").try_replacen("a", "b", 1), Ok("ba".into()));
    pub fn try_replacen(&self, pat: &str, to: &str, count: usize) -> Result<Self, Error> {
        Ok(SmallText(self.0.replacen(pat, to, count)?))
    }

    /// Keeps the first `target` bytes, or all if there are fewer. Of a shared text what stays is copied.
    /// # Panics
    /// If `target` is inside a character.
    ///
    ///     let mut text = ecow::EcoString::from("abc"); text.truncate(1);
    ///     assert_eq!(text, "a");
    #[track_caller]
    pub fn truncate(&mut self, target: usize) {
        self.assert_boundary(target.min(self.len()));
        granted(self.0.truncate(target));
    }

    /// As [`truncate`](Self::truncate).
    /// # Errors
    /// `Error::Boundary`; `Error::Memory` if a shared text can't be copied.
    ///
    ///     assert_eq!(ecow::EcoString::from("ab").try_truncate(1), Ok(()));
    pub fn try_truncate(&mut self, target: usize) -> Result<(), Error> {
        if target < self.len() {
            self.at_boundary(target)?;
        }
        Ok(self.0.truncate(target)?)
    }

    /// The text in lower case, as `str` has it.
    ///
    ///     assert_eq!(ecow::EcoString::from("AB").to_lowercase(), "ab");
    #[must_use]
    pub fn to_lowercase(&self) -> Self {
        SmallText(granted(self.0.to_lowercase()))
    }

    /// The text in upper case, as `str` has it.
    ///
    ///     assert_eq!(ecow::EcoString::from("stra\u{df}e").to_uppercase(), "STRASSE");
    #[must_use]
    pub fn to_uppercase(&self) -> Self {
        SmallText(granted(self.0.to_uppercase()))
    }

    /// The text with the letters `A` to `Z` in lower case.
    ///
    ///     assert_eq!(ecow::EcoString::from("AB").to_ascii_lowercase(), "ab");
    #[must_use]
    pub fn to_ascii_lowercase(&self) -> Self {
        SmallText(granted(self.0.to_ascii_lowercase()))
    }

    /// The text with the letters `a` to `z` in upper case.
    ///
    ///     assert_eq!(ecow::EcoString::from("ab").to_ascii_uppercase(), "AB");
    #[must_use]
    pub fn to_ascii_uppercase(&self) -> Self {
        SmallText(granted(self.0.to_ascii_uppercase()))
    }

    /// As [`repeat`](Self::repeat).
    /// # Errors
    /// `Error::Capacity` past 2^63 - 1 bytes; `Error::Memory`.
    ///
    ///     assert_eq!(ecow::EcoString::from("ab").try_repeat(usize::MAX), Err(ecow::Error::Capacity));
    pub fn try_repeat(&self, n: usize) -> Result<Self, Error> {
        Ok(SmallText(proved::SmallText { bytes: crate::bytes::repeated(&self.0.bytes, n)? }))
    }

    /// `Error::Index` past the length, `Error::Boundary` inside a character.
    #[inline]
    fn at_boundary(&self, index: usize) -> Result<(), Error> {
        inside(index <= self.len())?;
        if self.0.is_char_boundary(index) { Ok(()) } else { Err(Error::Boundary) }
    }

    /// Panics past the length, and inside a character.
    #[inline]
    #[track_caller]
    fn assert_boundary(&self, index: usize) {
        if !self.0.is_char_boundary(index) {
            no_boundary(self, index);
        }
    }
}

/// Panics with an index that passes the end or is inside a character, and says where, as `str` does. Of a long text it
/// shows the first 256 bytes.
#[cold]
#[inline(never)]
#[track_caller]
fn no_boundary(text: &str, index: usize) -> ! {
    assert_index(index <= text.len(), index, text.len());
    let begin = |at: usize| (0..=at).rev().find(|at| text.is_char_boundary(*at)).unwrap_or(0);
    let (start, shown) = (begin(index), begin(text.len().min(256)));
    let inside = text[start..].chars().next().unwrap_or_default();
    let (end, more) = (start + inside.len_utf8(), if shown < text.len() { "[...]" } else { "" });
    let text = &text[..shown];
    panic!(
        "byte index {index} is not a char boundary; it is inside {inside:?} (bytes {start}..{end}) of `{text}`{more}"
    );
}

small! { SmallText, EcoString, str, as_str, try_from_str, char, "character", ["", "ab", "AB", 'c', "abc", "abab"] }

impl<const N: usize> Display for SmallText<N> {
    fn fmt(&self, f: &mut fmt::Formatter<'_>) -> fmt::Result {
        Display::fmt(&self.0, f)
    }
}

equal_to! {
    [const N: usize] SmallText<N>, str;
    [const N: usize] SmallText<N>, &str;
    [const N: usize] SmallText<N>, String;
    [const N: usize] str, SmallText<N>;
    [const N: usize] &str, SmallText<N>;
    [const N: usize] String, SmallText<N>;
}

impl<const N: usize> Write for SmallText<N> {
    #[inline]
    fn write_str(&mut self, text: &str) -> fmt::Result {
        self.push_str(text);
        Ok(())
    }
}

macro_rules! added {
    ($($text:ty)*) => { $(
        impl<const N: usize> Add<$text> for SmallText<N> {
            type Output = Self;

            fn add(self, text: $text) -> Self {
                SmallText(granted(self.0.add(&text)))
            }
        }

        impl<const N: usize> AddAssign<$text> for SmallText<N> {
            fn add_assign(&mut self, text: $text) {
                self.push_str(&text);
            }
        }
    )* };
}
added! { Self &str }

macro_rules! as_ref {
    ($($type:ty)*) => { $(
        impl<const N: usize> AsRef<$type> for SmallText<N> {
            #[inline]
            fn as_ref(&self) -> &$type {
                self.as_str().as_ref()
            }
        }
    )* };
}
as_ref! { [u8] }
#[cfg(feature = "std")]
as_ref! { std::ffi::OsStr std::path::Path }

// A spilled text passes its block on.
from! {
    [const N: usize] char => SmallText<N>: |c| SmallText(granted(proved::SmallText::from_char(Global, c)));
    [const N: usize] String => SmallText<N>: |text| Self::from(&text[..]);
    [const N: usize] &String => SmallText<N>: |text| Self::from(&text[..]);
    [const N: usize] Cow<'_, str> => SmallText<N>: |text| Self::from(&text[..]);
    [const N: usize] SmallText<N> => String: |text| text.as_str().into();
    [const N: usize] &SmallText<N> => String: |text| text.as_str().into();
    [const N: usize] SmallText<N> => SmallBytes<N>: |text| SmallBytes(text.0.into());
    [const N: usize] SmallText<N> => EcoVec<u8>: |text| granted(text.try_into_eco_vec());
}

impl<const N: usize> TryFrom<SmallBytes<N>> for SmallText<N> {
    type Error = Utf8Error;

    /// The text of bytes that are UTF-8, where they stand.
    fn try_from(bytes: SmallBytes<N>) -> Result<Self, Utf8Error> {
        proved::SmallText::try_from(bytes.0).map(SmallText)
    }
}

impl<const N: usize> TryFrom<EcoVec<u8>> for SmallText<N> {
    type Error = Utf8Error;

    /// The text of bytes that are UTF-8, in the vector's block.
    fn try_from(vec: EcoVec<u8>) -> Result<Self, Utf8Error> {
        proved::SmallText::try_from(vec.0).map(SmallText)
    }
}

impl<const N: usize> FromStr for SmallText<N> {
    type Err = core::convert::Infallible;

    fn from_str(text: &str) -> Result<Self, Self::Err> {
        Ok(Self::from(text))
    }
}

collected! {
    [const N: usize] char => SmallText<N>: |iter| SmallText(granted(proved::SmallText::from_chars(Global, iter)));
    ['a, const N: usize] &'a str => SmallText<N>: |iter| SmallText(granted(proved::SmallText::from_strs(Global, iter)));
    [const N: usize] SmallText<N> => SmallText<N>: |iter| {
        SmallText(granted(proved::SmallText::from_eco_strings(Global, iter.into_iter().map(|text| text.0))))
    };
}

extended! {
    [const N: usize] char => SmallText<N>: |text, iter| granted(text.0.extend_chars(iter));
    ['a, const N: usize] &'a str => SmallText<N>: |text, iter| granted(text.0.extend_strs(iter));
}

/// Texts of what values print.
pub trait ToEcoString {
    /// The text that the value prints. It panics where the value answers an error, or memory is refused.
    fn to_eco_string(&self) -> EcoString;
}

impl<T: Display + ?Sized> ToEcoString for T {
    fn to_eco_string(&self) -> EcoString {
        format(format_args!("{self}"))
    }
}

/// What `eco_format!` makes.
/// # Panics
/// If a value answers an error.
///
///     assert_eq!(ecow::string::format(format_args!("{}", 7)), "7");
#[must_use]
pub fn format(args: fmt::Arguments<'_>) -> EcoString {
    let mut text = EcoString::new();
    text.write_fmt(args).expect("a formatting trait implementation returned an error");
    text
}
