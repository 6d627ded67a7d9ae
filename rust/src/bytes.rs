//! Bytes that stand in the value itself up to a limit, and past it in a vector that clones share.

use crate::error::{Error, Rejected, assert_index, indices, indices_or_panic, inside};
use crate::proved::ecow_bytes as proved;
use crate::shim::alloc::Global;
use crate::shim::granted;
use crate::vec::EcoVec;
use alloc::borrow::Cow;
use alloc::vec::Vec;
use core::ops::RangeBounds;
use proved::cells::Cells;
use proved::few::Few;
use proved::form::Form;

/// Bytes: inline, in the value itself, where they are at most `N`, and else spilled, in a vector whose block clones share
/// until one of them is written to.
///
/// Bytes that come to more than `N`, or get room for more, spill. Spilled ones stay so until `shrink_to_fit`.
pub struct SmallBytes<const N: usize>(pub(crate) proved::SmallBytes<N>);

/// Bytes of which at most 15 stand in the value itself.
pub type EcoBytes = SmallBytes<15>;

/// Few bytes as the proved calls lay them out, for constants, in which those can't be called.
#[allow(clippy::cast_possible_truncation, reason = "what is cast is less than 256")]
pub(crate) const fn laid_out<const N: usize>(bytes: &[u8]) -> proved::SmallBytes<N> {
    let (mut cells, mut at, len) = ([0; N], 0, bytes.len());
    while at < len {
        cells[at] = bytes[at];
        at += 1;
    }
    if len == N {
        return proved::SmallBytes { form: Form::Full(Cells { bytes: cells }), alloc: Global };
    }
    // As `Cells::set_len`.
    if N <= 256 {
        cells[N - 1] = len as u8;
    } else if N - 1 - len < 255 {
        cells[N - 1] = (N - 1 - len) as u8;
    } else {
        cells[N - 1] = 255;
        let count = len.to_le_bytes();
        at = 0;
        while at < 8 {
            cells[N - 9 + at] = count[at];
            at += 1;
        }
    }
    proved::SmallBytes { form: Form::Short(Few { cells: Cells { bytes: cells } }), alloc: Global }
}

/// Bytes `n` times over. What stays inline is written piece by piece.
pub(crate) fn repeated<const N: usize>(
    bytes: &proved::SmallBytes<N>,
    n: usize,
) -> Result<proved::SmallBytes<N>, Error> {
    match bytes.len().checked_mul(n) {
        Some(total) if total <= N && total > 0 => {
            let mut cells = [0; N];
            cells[..total].chunks_exact_mut(bytes.len()).for_each(|piece| piece.copy_from_slice(bytes.as_slice()));
            Ok(proved::SmallBytes::inline(Global, &cells[..total]))
        }
        _ => Ok(bytes.repeat(n)?),
    }
}

impl<const N: usize> SmallBytes<N> {
    const fn laid_out(bytes: &[u8]) -> Self {
        SmallBytes(laid_out(bytes))
    }

    /// A copy of the bytes.
    /// # Errors
    /// `Error::Memory`.
    ///
    ///     assert_eq!(ecow::EcoBytes::try_from_slice(b"ab"), Ok(b"ab".into()));
    #[inline]
    pub fn try_from_slice(bytes: &[u8]) -> Result<Self, Error> {
        Ok(SmallBytes(proved::SmallBytes::from_slice(Global, bytes)?))
    }

    /// A copy of the bytes of a `Vec`.
    /// # Errors
    /// `Error::Memory`; `bytes` comes back.
    ///
    ///     assert_eq!(ecow::EcoBytes::try_from_vec(vec![1, 2]), Ok([1, 2].into()));
    pub fn try_from_vec(bytes: Vec<u8>) -> Result<Self, Rejected<Vec<u8>>> {
        Ok(SmallBytes(proved::SmallBytes::from_vec(Global, bytes)?))
    }

    /// The bytes, in order.
    ///
    ///     assert_eq!(ecow::EcoBytes::from(b"ab").as_slice(), b"ab");
    #[inline]
    #[must_use]
    pub fn as_slice(&self) -> &[u8] {
        self.0.as_slice()
    }

    /// As [`make_mut`](Self::make_mut).
    /// # Errors
    /// `Error::Memory` if shared bytes can't be copied.
    ///
    ///     assert_eq!(ecow::EcoBytes::from(b"ab").try_make_mut(), Ok(&mut [97, 98][..]));
    #[inline]
    pub fn try_make_mut(&mut self) -> Result<&mut [u8], Error> {
        Ok(self.0.make_mut()?)
    }

    /// Appends the bytes of a slice. Shared bytes are copied first.
    ///
    ///     let mut bytes = ecow::EcoBytes::from(b"ab"); bytes.extend_from_slice(b"cd");
    ///     assert_eq!(bytes, b"abcd");
    #[inline]
    pub fn extend_from_slice(&mut self, bytes: &[u8]) {
        granted(self.0.extend_from_slice(bytes));
    }

    /// As [`extend_from_slice`](Self::extend_from_slice).
    /// # Errors
    /// `Error::Capacity`, `Error::Memory`. Nothing is appended then.
    ///
    ///     assert_eq!(ecow::EcoBytes::from(b"ab").try_extend_from_slice(b"cd"), Ok(()));
    #[inline]
    pub fn try_extend_from_slice(&mut self, bytes: &[u8]) -> Result<(), Error> {
        Ok(self.0.extend_from_slice(bytes)?)
    }

    /// Inserts a byte before the one at `index`, and moves those behind it. Shared bytes are copied first.
    /// # Panics
    /// If `index` is greater than the length.
    ///
    ///     let mut bytes = ecow::EcoBytes::from(b"ab"); bytes.insert(1, b'x');
    ///     assert_eq!(bytes, b"axb");
    #[track_caller]
    pub fn insert(&mut self, index: usize, byte: u8) {
        self.insert_slice(index, &[byte]);
    }

    /// As [`insert`](Self::insert).
    /// # Errors
    /// `Error::Index`, `Error::Capacity`, `Error::Memory`.
    ///
    ///     assert_eq!(ecow::EcoBytes::from(b"ab").try_insert(3, b'c'), Err(ecow::Error::Index));
    pub fn try_insert(&mut self, index: usize, byte: u8) -> Result<(), Error> {
        inside(index <= self.len())?;
        Ok(self.0.insert(index, byte)?)
    }

    /// Inserts bytes before the one at `index`, and moves those behind it. Shared bytes are copied first.
    /// # Panics
    /// If `index` is greater than the length.
    ///
    ///     let mut bytes = ecow::EcoBytes::from(b"ab"); bytes.insert_slice(1, b"xy");
    ///     assert_eq!(bytes, b"axyb");
    #[track_caller]
    pub fn insert_slice(&mut self, index: usize, bytes: &[u8]) {
        assert_index(index <= self.len(), index, self.len());
        granted(self.0.insert_slice(index, bytes));
    }

    /// As [`insert_slice`](Self::insert_slice).
    /// # Errors
    /// `Error::Index`, `Error::Capacity`, `Error::Memory`.
    ///
    ///     assert_eq!(ecow::EcoBytes::from(b"ab").try_insert_slice(1, b"cd"), Ok(()));
    pub fn try_insert_slice(&mut self, index: usize, bytes: &[u8]) -> Result<(), Error> {
        inside(index <= self.len())?;
        Ok(self.0.insert_slice(index, bytes)?)
    }

    /// Takes the byte at `index`, and moves those behind it. Shared bytes are copied first.
    /// # Panics
    /// If there is no byte at `index`.
    ///
    ///     assert_eq!(ecow::EcoBytes::from(b"ab").remove(0), b'a');
    #[track_caller]
    pub fn remove(&mut self, index: usize) -> u8 {
        assert_index(index < self.len(), index, self.len());
        granted(self.0.remove(index))
    }

    /// As [`remove`](Self::remove).
    /// # Errors
    /// `Error::Index`; `Error::Memory` if shared bytes can't be copied.
    ///
    ///     assert_eq!(ecow::EcoBytes::from(b"ab").try_remove(2), Err(ecow::Error::Index));
    pub fn try_remove(&mut self, index: usize) -> Result<u8, Error> {
        inside(index < self.len())?;
        Ok(self.0.remove(index)?)
    }

    /// Replaces the byte at `index`. Shared bytes are copied first. Not in the original.
    /// # Panics
    /// If there is no byte at `index`.
    ///
    ///     let mut bytes = ecow::EcoBytes::from(b"ab"); bytes.set(0, b'x');
    ///     assert_eq!(bytes, b"xb");
    #[track_caller]
    pub fn set(&mut self, index: usize, byte: u8) {
        assert_index(index < self.len(), index, self.len());
        granted(self.0.set(index, byte));
    }

    /// As [`set`](Self::set).
    /// # Errors
    /// `Error::Index`; `Error::Memory` if shared bytes can't be copied.
    ///
    ///     assert_eq!(ecow::EcoBytes::from(b"ab").try_set(2, b'c'), Err(ecow::Error::Index));
    pub fn try_set(&mut self, index: usize, byte: u8) -> Result<(), Error> {
        inside(index < self.len())?;
        Ok(self.0.set(index, byte)?)
    }

    /// Replaces the bytes of a range. Shared bytes are copied first. Not in the original.
    /// # Panics
    /// If `range` isn't in the bytes.
    ///
    ///     let mut bytes = ecow::EcoBytes::from(b"abc"); bytes.replace_range(..2, b"x");
    ///     assert_eq!(bytes, b"xc");
    #[track_caller]
    pub fn replace_range(&mut self, range: impl RangeBounds<usize>, bytes: &[u8]) {
        let range = indices_or_panic(range, self.len());
        granted(self.0.replace_range(range, bytes));
    }

    /// As [`replace_range`](Self::replace_range).
    /// # Errors
    /// `Error::Index` for a range that isn't in the bytes; `Error::Capacity`, `Error::Memory`.
    ///
    ///     assert_eq!(ecow::EcoBytes::from(b"ab").try_replace_range(1..3, b""), Err(ecow::Error::Index));
    pub fn try_replace_range(&mut self, range: impl RangeBounds<usize>, bytes: &[u8]) -> Result<(), Error> {
        let range = indices(range, self.len())?;
        Ok(self.0.replace_range(range, bytes)?)
    }

    /// Keeps the first `target` bytes, or all if there are fewer. Of shared bytes those that stay are copied.
    ///
    ///     let mut bytes = ecow::EcoBytes::from(b"abc"); bytes.truncate(1);
    ///     assert_eq!(bytes, b"a");
    pub fn truncate(&mut self, target: usize) {
        granted(self.try_truncate(target));
    }

    /// As [`truncate`](Self::truncate).
    /// # Errors
    /// `Error::Memory` if shared bytes can't be copied.
    ///
    ///     assert_eq!(ecow::EcoBytes::from(b"ab").try_truncate(1), Ok(()));
    pub fn try_truncate(&mut self, target: usize) -> Result<(), Error> {
        Ok(self.0.truncate(target)?)
    }

    /// As [`repeat`](Self::repeat).
    /// # Errors
    /// `Error::Capacity` past 2^63 - 1 bytes; `Error::Memory`.
    ///
    ///     assert_eq!(ecow::EcoBytes::from(b"ab").try_repeat(usize::MAX), Err(ecow::Error::Capacity));
    pub fn try_repeat(&self, n: usize) -> Result<Self, Error> {
        Ok(SmallBytes(repeated(&self.0, n)?))
    }
}

small! { SmallBytes, EcoBytes, [u8], as_slice, try_from_slice, u8, "byte", [b"", b"ab", b"AB", b'c', b"abc", b"abab"] }

equal_to! {
    [const N: usize] SmallBytes<N>, [u8];
    [const N: usize] SmallBytes<N>, &[u8];
    [const N: usize, const M: usize] SmallBytes<N>, [u8; M];
    [const N: usize, const M: usize] SmallBytes<N>, &[u8; M];
    [const N: usize] SmallBytes<N>, Vec<u8>;
    [const N: usize] SmallBytes<N>, EcoVec<u8>;
    [const N: usize] [u8], SmallBytes<N>;
    [const N: usize, const M: usize] [u8; M], SmallBytes<N>;
    [const N: usize] Vec<u8>, SmallBytes<N>;
    [const N: usize] EcoVec<u8>, SmallBytes<N>;
}

// Spilled bytes and a vector pass their block on.
from! {
    [const N: usize, const M: usize] [u8; M] => SmallBytes<N>: |bytes| Self::from(&bytes[..]);
    [const N: usize, const M: usize] &[u8; M] => SmallBytes<N>: |bytes| Self::from(&bytes[..]);
    [const N: usize] &Vec<u8> => SmallBytes<N>: |bytes| Self::from(&bytes[..]);
    [const N: usize] Cow<'_, [u8]> => SmallBytes<N>: |bytes| Self::from(&bytes[..]);
    [const N: usize] Vec<u8> => SmallBytes<N>: |bytes| granted(Self::try_from_vec(bytes));
    [const N: usize] EcoVec<u8> => SmallBytes<N>: |vec| SmallBytes(vec.0.into());
    [const N: usize] SmallBytes<N> => EcoVec<u8>: |bytes| granted(bytes.try_into_eco_vec());
    [const N: usize] &SmallBytes<N> => EcoVec<u8>: |bytes| bytes.clone().into();
    [const N: usize] SmallBytes<N> => Vec<u8>: |bytes| bytes.to_vec();
    [const N: usize] &SmallBytes<N> => Vec<u8>: |bytes| bytes.to_vec();
}

collected! { [const N: usize] u8 => SmallBytes<N>: |iter| SmallBytes(granted(proved::SmallBytes::from_iter(Global, iter))); }

extended! {
    [const N: usize] u8 => SmallBytes<N>: |bytes, iter| granted(bytes.0.extend(iter));
    ['a, const N: usize] &'a u8 => SmallBytes<N>: |bytes, iter| bytes.extend(iter.into_iter().copied());
}

iterated! { [const N: usize] SmallBytes<N>, u8 }

#[cfg(feature = "std")]
impl<const N: usize> std::io::Write for SmallBytes<N> {
    fn write(&mut self, bytes: &[u8]) -> std::io::Result<usize> {
        std::io::Write::write(&mut self.0, bytes)
    }

    fn flush(&mut self) -> std::io::Result<()> {
        Ok(())
    }
}
