//! Why a call was refused.

use crate::proved::ecow_list::{EcoError, Rejected as ProvedRejected};
use crate::proved::ecow_nested::Refusal;
use crate::shim::alloc::AllocError;
use core::fmt;
use core::ops::{Range, RangeBounds};

/// Why a call was refused. The value is then as it was.
#[derive(Clone, Copy, Debug, PartialEq, Eq, Hash)]
#[non_exhaustive]
pub enum Error {
    /// There was no memory.
    Memory,
    /// The length or the capacity would pass 2^63 - 1, or what memory can hold.
    Capacity,
    /// An index or a range passes the end, or no field has that name.
    Index,
    /// An index is inside a character.
    Boundary,
    /// The nested value is of another kind.
    Kind,
    /// The nested value would nest deeper than [`MAX_DEPTH`](crate::value::MAX_DEPTH).
    Depth,
}

impl fmt::Display for Error {
    fn fmt(&self, f: &mut fmt::Formatter<'_>) -> fmt::Result {
        f.write_str(match self {
            Error::Memory => "out of memory",
            Error::Capacity => "capacity overflow",
            Error::Index => "index past the end",
            Error::Boundary => "index inside a character",
            Error::Kind => "value of another kind",
            Error::Depth => "nested too deep",
        })
    }
}

impl core::error::Error for Error {}

macro_rules! from_proved {
    ($($proved:ident: $($variant:ident)*;)*) => { $(
        impl From<$proved> for Error {
            fn from(error: $proved) -> Self {
                match error {
                    $($proved::$variant => Error::$variant,)*
                }
            }
        }
    )* };
}
from_proved! {
    EcoError: Capacity Memory;
    Refusal: Kind Index Depth Capacity Memory;
}

from! { [] AllocError => Error: |_error| Error::Memory; }

/// A call that was refused, with the value that was handed in.
#[derive(Clone, Copy, Debug, PartialEq, Eq, Hash)]
pub struct Rejected<V> {
    /// Why.
    pub error: Error,
    /// What was handed in.
    pub value: V,
}

impl<V> Rejected<V> {
    pub(crate) fn of<W>(rejected: ProvedRejected<W>, own: impl FnOnce(W) -> V) -> Self {
        Rejected { error: rejected.error.into(), value: own(rejected.value) }
    }
}

impl<V> fmt::Display for Rejected<V> {
    fn fmt(&self, f: &mut fmt::Formatter<'_>) -> fmt::Result {
        self.error.fmt(f)
    }
}

impl<V: fmt::Debug> core::error::Error for Rejected<V> {}

from! {
    [V] Rejected<V> => Error: |rejected| rejected.error;
    [V] ProvedRejected<V> => Error: |rejected| rejected.error.into();
    [V] ProvedRejected<V> => Rejected<V>: |rejected| Rejected::of(rejected, |value| value);
}

/// The indices of a range of `len` items, which is asked for its bounds once.
pub(crate) fn indices(range: impl RangeBounds<usize>, len: usize) -> Result<Range<usize>, Error> {
    let (start, end) = crate::proved::ecow_base::resolve(&range, len).ok_or(Error::Index)?;
    Ok(start..end)
}

/// The same, with a panic where the range isn't in there.
#[track_caller]
pub(crate) fn indices_or_panic(range: impl RangeBounds<usize>, len: usize) -> Range<usize> {
    let (start, end) = (range.start_bound().cloned(), range.end_bound().cloned());
    let Ok(indices) = indices((start, end), len) else {
        panic!("range ({start:?}, {end:?}) is out of bounds of length {len}");
    };
    indices
}

/// Panics unless an index is inside, in the words of the original.
#[inline]
#[track_caller]
pub(crate) fn assert_index(is_inside: bool, index: usize, len: usize) {
    if !is_inside {
        out_of_bounds(index, len);
    }
}

#[cold]
#[inline(never)]
#[track_caller]
fn out_of_bounds(index: usize, len: usize) -> ! {
    panic!("index is out bounds (index: {index}, len: {len})");
}

/// `Error::Index` unless an index is inside.
pub(crate) fn inside(is_inside: bool) -> Result<(), Error> {
    if is_inside { Ok(()) } else { Err(Error::Index) }
}

/// What was passed in, where an index is inside. Otherwise it comes back with `Error::Index`.
pub(crate) fn inside_with<V>(is_inside: bool, value: V) -> Result<V, Rejected<V>> {
    if is_inside { Ok(value) } else { Err(Rejected { error: Error::Index, value }) }
}
