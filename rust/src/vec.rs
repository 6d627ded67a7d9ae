//! Vectors whose clones share their elements until one of them is written to.

use crate::error::{Error, Rejected, assert_index, indices, indices_or_panic, inside, inside_with};
use crate::proved::ecow_base::fresh_capacity;
use crate::proved::ecow_list as proved;
use crate::shim::alloc::Global;
use crate::shim::granted;
use alloc::vec::Vec;
use core::cmp::Ordering;
use core::fmt::{self, Debug};
use core::iter::FusedIterator;
use core::marker::PhantomData;
use core::mem::needs_drop;
use core::ops::{Range, RangeBounds};

/// A vector of the elements listed, of `n` clones of one, or of none, as `vec!` of std has them.
///
/// ```
/// # use ecow::eco_vec;
/// assert_eq!(eco_vec![1; 4], [1, 1, 1, 1]);
/// assert_eq!(eco_vec![1, 2, 3], vec![1, 2, 3]);
/// ```
#[macro_export]
macro_rules! eco_vec {
    () => { $crate::EcoVec::new() };
    ($value:expr; $n:expr) => { $crate::EcoVec::from_elem($value, $n) };
    ($($value:expr),+ $(,)?) => { $crate::EcoVec::from([$($value),+]) };
}

/// A vector whose clones share its elements until one of them is written to.
///
/// It takes one word. A clone asks for no memory and clones no element. A write to a vector that shares its block copies
/// the elements into a block of its own first, so no other vector sees the change.
pub struct EcoVec<T>(pub(crate) proved::EcoVec<T>);

/// `Error::Capacity` where so many elements are more than memory can hold.
fn fits<T>(count: usize) -> Result<(), Error> {
    match core::alloc::Layout::array::<T>(count) {
        Ok(_) => Ok(()),
        Err(_) => Err(Error::Capacity),
    }
}

impl<T> EcoVec<T> {
    /// An empty vector. Asks for no memory.
    ///
    ///     assert!(ecow::EcoVec::<u8>::new().is_empty());
    #[inline]
    #[must_use]
    pub const fn new() -> Self {
        EcoVec(proved::EcoVec::new(Global))
    }

    /// An empty vector with a capacity of `capacity` elements.
    /// # Panics
    /// If `capacity` elements are more than memory can hold.
    ///
    ///     assert_eq!(ecow::EcoVec::<u8>::with_capacity(9).capacity(), 9);
    #[must_use]
    pub fn with_capacity(capacity: usize) -> Self {
        granted(Self::try_with_capacity(capacity))
    }

    /// As [`with_capacity`](Self::with_capacity).
    /// # Errors
    /// `Error::Capacity` for more than memory can hold; `Error::Memory`.
    ///
    ///     assert!(ecow::EcoVec::<u64>::try_with_capacity(usize::MAX).is_err());
    pub fn try_with_capacity(capacity: usize) -> Result<Self, Error> {
        fits::<T>(capacity)?;
        Ok(EcoVec(proved::EcoVec::with_capacity(Global, capacity)?))
    }

    /// The items of an iterator, none of them cloned. The size hint isn't asked.
    /// # Errors
    /// `Error::Capacity` at the item past 2^63 - 1; `Error::Memory`. The items so far are dropped.
    ///
    ///     assert_eq!(ecow::EcoVec::try_from_iter(1..4), Ok(ecow::eco_vec![1, 2, 3]));
    pub fn try_from_iter(iter: impl IntoIterator<Item = T>) -> Result<Self, Error> {
        Ok(EcoVec(proved::EcoVec::from_iter(Global, iter)?))
    }

    /// The elements of a `Vec`, none of them cloned, moved into a block of their own.
    /// # Errors
    /// `Error::Memory`; `vec` comes back.
    ///
    ///     assert_eq!(ecow::EcoVec::try_from_vec(vec![1, 2]), Ok(ecow::eco_vec![1, 2]));
    pub fn try_from_vec(vec: Vec<T>) -> Result<Self, Rejected<Vec<T>>> {
        Ok(EcoVec(proved::EcoVec::from_vec(Global, vec)?))
    }

    /// For how many elements the block has places, never fewer than there are elements.
    ///
    ///     assert_eq!(ecow::eco_vec![1].capacity(), 4);
    #[inline]
    #[must_use]
    pub fn capacity(&self) -> usize {
        self.0.capacity()
    }

    /// The elements, in order.
    ///
    ///     assert_eq!(ecow::eco_vec![1, 2].as_slice(), [1, 2]);
    #[inline]
    #[must_use]
    pub fn as_slice(&self) -> &[T] {
        self.0.as_slice()
    }

    /// Drops the elements, and keeps the block. A shared vector gives its block up instead, and copies nothing.
    ///
    ///     let mut vec = ecow::eco_vec![1, 2]; vec.clear();
    ///     assert_eq!((vec.len(), vec.capacity()), (0, 4));
    pub fn clear(&mut self) {
        self.0.clear();
    }

    /// Whether no other vector shares the block. A vector without a block shares none.
    ///
    ///     assert!(ecow::eco_vec![1].is_unique());
    #[inline]
    pub fn is_unique(&mut self) -> bool {
        self.0.is_unique()
    }
}

list! { EcoVec,
    "Constant time on average; a shared vector clones its elements first.",
    "Constant time; a shared vector clones its elements first.",
    "Moves the elements behind it. A shared vector clones its elements first.",
    "Takes constant time. A shared vector clones its elements first. Not in the original.",
}

impl<T: Clone> EcoVec<T> {
    /// `n` clones of `value`.
    /// # Panics
    /// If `n` elements are more than memory can hold.
    ///
    ///     assert_eq!(ecow::EcoVec::from_elem("a", 2), ["a", "a"]);
    pub fn from_elem(value: T, n: usize) -> Self {
        granted(Self::try_from_elem(value, n))
    }

    /// As [`from_elem`](Self::from_elem).
    /// # Errors
    /// `Error::Capacity`, `Error::Memory`; `value` comes back.
    ///
    ///     assert_eq!(ecow::EcoVec::try_from_elem("a", usize::MAX).unwrap_err().value, "a");
    pub fn try_from_elem(value: T, n: usize) -> Result<Self, Rejected<T>> {
        // Small elements without a drop go in some at a time, which the compiler knows as moves of memory.
        const SOME: usize = 64;
        if let Err(error) = fits::<T>(n) {
            return Err(Rejected { error, value });
        }
        if n >= SOME && size_of::<T>() <= 16 && !needs_drop::<T>() {
            let mut vec = match Self::try_with_capacity(n) {
                Ok(vec) => vec,
                Err(error) => return Err(Rejected { error, value }),
            };
            let some: [T; SOME] = core::array::from_fn(|_| value.clone());
            while vec.len() < n - SOME {
                granted(vec.0.extend_from_slice(&some[..SOME.min(n - SOME - vec.len())]));
            }
            granted(vec.0.extend(some));
            return Ok(vec);
        }
        Ok(EcoVec(proved::EcoVec::from_elem(Global, value, n)?))
    }

    /// The elements of an array, none of them cloned.
    /// # Errors
    /// `Error::Memory`; `array` comes back.
    ///
    ///     assert_eq!(ecow::EcoVec::try_from_array([1, 2]), Ok(ecow::eco_vec![1, 2]));
    #[inline]
    pub fn try_from_array<const N: usize>(array: [T; N]) -> Result<Self, Rejected<[T; N]>> {
        match Self::try_with_capacity(fresh_capacity(N)) {
            Ok(mut vec) => {
                granted(vec.0.extend(array));
                Ok(vec)
            }
            Err(error) => Err(Rejected { error, value: array }),
        }
    }

    /// Clones of the elements of a slice.
    /// # Errors
    /// `Error::Memory`.
    ///
    ///     assert_eq!(ecow::EcoVec::try_from_slice(&[1, 2]), Ok(ecow::eco_vec![1, 2]));
    pub fn try_from_slice(slice: &[T]) -> Result<Self, Error> {
        Ok(EcoVec(proved::EcoVec::from_slice(Global, slice)?))
    }

    /// A vector that shares the elements. Takes constant time, and asks for no memory.
    /// # Errors
    /// `Error::Memory` past 2^63 - 1 owners.
    ///
    ///     let vec = ecow::eco_vec![1, 2];
    ///     assert_eq!(vec.try_clone(), Ok(vec));
    pub fn try_clone(&self) -> Result<Self, Error> {
        Ok(EcoVec(self.0.try_clone()?))
    }

    /// The elements, to write to. Constant time; a shared vector clones its elements first.
    ///
    ///     let mut vec = ecow::eco_vec![1, 2]; vec.make_mut()[0] = 7;
    ///     assert_eq!(vec, [7, 2]);
    #[inline]
    pub fn make_mut(&mut self) -> &mut [T] {
        granted(self.try_make_mut())
    }

    /// As [`make_mut`](Self::make_mut).
    /// # Errors
    /// `Error::Memory` if a shared vector can't be copied.
    ///
    ///     assert_eq!(ecow::eco_vec![1, 2].try_make_mut(), Ok(&mut [1, 2][..]));
    #[inline]
    pub fn try_make_mut(&mut self) -> Result<&mut [T], Error> {
        Ok(self.0.make_mut()?)
    }

    /// Lends `change` the element at `index`, and returns its answer. A shared vector clones its elements first. This
    /// call isn't in the original.
    /// # Errors
    /// `Error::Index`; `Error::Memory` if a shared vector can't be copied. `change` isn't called then.
    ///
    ///     assert_eq!(ecow::eco_vec![1, 2].try_update(0, |one| std::mem::replace(one, 7)), Ok(1));
    pub fn try_update<R>(&mut self, index: usize, change: impl FnOnce(&mut T) -> R) -> Result<R, Error> {
        inside(index < self.len())?;
        Ok(self.0.update(index, change)?)
    }

    /// Keeps the elements for which `f` returns `true`, and drops the others in the end, in no set order. A shared
    /// vector clones its elements first.
    ///
    ///     let mut vec = ecow::eco_vec![1, 2, 3]; vec.retain(|number| *number != 2);
    ///     assert_eq!(vec, [1, 3]);
    pub fn retain<F: FnMut(&mut T) -> bool>(&mut self, f: F) {
        granted(self.try_retain(f));
    }

    /// As [`retain`](Self::retain).
    /// # Errors
    /// `Error::Memory` if a shared vector can't be copied. `f` isn't called then.
    ///
    ///     assert_eq!(ecow::eco_vec![1, 2].try_retain(|n| *n > 1), Ok(()));
    pub fn try_retain<F: FnMut(&mut T) -> bool>(&mut self, f: F) -> Result<(), Error> {
        Ok(self.0.retain(f)?)
    }

    /// Takes out the elements of `range`, into a block of their own. The vector is final when the call returns.
    /// # Panics
    /// If `range` isn't in the vector.
    ///
    ///     assert!(ecow::eco_vec![1, 2, 3].drain(1..).eq([2, 3]));
    #[track_caller]
    pub fn drain<R: RangeBounds<usize>>(&mut self, range: R) -> Drain<'_, T> {
        let range = indices_or_panic(range, self.len());
        Drain { removed: granted(self.0.drain(range)), vec: PhantomData }
    }

    /// As [`drain`](Self::drain).
    /// # Errors
    /// `Error::Index` for a range that isn't in the vector; `Error::Memory`.
    ///
    ///     assert_eq!(ecow::eco_vec![1].try_drain(1..3).err(), Some(ecow::Error::Index));
    pub fn try_drain<R: RangeBounds<usize>>(&mut self, range: R) -> Result<Drain<'_, T>, Error> {
        let range = indices(range, self.len())?;
        Ok(Drain { removed: self.0.drain(range)?, vec: PhantomData })
    }

    /// Replaces the elements of `range` with the items of `replace_with`, and returns them. The items go into a block
    /// of their own first. The vector is final when the call returns.
    /// # Panics
    /// If `range` isn't in the vector.
    ///
    ///     let mut vec = ecow::eco_vec![1, 2, 3];
    ///     assert!(vec.splice(..2, [7]).eq([1, 2]));
    ///     assert_eq!(vec, [7, 3]);
    #[track_caller]
    pub fn splice<R, I>(&mut self, range: R, replace_with: I) -> Splice<'_, I::IntoIter>
    where
        R: RangeBounds<usize>,
        I: IntoIterator<Item = T>,
    {
        let range = indices_or_panic(range, self.len());
        Splice { replaced: granted(self.0.splice(range, replace_with)), vec: PhantomData }
    }

    /// As [`splice`](Self::splice).
    /// # Errors
    /// `Error::Index` for a range that isn't in the vector; `Error::Capacity`, `Error::Memory`. The items are dropped.
    ///
    ///     assert_eq!(ecow::eco_vec![1].try_splice(..3, [4]).err(), Some(ecow::Error::Index));
    pub fn try_splice<R, I>(&mut self, range: R, replace_with: I) -> Result<Splice<'_, I::IntoIter>, Error>
    where
        R: RangeBounds<usize>,
        I: IntoIterator<Item = T>,
    {
        let range = indices(range, self.len())?;
        Ok(Splice { replaced: self.0.splice(range, replace_with)?, vec: PhantomData })
    }

    /// Keeps the first `target` elements, or all if there are fewer. A shared vector clones those that stay.
    ///
    ///     let mut vec = ecow::eco_vec![1, 2, 3]; vec.truncate(1);
    ///     assert_eq!(vec, [1]);
    pub fn truncate(&mut self, target: usize) {
        granted(self.try_truncate(target));
    }

    /// As [`truncate`](Self::truncate).
    /// # Errors
    /// `Error::Memory` if a shared vector can't be copied.
    ///
    ///     assert_eq!(ecow::eco_vec![1, 2].try_truncate(1), Ok(()));
    pub fn try_truncate(&mut self, target: usize) -> Result<(), Error> {
        Ok(self.0.truncate(target)?)
    }

    /// Makes the capacity large enough for `additional` more elements. A shared vector clones its elements.
    /// # Panics
    /// If these are more than memory can hold.
    ///
    ///     let mut vec = ecow::eco_vec![1, 2]; vec.reserve(9);
    ///     assert_eq!(vec.capacity(), 11);
    pub fn reserve(&mut self, additional: usize) {
        granted(self.try_reserve(additional));
    }

    /// As [`reserve`](Self::reserve).
    /// # Errors
    /// `Error::Capacity` for more than memory can hold; `Error::Memory`.
    ///
    ///     assert_eq!(ecow::eco_vec![1].try_reserve(usize::MAX), Err(ecow::Error::Capacity));
    pub fn try_reserve(&mut self, additional: usize) -> Result<(), Error> {
        fits::<T>(self.len().saturating_add(additional))?;
        Ok(self.0.reserve(additional)?)
    }

    /// Appends clones of the elements of a slice. A shared vector clones its own too.
    ///
    ///     let mut vec = ecow::eco_vec![1]; vec.extend_from_slice(&[2, 3]);
    ///     assert_eq!(vec, [1, 2, 3]);
    #[inline]
    pub fn extend_from_slice(&mut self, slice: &[T]) {
        granted(self.0.extend_from_slice(slice));
    }

    /// As [`extend_from_slice`](Self::extend_from_slice).
    /// # Errors
    /// `Error::Capacity`, `Error::Memory`. Nothing is appended then.
    ///
    ///     assert_eq!(ecow::eco_vec![1].try_extend_from_slice(&[2, 3]), Ok(()));
    pub fn try_extend_from_slice(&mut self, slice: &[T]) -> Result<(), Error> {
        Ok(self.0.extend_from_slice(slice)?)
    }

    /// Appends the items of an iterator. The size hint isn't asked.
    /// # Errors
    /// `Error::Capacity`, `Error::Memory`. The items before the refused one stay.
    ///
    ///     let mut vec = ecow::eco_vec![1]; vec.try_extend(2..4).unwrap();
    ///     assert_eq!(vec, [1, 2, 3]);
    pub fn try_extend(&mut self, iter: impl IntoIterator<Item = T>) -> Result<(), Error> {
        Ok(self.0.extend(iter)?)
    }

    /// The elements in a `Vec`. They are moved, and those of a shared vector are cloned.
    /// # Errors
    /// `Error::Memory`; the vector comes back.
    ///
    ///     assert_eq!(ecow::eco_vec![1, 2].try_into_vec(), Ok(vec![1, 2]));
    pub fn try_into_vec(self) -> Result<Vec<T>, Rejected<Self>> {
        self.0.into_vec().map_err(|rejected| Rejected::of(rejected, EcoVec))
    }
}

/// Of elements that are copied as memory. These calls are this crate's own.
impl<T: Copy> EcoVec<T> {
    /// Appends copies of the elements of a range.
    /// # Errors
    /// `Error::Index` for a range that isn't in the vector; `Error::Capacity`, `Error::Memory`.
    ///
    ///     let mut vec = ecow::eco_vec![1, 2]; vec.try_extend_from_within(1..).unwrap();
    ///     assert_eq!(vec, [1, 2, 2]);
    pub fn try_extend_from_within(&mut self, range: impl RangeBounds<usize>) -> Result<(), Error> {
        let range = indices(range, self.len())?;
        Ok(self.0.extend_from_within(range)?)
    }

    /// Inserts copies of the elements of a slice before the element at `index`.
    /// # Errors
    /// `Error::Index`, `Error::Capacity`, `Error::Memory`.
    ///
    ///     let mut vec = ecow::eco_vec![1, 2]; vec.try_insert_slice(1, &[7, 8]).unwrap();
    ///     assert_eq!(vec, [1, 7, 8, 2]);
    pub fn try_insert_slice(&mut self, index: usize, slice: &[T]) -> Result<(), Error> {
        inside(index <= self.len())?;
        Ok(self.0.insert_slice(index, slice)?)
    }

    /// Replaces the elements of a range with copies of those of a slice.
    /// # Errors
    /// `Error::Index` for a range that isn't in the vector; `Error::Capacity`, `Error::Memory`.
    ///
    ///     let mut vec = ecow::eco_vec![1, 2, 3]; vec.try_replace_range(..2, &[7]).unwrap();
    ///     assert_eq!(vec, [7, 3]);
    pub fn try_replace_range(&mut self, range: impl RangeBounds<usize>, slice: &[T]) -> Result<(), Error> {
        let range = indices(range, self.len())?;
        Ok(self.0.replace_range(range, slice)?)
    }
}

impl<T: Clone> Clone for EcoVec<T> {
    #[inline]
    fn clone(&self) -> Self {
        EcoVec(self.0.clone())
    }
}

slice_of! { [T] EcoVec<T>, [T], as_slice; }

compared! { EcoVec<T>: [T: Debug] [T: core::hash::Hash] [T: Eq] [T: PartialEq] }

equal_to! {
    [T: PartialEq] EcoVec<T>, [T];
    [T: PartialEq] EcoVec<T>, &[T];
    [T: PartialEq, const N: usize] EcoVec<T>, [T; N];
    [T: PartialEq, const N: usize] EcoVec<T>, &[T; N];
    [T: PartialEq] EcoVec<T>, Vec<T>;
    [T: PartialEq] [T], EcoVec<T>;
    [T: PartialEq, const N: usize] [T; N], EcoVec<T>;
    [T: PartialEq] Vec<T>, EcoVec<T>;
}

impl<T: Ord> Ord for EcoVec<T> {
    #[inline]
    fn cmp(&self, other: &Self) -> Ordering {
        self.0.cmp(&other.0)
    }
}

impl<T: PartialOrd> PartialOrd for EcoVec<T> {
    #[inline]
    fn partial_cmp(&self, other: &Self) -> Option<Ordering> {
        self.0.partial_cmp(&other.0)
    }
}

from! {
    [T: Clone] &[T] => EcoVec<T>: |slice| granted(Self::try_from_slice(slice));
    [T: Clone, const N: usize] [T; N] => EcoVec<T>: |array| granted(Self::try_from_array(array));
    /// The elements, moved into a block of their own.
    [T: Clone] Vec<T> => EcoVec<T>: |vec| granted(Self::try_from_vec(vec));
}

impl<T: Clone, const N: usize> TryFrom<EcoVec<T>> for [T; N] {
    type Error = EcoVec<T>;

    /// The elements of a vector of `N`. One of another length comes back.
    fn try_from(vec: EcoVec<T>) -> Result<Self, EcoVec<T>> {
        match vec.0.into_array() {
            Ok(array) => Ok(array),
            Err(proved::IntoArray::Length(vec)) => Err(EcoVec(vec)),
            Err(proved::IntoArray::Refused(error, _)) => granted(Err(error)),
        }
    }
}

impl<T: Clone> FromIterator<T> for EcoVec<T> {
    fn from_iter<I: IntoIterator<Item = T>>(iter: I) -> Self {
        let iter = iter.into_iter();
        let mut vec = Self::with_capacity(iter.size_hint().0);
        vec.extend(iter);
        vec
    }
}

impl<T: Clone> Extend<T> for EcoVec<T> {
    /// Appends the items, with room for as many as the iterator says that there are at least.
    fn extend<I: IntoIterator<Item = T>>(&mut self, iter: I) {
        let iter = iter.into_iter();
        let hint = iter.size_hint().0;
        if hint > 0 {
            self.reserve(hint);
        }
        granted(self.0.extend(iter));
    }
}

iterated! { [T] EcoVec<T>, T }

impl<T: Clone> IntoIterator for EcoVec<T> {
    type Item = T;
    type IntoIter = IntoIter<T>;

    /// The elements by value. A sole vector moves them, and a shared one clones each when it is asked for.
    #[inline]
    fn into_iter(mut self) -> IntoIter<T> {
        if self.is_unique() {
            IntoIter(Left::Moved(granted(self.0.into_iter())))
        } else {
            IntoIter(Left::Cloned(0..self.len(), self))
        }
    }
}

/// The elements of a vector by value.
pub struct IntoIter<T>(Left<T>);

/// Those that are still to come: of a sole vector, or of one that is shared.
enum Left<T> {
    Moved(proved::IntoIter<T>),
    Cloned(Range<usize>, EcoVec<T>),
}

/// The elements that `drain` took out. The vector is final already, and borrowed until this is dropped.
pub struct Drain<'a, T> {
    removed: proved::Drain<T>,
    vec: PhantomData<&'a ()>,
}

/// The elements in whose place `splice` put those of an iterator. The vector is final already, and borrowed until this is
/// dropped.
pub struct Splice<'a, I: Iterator + 'a> {
    replaced: proved::Splice<I::Item>,
    vec: PhantomData<&'a ()>,
}

impl<T> IntoIter<T> {
    /// The elements that are still to come.
    ///
    ///     assert_eq!(ecow::eco_vec![1, 2].into_iter().as_slice(), [1, 2]);
    #[inline]
    #[must_use]
    pub fn as_slice(&self) -> &[T] {
        match &self.0 {
            Left::Moved(rest) => rest.as_slice(),
            Left::Cloned(left, vec) => &vec[left.clone()],
        }
    }
}

impl<T: Clone> Iterator for IntoIter<T> {
    type Item = T;

    #[inline]
    fn next(&mut self) -> Option<T> {
        match &mut self.0 {
            Left::Moved(rest) => rest.next(),
            Left::Cloned(left, vec) => left.next().map(|at| vec[at].clone()),
        }
    }

    #[inline]
    fn size_hint(&self) -> (usize, Option<usize>) {
        (self.as_slice().len(), Some(self.as_slice().len()))
    }

    #[inline]
    fn fold<A, F: FnMut(A, T) -> A>(self, first: A, f: F) -> A {
        match self.0 {
            Left::Moved(rest) => rest.fold(first, f),
            Left::Cloned(left, vec) => vec[left].iter().cloned().fold(first, f),
        }
    }
}

impl<T: Clone> DoubleEndedIterator for IntoIter<T> {
    #[inline]
    fn next_back(&mut self) -> Option<T> {
        match &mut self.0 {
            Left::Moved(rest) => rest.next_back(),
            Left::Cloned(left, vec) => left.next_back().map(|at| vec[at].clone()),
        }
    }
}

impl<T: Clone> ExactSizeIterator for IntoIter<T> {}

impl<T: Clone> FusedIterator for IntoIter<T> {}

impl<T: Debug> Debug for IntoIter<T> {
    fn fmt(&self, f: &mut fmt::Formatter<'_>) -> fmt::Result {
        f.debug_tuple("IntoIter").field(&self.as_slice()).finish()
    }
}

impl<T> Drain<'_, T> {
    /// The elements that are still to come.
    ///
    ///     assert_eq!(ecow::eco_vec![1, 2].drain(1..).as_slice(), [2]);
    #[must_use]
    pub fn as_slice(&self) -> &[T] {
        self.removed.as_slice()
    }
}

impl<T> AsRef<[T]> for Drain<'_, T> {
    fn as_ref(&self) -> &[T] {
        self.as_slice()
    }
}

impl<T: Debug> Debug for Drain<'_, T> {
    fn fmt(&self, f: &mut fmt::Formatter<'_>) -> fmt::Result {
        f.debug_tuple("Drain").field(&self.as_slice()).finish()
    }
}

impl<I: Iterator<Item: Debug>> Debug for Splice<'_, I> {
    fn fmt(&self, f: &mut fmt::Formatter<'_>) -> fmt::Result {
        f.debug_tuple("Splice").field(&self.replaced.as_slice()).finish()
    }
}

macro_rules! iterators {
    ($([$($params:tt)*] $type:ty, $field:tt, $item:ty;)*) => { $(
        impl<$($params)*> Iterator for $type {
            type Item = $item;

            #[inline]
            fn next(&mut self) -> Option<$item> {
                self.$field.next()
            }

            #[inline]
            fn size_hint(&self) -> (usize, Option<usize>) {
                self.$field.size_hint()
            }
        }

        impl<$($params)*> DoubleEndedIterator for $type {
            #[inline]
            fn next_back(&mut self) -> Option<$item> {
                self.$field.next_back()
            }
        }

        impl<$($params)*> ExactSizeIterator for $type {}

        impl<$($params)*> FusedIterator for $type {}
    )* };
}
iterators! {
    [T] Drain<'_, T>, removed, T;
    [I: Iterator] Splice<'_, I>, replaced, I::Item;
}

#[cfg(feature = "std")]
impl std::io::Write for EcoVec<u8> {
    fn write(&mut self, bytes: &[u8]) -> std::io::Result<usize> {
        std::io::Write::write(&mut self.0, bytes)
    }

    fn flush(&mut self) -> std::io::Result<()> {
        Ok(())
    }
}
