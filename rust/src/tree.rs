//! Lists in a tree of shared blocks, of which each version may be kept.

use crate::error::{Error, Rejected, assert_index, indices, indices_or_panic, inside, inside_with};
use crate::proved::ecow_tree as proved;
use crate::shim::alloc::Global;
use crate::shim::granted;
use crate::vec::EcoVec;
use core::cmp::Ordering;
use core::fmt::{self, Debug};
use core::hash::{Hash, Hasher};
use core::iter::FusedIterator;
use core::ops::{Index, RangeBounds};

/// A list whose clones share its elements in blocks of up to 128, in a tree.
///
/// A clone asks for no memory and clones no element. A change of a list that shares its blocks copies only those on the
/// way to the element: one block of elements, and a block of up to 16 nodes for each level above. So each version of a
/// long list can be kept. A change of a list that shares nothing is made in place. Reads and changes take time logarithmic
/// in the length. A vector is faster if the list is short, or if its versions aren't kept. Not in the original.
///
/// ```
/// let mut list: ecow::EcoTree<u32> = (0..1000).collect();
/// let before = list.clone();
/// list.set(500, 0);
/// assert_eq!((before[500], list[500], before.len()), (500, 0, 1000));
/// ```
pub struct EcoTree<T>(proved::EcoTree<T>);

impl<T> EcoTree<T> {
    /// An empty list. Asks for no memory.
    ///
    ///     assert!(ecow::EcoTree::<u8>::new().is_empty());
    #[must_use]
    pub fn new() -> Self {
        EcoTree(proved::EcoTree::new(Global))
    }

    /// The number of levels above the blocks of elements. It is at most logarithmic in the length, whatever changes were
    /// made.
    ///
    ///     assert_eq!(ecow::EcoTree::from([1; 129]).height(), 1);
    #[must_use]
    pub fn height(&self) -> usize {
        self.0.height()
    }

    /// The element at `index`, or `None` past the end.
    ///
    ///     assert_eq!(ecow::EcoTree::from([1, 2]).get(1), Some(&2));
    #[must_use]
    pub fn get(&self, index: usize) -> Option<&T> {
        self.0.get(index)
    }

    /// The first element, if there is one.
    ///
    ///     assert_eq!(ecow::EcoTree::from([1, 2]).first(), Some(&1));
    #[must_use]
    pub fn first(&self) -> Option<&T> {
        self.0.first()
    }

    /// The last element, if there is one.
    ///
    ///     assert_eq!(ecow::EcoTree::from([1, 2]).last(), Some(&2));
    #[must_use]
    pub fn last(&self) -> Option<&T> {
        self.0.last()
    }

    /// Removes all elements, and drops those that no other list shares.
    ///
    ///     let mut list = ecow::EcoTree::from([1, 2]); list.clear();
    ///     assert!(list.is_empty());
    pub fn clear(&mut self) {
        self.0.clear();
    }

    /// The elements in order, as slices of 1 to 128, from both ends. It is the fastest way to read all of them.
    ///
    ///     assert_eq!(ecow::EcoTree::from([1; 200]).chunks().map(<[i32]>::len).sum::<usize>(), 200);
    #[must_use]
    pub fn chunks(&self) -> Chunks<'_, T> {
        Chunks(self.0.chunks())
    }

    /// The elements in order, from both ends.
    ///
    ///     assert!(ecow::EcoTree::from([1, 2]).iter().rev().eq(&[2, 1]));
    #[must_use]
    pub fn iter(&self) -> Iter<'_, T> {
        Iter(self.0.iter())
    }

    /// Moves the elements of `other` behind those of this list. `other` is empty then. This list shares all blocks of
    /// `other`, and clones no element. Takes time logarithmic in the lengths.
    /// # Panics
    /// If the length would pass 2^63 - 1.
    ///
    ///     let (mut list, mut other) = (ecow::EcoTree::from([1, 2]), ecow::EcoTree::from([3]));
    ///     list.append(&mut other);
    ///     assert!(list == [1, 2, 3] && other.is_empty());
    pub fn append(&mut self, other: &mut Self) {
        granted(self.0.append(&mut other.0));
    }

    /// As [`append`](Self::append).
    /// # Errors
    /// `Error::Capacity`, `Error::Memory`. Both lists are unchanged then.
    ///
    ///     let (mut list, mut other) = (ecow::EcoTree::from([1, 2]), ecow::EcoTree::from([3]));
    ///     assert_eq!(list.try_append(&mut other), Ok(()));
    pub fn try_append(&mut self, other: &mut Self) -> Result<(), Error> {
        Ok(self.0.append(&mut other.0)?)
    }
}

impl<T: Clone> EcoTree<T> {
    /// Clones of the elements of a slice, in blocks of 128.
    /// # Errors
    /// `Error::Memory`.
    ///
    ///     assert_eq!(ecow::EcoTree::try_from_slice(&[1, 2]), Ok(ecow::EcoTree::from([1, 2])));
    pub fn try_from_slice(slice: &[T]) -> Result<Self, Error> {
        Ok(EcoTree(proved::EcoTree::from_slice(Global, slice)?))
    }

    /// Clones of the elements of a vector, in blocks of 128.
    /// # Errors
    /// `Error::Memory`; `vec` comes back.
    ///
    ///     assert_eq!(ecow::EcoTree::try_from_eco_vec(ecow::eco_vec![1, 2]), Ok(ecow::EcoTree::from([1, 2])));
    pub fn try_from_eco_vec(vec: EcoVec<T>) -> Result<Self, Rejected<EcoVec<T>>> {
        proved::EcoTree::from_vec(vec.0).map(EcoTree).map_err(|rejected| Rejected::of(rejected, EcoVec))
    }

    /// Appends clones of the elements of a slice: to the last block if they fit into it, and else in blocks of their own.
    /// The last block is cloned if it is shared and they fit into it.
    ///
    ///     let mut list = ecow::EcoTree::from([1]); list.extend_from_slice(&[2, 3]);
    ///     assert_eq!(list, [1, 2, 3]);
    pub fn extend_from_slice(&mut self, slice: &[T]) {
        granted(self.0.extend_from_slice(slice));
    }

    /// As [`extend_from_slice`](Self::extend_from_slice).
    /// # Errors
    /// `Error::Capacity`, `Error::Memory`. Nothing is appended then.
    ///
    ///     assert_eq!(ecow::EcoTree::from([1]).try_extend_from_slice(&[2, 3]), Ok(()));
    pub fn try_extend_from_slice(&mut self, slice: &[T]) -> Result<(), Error> {
        Ok(self.0.extend_from_slice(slice)?)
    }

    /// Lends `change` the element at `index`, and returns its answer. A shared block of elements is cloned.
    /// # Errors
    /// `Error::Index`; `Error::Memory` if something shared can't be copied. `change` isn't called then.
    ///
    ///     assert_eq!(ecow::EcoTree::from([1, 2]).try_update(0, |one| std::mem::replace(one, 7)), Ok(1));
    pub fn try_update<R>(&mut self, index: usize, change: impl FnOnce(&mut T) -> R) -> Result<R, Error> {
        inside(index < self.len())?;
        Ok(self.0.update(index, change)?)
    }

    /// Replaces the elements of a range with clones of those of a slice, which get blocks of their own. A shared block of
    /// elements in which the range begins or ends is cloned. Takes time logarithmic in the length, and linear in the
    /// numbers of elements that come and go.
    /// # Panics
    /// If the range isn't in the list.
    ///
    ///     let mut list = ecow::EcoTree::from([1, 2, 3]); list.replace_range(1..2, &[7, 8]);
    ///     assert_eq!(list, [1, 7, 8, 3]);
    #[track_caller]
    pub fn replace_range(&mut self, range: impl RangeBounds<usize>, slice: &[T]) {
        let range = indices_or_panic(range, self.len());
        granted(self.0.replace_range(range, slice));
    }

    /// As [`replace_range`](Self::replace_range).
    /// # Errors
    /// `Error::Index` for a range that isn't in the list; `Error::Capacity`, `Error::Memory`. The list is unchanged then.
    ///
    ///     assert_eq!(ecow::EcoTree::from([1]).try_replace_range(2.., &[3]), Err(ecow::Error::Index));
    pub fn try_replace_range(&mut self, range: impl RangeBounds<usize>, slice: &[T]) -> Result<(), Error> {
        let range = indices(range, self.len())?;
        Ok(self.0.replace_range(range, slice)?)
    }

    /// Appends the items of `iter`, one after another, each as [`push`](Self::push) does.
    /// # Errors
    /// `Error::Capacity`, `Error::Memory`. The items before the refused one stay; it and those behind it are dropped.
    ///
    ///     assert_eq!(ecow::EcoTree::from([1]).try_extend([2, 3]), Ok(()));
    pub fn try_extend(&mut self, iter: impl IntoIterator<Item = T>) -> Result<(), Error> {
        Ok(self.0.extend(iter)?)
    }

    /// Takes the elements from `at` on, as another list. Both lists keep their blocks, and no element is cloned, except
    /// for those of a shared block that is cut. Takes time logarithmic in the length.
    /// # Panics
    /// If `at` is greater than the length.
    ///
    ///     let mut list = ecow::EcoTree::from([1, 2, 3]);
    ///     assert!(list.split_off(1) == [2, 3] && list == [1]);
    #[must_use = "`truncate` drops the elements"]
    #[track_caller]
    pub fn split_off(&mut self, at: usize) -> Self {
        assert_index(at <= self.len(), at, self.len());
        EcoTree(granted(self.0.split_off(at)))
    }

    /// As [`split_off`](Self::split_off).
    /// # Errors
    /// `Error::Index`; `Error::Memory` if there is no memory for a block. The list is unchanged then.
    ///
    ///     assert_eq!(ecow::EcoTree::from([1]).try_split_off(2), Err(ecow::Error::Index));
    pub fn try_split_off(&mut self, at: usize) -> Result<Self, Error> {
        inside(at <= self.len())?;
        Ok(EcoTree(self.0.split_off(at)?))
    }

    /// Keeps the first `len` elements, or all if there are fewer, and drops the others. A shared block of elements that is
    /// cut is cloned.
    ///
    ///     let mut list = ecow::EcoTree::from([1, 2, 3]); list.truncate(1);
    ///     assert_eq!(list, [1]);
    pub fn truncate(&mut self, len: usize) {
        granted(self.0.truncate(len));
    }

    /// As [`truncate`](Self::truncate).
    /// # Errors
    /// `Error::Memory` if there is no memory for a block. The list is unchanged then.
    ///
    ///     assert_eq!(ecow::EcoTree::from([1, 2]).try_truncate(1), Ok(()));
    pub fn try_truncate(&mut self, len: usize) -> Result<(), Error> {
        Ok(self.0.truncate(len)?)
    }
}

list! { EcoTree,
    "A shared block of elements is cloned, unless it is full.",
    "A shared block of elements is cloned.",
    "A shared block of elements is cloned.",
    "A shared block of elements is cloned.",
}

impl<T> Default for EcoTree<T> {
    fn default() -> Self {
        EcoTree::new()
    }
}

impl<T> Clone for EcoTree<T> {
    /// Shares all blocks. Asks for no memory, and clones no element.
    fn clone(&self) -> Self {
        EcoTree(self.0.clone())
    }
}

impl<T> Index<usize> for EcoTree<T> {
    type Output = T;

    #[track_caller]
    fn index(&self, index: usize) -> &T {
        assert_index(index < self.len(), index, self.len());
        &self.0.chunk_at(index)[0]
    }
}

impl<T: Debug> Debug for EcoTree<T> {
    fn fmt(&self, f: &mut fmt::Formatter<'_>) -> fmt::Result {
        self.0.fmt(f)
    }
}

impl<T: PartialEq> PartialEq for EcoTree<T> {
    fn eq(&self, other: &Self) -> bool {
        self.0 == other.0
    }
}

impl<T: Eq> Eq for EcoTree<T> {}

impl<T: PartialEq> PartialEq<[T]> for EcoTree<T> {
    fn eq(&self, other: &[T]) -> bool {
        self.len() == other.len() && self.iter().eq(other)
    }
}

impl<T: PartialEq, const N: usize> PartialEq<[T; N]> for EcoTree<T> {
    fn eq(&self, other: &[T; N]) -> bool {
        *self == other[..]
    }
}

impl<T: PartialOrd> PartialOrd for EcoTree<T> {
    fn partial_cmp(&self, other: &Self) -> Option<Ordering> {
        self.0.partial_cmp(&other.0)
    }
}

impl<T: Ord> Ord for EcoTree<T> {
    fn cmp(&self, other: &Self) -> Ordering {
        self.0.cmp(&other.0)
    }
}

impl<T: Hash> Hash for EcoTree<T> {
    fn hash<H: Hasher>(&self, state: &mut H) {
        self.0.hash(state);
    }
}

impl<T: Clone> Extend<T> for EcoTree<T> {
    fn extend<I: IntoIterator<Item = T>>(&mut self, iter: I) {
        granted(self.0.extend(iter));
    }
}

impl<T: Clone> FromIterator<T> for EcoTree<T> {
    fn from_iter<I: IntoIterator<Item = T>>(iter: I) -> Self {
        EcoTree(granted(proved::EcoTree::from_iter(Global, iter)))
    }
}

impl<T: Clone, const N: usize> From<[T; N]> for EcoTree<T> {
    fn from(array: [T; N]) -> Self {
        array.into_iter().collect()
    }
}

from! {
    [T: Clone] &[T] => EcoTree<T>: |slice| granted(Self::try_from_slice(slice));
    [T: Clone] EcoVec<T> => EcoTree<T>: |vec| granted(Self::try_from_eco_vec(vec));
}

impl<'a, T> IntoIterator for &'a EcoTree<T> {
    type Item = &'a T;
    type IntoIter = Iter<'a, T>;

    fn into_iter(self) -> Iter<'a, T> {
        self.iter()
    }
}

/// The elements of an [`EcoTree`] in order, as slices.
pub struct Chunks<'a, T>(proved::Chunks<'a, T>);

impl<'a, T> Iterator for Chunks<'a, T> {
    type Item = &'a [T];

    fn next(&mut self) -> Option<&'a [T]> {
        self.0.next()
    }
}

impl<T> DoubleEndedIterator for Chunks<'_, T> {
    fn next_back(&mut self) -> Option<Self::Item> {
        self.0.next_back()
    }
}

impl<T> FusedIterator for Chunks<'_, T> {}

/// The elements of an [`EcoTree`] in order.
pub struct Iter<'a, T>(proved::Iter<'a, T>);

impl<'a, T> Iterator for Iter<'a, T> {
    type Item = &'a T;

    #[inline]
    fn next(&mut self) -> Option<&'a T> {
        self.0.next()
    }

    fn size_hint(&self) -> (usize, Option<usize>) {
        self.0.size_hint()
    }
}

impl<T> DoubleEndedIterator for Iter<'_, T> {
    #[inline]
    fn next_back(&mut self) -> Option<Self::Item> {
        self.0.next_back()
    }
}

impl<T> ExactSizeIterator for Iter<'_, T> {}

impl<T> FusedIterator for Iter<'_, T> {}
