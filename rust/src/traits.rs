//! Traits that several types have alike.

/// Equality with what has the same slice.
macro_rules! equal_to {
    ($([$($params:tt)*] $left:ty, $right:ty;)*) => { $(
        impl<$($params)*> PartialEq<$right> for $left {
            #[inline]
            fn eq(&self, other: &$right) -> bool {
                self[..] == other[..]
            }
        }
    )* };
}

/// Conversions.
macro_rules! from {
    ($($(#[$doc:meta])* [$($params:tt)*] $from:ty => $to:ty: |$value:ident| $made:expr;)*) => { $(
        impl<$($params)*> From<$from> for $to {
            $(#[$doc])*
            #[inline]
            fn from($value: $from) -> Self {
                $made
            }
        }
    )* };
}

/// What is collected of an iterator's items.
macro_rules! collected {
    ($([$($params:tt)*] $item:ty => $to:ty: |$iter:ident| $made:expr;)*) => { $(
        impl<$($params)*> FromIterator<$item> for $to {
            fn from_iter<I: IntoIterator<Item = $item>>($iter: I) -> Self {
                $made
            }
        }
    )* };
}

/// What is extended by an iterator's items.
macro_rules! extended {
    ($([$($params:tt)*] $item:ty => $type:ty: |$value:ident, $iter:ident| $call:expr;)*) => { $(
        impl<$($params)*> Extend<$item> for $type {
            fn extend<I: IntoIterator<Item = $item>>(&mut self, $iter: I) {
                let $value = self;
                $call
            }
        }
    )* };
}

/// Iteration by reference, over the slice.
macro_rules! iterated {
    ([$($params:tt)*] $type:ty, $item:ty) => {
        impl<'a, $($params)*> IntoIterator for &'a $type {
            type Item = &'a $item;
            type IntoIter = core::slice::Iter<'a, $item>;

            #[inline]
            fn into_iter(self) -> Self::IntoIter {
                self.iter()
            }
        }
    };
}

/// What lends its slice, and is empty at first.
macro_rules! slice_of {
    ($([$($params:tt)*] $type:ty, $slice:ty, $as_slice:ident;)*) => { $(
        impl<$($params)*> core::ops::Deref for $type {
            type Target = $slice;

            #[inline]
            fn deref(&self) -> &$slice {
                self.0.$as_slice()
            }
        }

        impl<$($params)*> core::borrow::Borrow<$slice> for $type {
            #[inline]
            fn borrow(&self) -> &$slice {
                self
            }
        }

        impl<$($params)*> AsRef<$slice> for $type {
            #[inline]
            fn as_ref(&self) -> &$slice {
                self
            }
        }

        impl<$($params)*> Default for $type {
            #[inline]
            fn default() -> Self {
                Self::new()
            }
        }
    )* };
}

/// Printing and hash of the proved type, and equality of the slices. The parameters are for each trait in turn.
macro_rules! compared {
    ($type:ty: [$($debug:tt)*] [$($hash:tt)*] [$($eq:tt)*] [$($partial_eq:tt)*]) => {
        impl<$($debug)*> core::fmt::Debug for $type {
            fn fmt(&self, f: &mut core::fmt::Formatter<'_>) -> core::fmt::Result {
                core::fmt::Debug::fmt(&self.0, f)
            }
        }

        impl<$($hash)*> core::hash::Hash for $type {
            #[inline]
            fn hash<H: core::hash::Hasher>(&self, state: &mut H) {
                self.0.hash(state);
            }
        }

        impl<$($eq)*> Eq for $type {}

        impl<$($partial_eq)*> PartialEq for $type {
            #[inline]
            fn eq(&self, other: &Self) -> bool {
                self[..] == other[..]
            }
        }
    };
}

/// What `SmallBytes` and `SmallText` have by the proved type in them, and by the slice that they are. The literals are for
/// their examples.
macro_rules! small {
    (
        $type:ident, $short:ident, $slice:ty, $as_slice:ident, $copy:ident, $item:ty, $unit:literal,
        [$none:literal, $ab:literal, $upper:literal, $c:literal, $abc:literal, $abab:literal $(,)?] $(,)?
    ) => {
        impl<const N: usize> $type<N> {
            /// The greatest number of bytes that stand in the value itself.
            pub const INLINE_LIMIT: usize = N;

            /// No bytes, inline. Asks for no memory.
            ///
            #[doc = concat!("    assert!(ecow::", stringify!($short), "::new().is_inline());")]
            #[inline]
            #[must_use]
            pub const fn new() -> Self {
                Self::laid_out($none)
            }

            /// A copy of at most `N` bytes, inline. Asks for no memory.
            /// # Panics
            /// If there are more than `N` bytes.
            ///
            #[doc = concat!("    const AB: ecow::", stringify!($short), " = ecow::", stringify!($short), "::inline(", stringify!($ab), ");")]
            #[inline]
            #[track_caller]
            #[must_use]
            pub const fn inline(slice: &$slice) -> Self {
                assert!(slice.len() <= N, "exceeded inline capacity");
                Self::laid_out(slice)
            }

            /// As [`inline`](Self::inline), or `None` if there are more than `N` bytes.
            ///
            #[doc = concat!("    assert!(ecow::", stringify!($type), "::<1>::try_inline(", stringify!($ab), ").is_none());")]
            #[must_use]
            pub const fn try_inline(slice: &$slice) -> Option<Self> {
                if slice.len() > N { None } else { Some(Self::laid_out(slice)) }
            }

            /// What it holds, to write to. What is spilled and shared is copied first.
            ///
            #[doc = concat!("    let mut value = ecow::", stringify!($short), "::from(", stringify!($ab), ");")]
            #[doc = concat!("    value.make_mut().make_ascii_uppercase(); assert_eq!(value, ", stringify!($upper), ");")]
            #[inline]
            pub fn make_mut(&mut self) -> &mut $slice {
                granted(self.try_make_mut())
            }

            #[doc = concat!("Appends a ", $unit, ". Constant time on average; what is shared is copied first.")]
            ///
            #[doc = concat!("    let mut value = ecow::", stringify!($short), "::from(", stringify!($ab), ");")]
            #[doc = concat!("    value.push(", stringify!($c), "); assert_eq!(value, ", stringify!($abc), ");")]
            #[inline]
            pub fn push(&mut self, item: $item) {
                granted(self.0.push(item));
            }

            /// As [`push`](Self::push).
            /// # Errors
            /// `Error::Capacity`, `Error::Memory`.
            ///
            #[doc = concat!("    assert_eq!(ecow::", stringify!($short), "::new().try_push(", stringify!($c), "), Ok(()));")]
            #[inline]
            pub fn try_push(&mut self, item: $item) -> Result<(), Error> {
                Ok(self.0.push(item)?)
            }

            #[doc = concat!("Takes the last ", $unit, ", if there is one. What is shared is copied first.")]
            ///
            #[doc = concat!("    let mut value = ecow::", stringify!($short), "::from(", stringify!($abc), ");")]
            #[doc = concat!("    assert_eq!(value.pop(), Some(", stringify!($c), "));")]
            #[inline]
            pub fn pop(&mut self) -> Option<$item> {
                granted(self.try_pop())
            }

            /// As [`pop`](Self::pop).
            /// # Errors
            /// `Error::Memory` if what is shared can't be copied.
            ///
            #[doc = concat!("    assert_eq!(ecow::", stringify!($short), "::new().try_pop(), Ok(None));")]
            #[inline]
            pub fn try_pop(&mut self) -> Result<Option<$item>, Error> {
                Ok(self.0.pop()?)
            }

            /// What it holds, `n` times over.
            /// # Panics
            /// If this is more than memory can hold.
            ///
            #[doc = concat!("    assert_eq!(ecow::", stringify!($short), "::from(", stringify!($ab), ").repeat(2), ", stringify!($abab), ");")]
            #[must_use]
            pub fn repeat(&self, n: usize) -> Self {
                granted(self.try_repeat(n))
            }

            /// The bytes in a vector. Spilled bytes hand on their block, and inline ones are copied.
            /// # Errors
            /// `Error::Memory`; the value comes back.
            ///
            #[doc = concat!("    let value = ecow::", stringify!($short), "::from(", stringify!($ab), ");")]
            ///     assert_eq!(value.try_into_eco_vec().unwrap(), b"ab");
            pub fn try_into_eco_vec(self) -> Result<EcoVec<u8>, Rejected<Self>> {
                self.0.into_eco_vec().map(EcoVec).map_err(|rejected| Rejected::of(rejected, $type))
            }

            /// No bytes, with a capacity of `capacity` bytes. It is inline if that is at most `N`.
            /// # Panics
            /// If `capacity` bytes are more than memory can hold.
            ///
            #[doc = concat!("    assert!(ecow::", stringify!($type), "::<15>::with_capacity(20).capacity() == 20);")]
            #[must_use]
            pub fn with_capacity(capacity: usize) -> Self {
                granted(Self::try_with_capacity(capacity))
            }

            /// As [`with_capacity`](Self::with_capacity).
            /// # Errors
            /// `Error::Capacity` past 2^63 - 1; `Error::Memory`.
            ///
            #[doc = concat!("    assert!(ecow::", stringify!($type), "::<9>::try_with_capacity(!0).is_err());")]
            pub fn try_with_capacity(capacity: usize) -> Result<Self, Error> {
                Ok($type(proved::$type::with_capacity(Global, capacity)?))
            }

            /// Whether there is no byte.
            ///
            #[doc = concat!("    assert!(ecow::", stringify!($type), "::<15>::new().is_empty());")]
            #[inline]
            #[must_use]
            pub fn is_empty(&self) -> bool {
                self.0.is_empty()
            }

            /// The number of bytes.
            ///
            #[doc = concat!("    assert!(ecow::", stringify!($type), "::<15>::new().len() == 0);")]
            #[inline]
            #[must_use]
            pub fn len(&self) -> usize {
                self.0.len()
            }

            /// Whether the bytes are in the value itself.
            ///
            #[doc = concat!("    assert!(ecow::", stringify!($type), "::<15>::new().is_inline());")]
            #[inline]
            #[must_use]
            pub fn is_inline(&self) -> bool {
                self.0.is_inline()
            }

            /// For how many bytes there are places: `N` if they are inline.
            ///
            #[doc = concat!("    assert!(ecow::", stringify!($type), "::<15>::new().capacity() == 15);")]
            #[inline]
            #[must_use]
            pub fn capacity(&self) -> usize {
                self.0.capacity()
            }

            /// A value that shares this one's block. Takes constant time, and asks for no memory.
            /// # Errors
            /// `Error::Memory` past 2^63 - 1 owners.
            ///
            #[doc = concat!("    assert!(ecow::", stringify!($type), "::<15>::new().try_clone().is_ok());")]
            pub fn try_clone(&self) -> Result<Self, Error> {
                Ok($type(self.0.try_clone()?))
            }

            /// Removes all bytes. An inline value stays inline, and a sole block stays. A shared one is given up.
            ///
            #[doc = concat!("    let mut value = ecow::", stringify!($type), "::<15>::default(); value.clear(); assert_eq!(value.len(), 0);")]
            pub fn clear(&mut self) {
                self.0.clear()
            }

            /// Makes the capacity large enough for `additional` more bytes. Shared bytes are copied.
            /// # Panics
            /// If these are more than memory can hold.
            ///
            #[doc = concat!("    let mut value = ecow::", stringify!($type), "::<15>::new(); value.reserve(16); assert!(value.capacity() >= 16);")]
            pub fn reserve(&mut self, additional: usize) {
                granted(self.try_reserve(additional))
            }

            /// As [`reserve`](Self::reserve).
            /// # Errors
            /// `Error::Capacity` past 2^63 - 1; `Error::Memory`.
            ///
            #[doc = concat!("    assert!(ecow::", stringify!($type), "::<15>::new().try_reserve(1).is_ok());")]
            pub fn try_reserve(&mut self, additional: usize) -> Result<(), Error> {
                Ok(self.0.reserve(additional)?)
            }

            /// Brings at most `N` spilled bytes back inline. Other owners keep the block. Not in the original.
            ///
            #[doc = concat!("    let mut value = ecow::", stringify!($type), "::<15>::with_capacity(16); value.shrink_to_fit(); assert!(value.is_inline());")]
            pub fn shrink_to_fit(&mut self) {
                self.0.shrink_to_fit()
            }
        }

        impl<const N: usize> Clone for $type<N> {
            #[inline]
            fn clone(&self) -> Self {
                $type(self.0.clone())
            }
        }

        slice_of! { [const N: usize] $type<N>, $slice, $as_slice; }

        compared! { $type<N>: [const N: usize] [const N: usize] [const N: usize] [const N: usize] }

        impl<const N: usize> Ord for $type<N> {
            #[inline]
            fn cmp(&self, other: &Self) -> core::cmp::Ordering {
                self[..].cmp(&other[..])
            }
        }

        impl<const N: usize> PartialOrd for $type<N> {
            #[inline]
            fn partial_cmp(&self, other: &Self) -> Option<core::cmp::Ordering> {
                Some(self.cmp(other))
            }
        }

        from! {
            [const N: usize] &$type<N> => $type<N>: |value| value.clone();
            [const N: usize] &$slice => $type<N>: |slice| granted(Self::$copy(slice));
        }
    };
}

/// The length of a list, and the edits of one element. The texts say what `push`, `pop`, `insert` and `remove`, and `set`
/// cost.
macro_rules! list {
    ($list:ident, $pushes:literal, $pops:literal, $moves:literal, $sets:literal $(,)?) => {
        impl<T> $list<T> {
            /// Whether there is no element.
            ///
            #[doc = concat!("    assert!(!ecow::", stringify!($list), "::from([1]).is_empty());")]
            #[inline]
            #[must_use]
            pub fn is_empty(&self) -> bool {
                self.0.is_empty()
            }

            /// The number of elements.
            ///
            #[doc = concat!("    assert_eq!(ecow::", stringify!($list), "::from([1, 2]).len(), 2);")]
            #[inline]
            #[must_use]
            pub fn len(&self) -> usize {
                self.0.len()
            }
        }

        impl<T: Clone> $list<T> {
            #[doc = concat!("Appends `value`. ", $pushes)]
            ///
            #[doc = concat!("    let mut list = ecow::", stringify!($list), "::from([1]); list.push(2);")]
            ///     assert_eq!(list, [1, 2]);
            #[inline]
            pub fn push(&mut self, value: T) {
                granted(self.0.push(value));
            }

            /// As [`push`](Self::push).
            /// # Errors
            /// `Error::Capacity`, `Error::Memory`; `value` comes back.
            ///
            #[doc = concat!("    assert_eq!(ecow::", stringify!($list), "::from([1]).try_push(2), Ok(()));")]
            #[inline]
            pub fn try_push(&mut self, value: T) -> Result<(), Rejected<T>> {
                Ok(self.0.push(value)?)
            }

            #[doc = concat!("Takes the last element, if there is one. ", $pops)]
            ///
            #[doc = concat!("    assert_eq!(ecow::", stringify!($list), "::from([1, 2]).pop(), Some(2));")]
            #[inline]
            pub fn pop(&mut self) -> Option<T> {
                granted(self.try_pop())
            }

            /// As [`pop`](Self::pop).
            /// # Errors
            /// `Error::Memory` if something shared can't be copied.
            ///
            #[doc = concat!("    assert_eq!(ecow::", stringify!($list), "::from([1, 2]).try_pop(), Ok(Some(2)));")]
            #[inline]
            pub fn try_pop(&mut self) -> Result<Option<T>, Error> {
                Ok(self.0.pop()?)
            }

            /// Inserts `value` before the element at `index`.
            #[doc = $moves]
            /// # Panics
            /// If `index` is greater than the length.
            ///
            #[doc = concat!("    let mut list = ecow::", stringify!($list), "::from([1, 2]); list.insert(1, 7);")]
            ///     assert_eq!(list, [1, 7, 2]);
            #[inline]
            #[track_caller]
            pub fn insert(&mut self, index: usize, value: T) {
                assert_index(index <= self.len(), index, self.len());
                granted(self.0.insert(index, value));
            }

            /// As [`insert`](Self::insert).
            /// # Errors
            /// `Error::Index`, `Error::Capacity`, `Error::Memory`; `value` comes back.
            ///
            #[doc = concat!("    let mut list = ecow::", stringify!($list), "::from([1]);")]
            ///     assert_eq!(list.try_insert(2, 3).unwrap_err().value, 3);
            pub fn try_insert(&mut self, index: usize, value: T) -> Result<(), Rejected<T>> {
                let value = inside_with(index <= self.len(), value)?;
                Ok(self.0.insert(index, value)?)
            }

            /// Takes the element at `index`.
            #[doc = $moves]
            /// # Panics
            /// If there is no element at `index`.
            ///
            #[doc = concat!("    assert_eq!(ecow::", stringify!($list), "::from([1, 2]).remove(0), 1);")]
            #[track_caller]
            pub fn remove(&mut self, index: usize) -> T {
                assert_index(index < self.len(), index, self.len());
                granted(self.0.remove(index))
            }

            /// As [`remove`](Self::remove).
            /// # Errors
            /// `Error::Index`; `Error::Memory` if something shared can't be copied.
            ///
            #[doc = concat!("    let mut list = ecow::", stringify!($list), "::from([1]);")]
            ///     assert_eq!(list.try_remove(1), Err(ecow::Error::Index));
            pub fn try_remove(&mut self, index: usize) -> Result<T, Error> {
                inside(index < self.len())?;
                Ok(self.0.remove(index)?)
            }

            /// Replaces the element at `index`, and drops the old one.
            #[doc = $sets]
            /// # Panics
            /// If there is no element at `index`.
            ///
            #[doc = concat!("    let mut list = ecow::", stringify!($list), "::from([1, 2]); list.set(0, 7);")]
            ///     assert_eq!(list, [7, 2]);
            #[track_caller]
            pub fn set(&mut self, index: usize, value: T) {
                assert_index(index < self.len(), index, self.len());
                granted(self.0.set(index, value));
            }

            /// As [`set`](Self::set).
            /// # Errors
            /// `Error::Index`, `Error::Memory`; `value` comes back.
            ///
            #[doc = concat!("    let mut list = ecow::", stringify!($list), "::from([1]);")]
            ///     assert_eq!(list.try_set(1, 3).unwrap_err().value, 3);
            pub fn try_set(&mut self, index: usize, value: T) -> Result<(), Rejected<T>> {
                let value = inside_with(index < self.len(), value)?;
                Ok(self.0.set(index, value)?)
            }
        }
    };
}
