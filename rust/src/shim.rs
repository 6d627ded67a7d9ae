//! What the proved source names that Rust hasn't, or has in another form: the part of Rattle's standard library and of
//! its libraries that it uses, over `core` and `alloc`. Each item keeps what the proofs take from its namesake.

#![allow(clippy::inline_always, reason = "each does less than a call of it costs")]
#![allow(clippy::unnecessary_wraps, clippy::needless_pass_by_value, reason = "the signatures are those of Rattle")]

use crate::error::Error;

/// Moves the fields out of a value whose type has a drop of its own, which isn't run.
macro_rules! open {
    ($type:ident { $($fields:tt)* } = $value:expr) => {
        let whole = core::mem::ManuallyDrop::<$type<_>>::new($value);
        let whole = $crate::shim::inside(&whole);
        $crate::shim::open!(@ whole $($fields)*);
    };
    (@ $whole:ident $(,)?) => {};
    (@ $whole:ident mut $field:ident $(, $($rest:tt)*)?) => {
        // SAFETY: the value isn't dropped, and each field is read once.
        let mut $field = unsafe { (&raw const (*$whole).$field).read() };
        $($crate::shim::open!(@ $whole $($rest)*);)?
    };
    (@ $whole:ident $field:ident $(, $($rest:tt)*)?) => {
        // SAFETY: as above.
        let $field = unsafe { (&raw const (*$whole).$field).read() };
        $($crate::shim::open!(@ $whole $($rest)*);)?
    };
    // What a `_` or a pattern of such stands for has no drop.
    (@ $whole:ident $field:ident : $pattern:pat $(, $($rest:tt)*)?) => {
        $($crate::shim::open!(@ $whole $($rest)*);)?
    };
}
pub(crate) use open;

/// Where the value stands that isn't dropped.
#[inline(always)]
pub(crate) const fn inside<T>(whole: &core::mem::ManuallyDrop<T>) -> *const T {
    (&raw const *whole).cast()
}

/// What a call answered, where a refusal ends the program or the thread, as one of the original's does.
#[inline(always)]
#[track_caller]
pub(crate) fn granted<V, E: Into<Error>>(answer: Result<V, E>) -> V {
    match answer {
        Ok(value) => value,
        Err(error) => refused(error.into()),
    }
}

/// Memory that is refused aborts, and all else panics.
#[cold]
#[inline(never)]
#[track_caller]
fn refused(error: Error) -> ! {
    match error {
        Error::Memory => ::alloc::alloc::handle_alloc_error(alloc::refused_last()),
        error => panic!("{error}"),
    }
}

/// Makes a call, and drops these items if it unwinds.
#[inline(always)]
pub(crate) fn guarded<T, R>(items: *mut [T], call: impl FnOnce() -> R) -> R {
    struct Guard<T>(*mut [T]);

    impl<T> Drop for Guard<T> {
        fn drop(&mut self) {
            // SAFETY: no value has these items: no length counts them yet, or any more.
            unsafe { self.0.drop_in_place() }
        }
    }

    let guard = Guard(items);
    let answer = call();
    core::mem::forget(guard);
    answer
}

/// The text in the bytes of a text.
#[inline]
pub(crate) fn text_mut(bytes: &mut [u8]) -> &mut str {
    // SAFETY: it is called with these alone, and they are UTF-8.
    unsafe { core::str::from_utf8_unchecked_mut(bytes) }
}

pub(crate) mod clone {
    use super::alloc::AllocError;

    /// Rattle's `Clone`, which may be refused. A clone of Rust's never is.
    pub trait TryClone: Clone {
        fn try_clone(&self) -> Result<Self, AllocError>;
    }

    impl<T: Clone> TryClone for T {
        #[inline(always)]
        fn try_clone(&self) -> Result<Self, AllocError> {
            Ok(self.clone())
        }
    }
}

pub(crate) mod alloc {
    use alloc::alloc::{alloc, dealloc, realloc};
    use core::alloc::Layout;
    use core::sync::atomic::{AtomicUsize, Ordering::Relaxed};

    /// The size and the alignment that were refused last, in any thread, for the message of the abort.
    static REFUSED: [AtomicUsize; 2] = [AtomicUsize::new(0), AtomicUsize::new(1)];

    /// Notes what is refused.
    #[cold]
    pub fn refuse(size: usize, align: usize) -> AllocError {
        REFUSED[0].store(size, Relaxed);
        REFUSED[1].store(align, Relaxed);
        AllocError
    }

    /// What was refused last.
    pub fn refused_last() -> Layout {
        let [size, align] = REFUSED.each_ref().map(|word| word.load(Relaxed));
        Layout::from_size_align(size, align).unwrap_or(Layout::new::<usize>())
    }

    /// There is no memory.
    #[derive(Clone, Copy, Debug, PartialEq, Eq)]
    pub struct AllocError;

    /// There is no memory, with the value that was handed in.
    #[derive(Debug)]
    pub struct AllocFailed<V> {
        pub value: V,
    }

    /// # Safety
    /// `allocate` and `grow` answer memory of that size and alignment, which nobody else uses.
    pub unsafe trait Allocator {
        /// `size` bytes, which aren't none.
        fn allocate(&self, size: usize, align: usize) -> Result<*mut u8, AllocError>;

        /// # Safety
        /// The memory was asked of this allocator with this size and alignment.
        unsafe fn deallocate(&self, ptr: *mut u8, size: usize, align: usize);

        /// Memory for `new` items, with the first `len` of the old; the old stays where this is refused.
        ///
        /// # Safety
        /// The memory was asked of this allocator for `old` items, which take some bytes; `new` isn't less.
        unsafe fn grow<T>(&self, ptr: *mut T, len: usize, old: usize, new: usize) -> Result<*mut T, AllocError>;
    }

    /// Rust's global allocator.
    #[derive(Clone, Copy, Debug)]
    pub struct Global;

    unsafe impl Allocator for Global {
        #[inline]
        fn allocate(&self, size: usize, align: usize) -> Result<*mut u8, AllocError> {
            assert!(size != 0);
            let layout = Layout::from_size_align(size, align).map_err(|_| AllocError)?;
            // SAFETY: the size isn't 0.
            let block = unsafe { alloc(layout) };
            if block.is_null() { Err(refuse(size, align)) } else { Ok(block) }
        }

        #[inline]
        unsafe fn deallocate(&self, ptr: *mut u8, size: usize, align: usize) {
            // SAFETY: the caller says so.
            unsafe { dealloc(ptr, Layout::from_size_align_unchecked(size, align)) }
        }

        #[inline]
        unsafe fn grow<T>(&self, ptr: *mut T, _len: usize, old: usize, new: usize) -> Result<*mut T, AllocError> {
            let bytes = Layout::array::<T>(new).map_err(|_| AllocError)?.size();
            // SAFETY: the caller says so, and `bytes` is a size that a layout has.
            let block = unsafe {
                let layout = Layout::from_size_align_unchecked(old * size_of::<T>(), align_of::<T>());
                realloc(ptr.cast(), layout, bytes)
            };
            if block.is_null() { Err(refuse(bytes, align_of::<T>())) } else { Ok(block.cast()) }
        }
    }

    #[cfg(feature = "std")]
    impl From<AllocError> for std::io::Error {
        fn from(_: AllocError) -> Self {
            std::io::ErrorKind::OutOfMemory.into()
        }
    }
}

pub(crate) mod atomic {
    /// Steps on a word that threads share.
    pub mod raw {
        use core::sync::atomic::{AtomicU64, Ordering};

        /// # Safety
        /// The word is there meanwhile, and is changed by these steps alone while threads share it.
        #[inline(always)]
        unsafe fn word<'a>(at: *const u64) -> &'a AtomicU64 {
            // SAFETY: the caller says so.
            unsafe { AtomicU64::from_ptr(at.cast_mut()) }
        }

        /// # Safety
        /// As `word`.
        #[inline(always)]
        pub unsafe fn load(at: *const u64, order: Ordering) -> u64 {
            // SAFETY: the caller says so.
            unsafe { word(at) }.load(order)
        }

        /// # Safety
        /// As `word`.
        #[inline(always)]
        pub unsafe fn fetch_sub(at: *const u64, count: u64, order: Ordering) -> u64 {
            // SAFETY: the caller says so.
            unsafe { word(at) }.fetch_sub(count, order)
        }

        /// Adds 1, unless the word is `i64::MAX` or more, and gives what it was. For a moment it may be more by the
        /// number of threads that are refused; none of them can tell.
        ///
        /// # Safety
        /// As `word`.
        #[inline(always)]
        pub unsafe fn saturating_increment(at: *const u64, order: Ordering) -> u64 {
            // SAFETY: the caller says so.
            let word = unsafe { word(at) };
            let count = word.fetch_add(1, order);
            if count >= i64::MAX as u64 {
                word.fetch_sub(1, order);
            }
            count
        }
    }
}

pub(crate) mod slots {
    /// A row of places, which are filled by copies.
    pub struct Slots<T> {
        ptr: *mut T,
        len: usize,
    }

    impl<T> Slots<T> {
        /// # Safety
        /// The places are there, and no other code uses them meanwhile.
        #[inline(always)]
        pub unsafe fn from_raw_parts(ptr: *mut T, len: usize) -> Self {
            Slots { ptr, len }
        }

        /// # Safety
        /// All places are filled.
        #[inline(always)]
        pub unsafe fn into_raw_parts(self) -> (*mut T, usize) {
            (self.ptr, self.len)
        }

        /// Copies the items into the places from `at` on.
        #[inline(always)]
        pub fn copy_in(&mut self, at: usize, items: &[T])
        where
            T: Copy,
        {
            assert!(at <= self.len && items.len() <= self.len - at);
            // SAFETY: there are so many places, and nobody else reads them.
            unsafe { self.ptr.add(at).copy_from_nonoverlapping(items.as_ptr(), items.len()) }
        }
    }
}

pub(crate) mod room {
    /// Whether memory for `count` items may be asked for.
    #[inline]
    pub fn may_hold<T>(count: usize) -> bool {
        match size_of::<T>() {
            0 => isize::try_from(count).is_ok(),
            size => count <= isize::MAX as usize / size,
        }
    }
}

pub(crate) mod simd {
    /// A row of bytes that are compared at once.
    pub struct Simd<T, const M: usize>([T; M]);

    /// Whether there is a place at which two rows differ.
    #[derive(Clone, Copy)]
    pub struct Mask(bool);

    impl<const M: usize> Simd<u8, M> {
        /// The first bytes.
        #[inline(always)]
        pub fn from_slice(bytes: &[u8]) -> Self {
            Simd(*bytes.first_chunk::<M>().unwrap())
        }

        #[inline(always)]
        pub fn simd_ne(self, other: Self) -> Mask {
            Mask(self.0 != other.0)
        }
    }

    impl Mask {
        /// 0 where the rows are the same, and 1 where they aren't: of a mask's bits that is what is asked here.
        #[inline(always)]
        pub fn to_bitmask(self) -> u64 {
            self.0.into()
        }
    }
}

pub(crate) mod memmem {
    use core::cell::Cell;

    /// Looks for a pattern, which isn't empty, in a text and in ends of it.
    pub struct Finder<'a> {
        pattern: &'a str,
        /// How many bytes the end has that is known not to hold it.
        without: Cell<usize>,
    }

    impl<'a> Finder<'a> {
        pub fn new(pattern: &'a str) -> Self {
            Finder { pattern, without: Cell::new(0) }
        }

        /// Where it stands first.
        pub fn find(&self, text: &str) -> Option<usize> {
            if text.len() <= self.without.get() {
                return None;
            }
            let found = match self.pattern.as_bytes() {
                // What is near is found without a call.
                [byte] => text.bytes().take(12).position(|other| other == *byte).or_else(|| text.find(*byte as char)),
                _ => text.find(self.pattern),
            };
            if found.is_none() {
                self.without.set(text.len());
            }
            found
        }
    }
}

/// A vector of `alloc`, by calls that may be refused.
pub(crate) mod vec {
    use super::alloc::{AllocError, AllocFailed, Global, refuse};
    use super::clone::TryClone;
    use alloc::vec::Vec;

    pub fn with_capacity<T>(_: Global, capacity: usize) -> Result<Vec<T>, AllocError> {
        let mut vec = Vec::new();
        vec.try_reserve_exact(capacity)
            .map_err(|_| refuse(capacity.saturating_mul(size_of::<T>()), align_of::<T>()))?;
        Ok(vec)
    }

    pub fn from_clones<T: TryClone>(alloc: Global, items: &[T]) -> Result<Vec<T>, AllocError> {
        let mut vec = with_capacity(alloc, items.len())?;
        vec.extend_from_slice(items);
        Ok(vec)
    }

    pub fn from_array<T, const N: usize>(alloc: Global, items: [T; N]) -> Result<Vec<T>, AllocFailed<[T; N]>> {
        match with_capacity(alloc, N) {
            Ok(mut vec) => {
                vec.extend(items);
                Ok(vec)
            }
            Err(AllocError) => Err(AllocFailed { value: items }),
        }
    }
}

/// A text of `alloc`, likewise.
pub(crate) mod string {
    use super::alloc::{AllocError, Global, refuse};
    use alloc::string::String;

    pub fn from_str(_: Global, text: &str) -> Result<String, AllocError> {
        let mut string = String::new();
        string.try_reserve_exact(text.len()).map_err(|_| refuse(text.len(), 1))?;
        string.push_str(text);
        Ok(string)
    }

    /// Where memory for it is refused, the program ends: `str` has no such call that is refused.
    pub fn to_lowercase(_: Global, text: &str) -> Result<String, AllocError> {
        Ok(text.to_lowercase())
    }

    /// As `to_lowercase`.
    pub fn to_uppercase(_: Global, text: &str) -> Result<String, AllocError> {
        Ok(text.to_uppercase())
    }
}

#[cfg(test)]
mod tests {
    use core::sync::atomic::Ordering::SeqCst;

    #[test]
    fn a_count_ends_at_the_greatest_number_of_owners() {
        for (before, after) in [(1, 2), (i64::MAX as u64 - 1, i64::MAX as u64), (i64::MAX as u64, i64::MAX as u64)] {
            let count = core::cell::UnsafeCell::new(before);
            // SAFETY: the word is there, and this thread's alone.
            let said = unsafe { super::atomic::raw::saturating_increment(count.get(), SeqCst) };
            assert_eq!((said, count.into_inner()), (before, after));
        }
    }

    #[test]
    fn memory_for_no_more_than_an_address_reaches_is_asked_for() {
        let most = isize::MAX as usize;
        assert!(super::room::may_hold::<()>(most) && !super::room::may_hold::<()>(most + 1));
        assert!(super::room::may_hold::<u64>(most / 8) && !super::room::may_hold::<u64>(most / 8 + 1));
        super::alloc::refuse(24, 8);
        assert_eq!(super::alloc::refused_last(), core::alloc::Layout::new::<[u64; 3]>());
    }

    /// A weaker order would show on no x86, so the text is compared: each step on a count has the order that its caller
    /// names, and each caller names `SeqCst`, as the proofs ask.
    #[test]
    fn steps_on_a_count_have_the_order_that_the_proofs_ask() {
        let (shim, proved) = (include_str!("shim.rs"), include_str!("proved/ecow_shared/shared.rs"));
        let raw = &shim[shim.find("pub mod raw {").unwrap()..shim.find("pub(crate) mod slots {").unwrap()];
        let calls = |text: &'static str, behind| -> Vec<&str> {
            let calls = text.split(behind).skip(1).filter(|call| call.starts_with(|c: char| c.is_ascii_lowercase()));
            calls.filter_map(|call| call.split_inclusive(')').next()).collect()
        };
        let steps =
            ["cast_mut()", "load(order)", "fetch_sub(count, order)", "fetch_add(1, order)", "fetch_sub(1, order)"];
        assert_eq!(calls(raw, "."), steps);
        let asked = ["load(word, SeqCst)", "saturating_increment(word, SeqCst)", "fetch_sub(word, 1, SeqCst)"];
        assert_eq!(calls(proved, "raw::"), asked);
    }
}
