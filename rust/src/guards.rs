//! What the proofs take from Rattle and rustc doesn't promise. Where one doesn't hold, the crate doesn't compile.

use crate::proved::ecow_block::Block;
use crate::proved::ecow_block::room::{Deed, Head, Room, Title, Top};
use crate::proved::ecow_bytes::SmallBytes;
use crate::proved::ecow_list::EcoVec;
use crate::proved::ecow_shared::Shared;
use crate::shim::alloc::Global;
use crate::vec::{Drain, Splice};
use core::cell::Cell;
use core::mem::{needs_drop, offset_of};
use core::panic::UnwindSafe;

// Lengths are numbers of 64 bits, and a count, an atomic one and a length lie in memory alike.
const _: () = assert!(size_of::<usize>() == 8 && align_of::<usize>() == align_of::<u64>());
const _: () = assert!(align_of::<core::sync::atomic::AtomicU64>() == align_of::<u64>());

/// A head is 32 bytes, in which the count stands first. An owner lies in memory as a block: a word, and rights that take
/// no space.
macro_rules! laid_out {
    ($($type:ty)*) => { $(const _: () = {
        assert!(size_of::<Head<$type>>() == 32 && align_of::<Head<$type>>() == 8);
        assert!(offset_of!(Head<$type>, count) == 0);
        assert!(size_of::<Room<$type>>() == 0 && align_of::<Room<$type>>() == 1);
        assert!(size_of::<Title<$type, Global>>() == 0 && size_of::<Deed<$type, Global>>() == 0);
        assert!(size_of::<Block<$type>>() == 8 && size_of::<Shared<$type>>() == 8);
        assert!(align_of::<Block<$type>>() == 8 && align_of::<Shared<$type>>() == 8);
        assert!(offset_of!(Block<$type>, top) == 0 && size_of::<Top<$type>>() == 8);
        assert!(size_of::<EcoVec<$type>>() == 8);
    };)* };
}
laid_out! { () u8 u16 u64 u128 [u8; 65] (u8, u64) Aligned &'static str SmallBytes<15> }

#[repr(align(4096))]
struct Aligned;

// Sizes that the crate's pages tell.
const _: () = assert!(size_of::<SmallBytes<15>>() == 16 && size_of::<Option<SmallBytes<15>>>() == 16);
const _: () = assert!(size_of::<crate::Value>() == 24 && size_of::<crate::EcoString>() == 16);

/// What goes without being dropped has no drop, and what has one is known to have it.
const _: () = {
    assert!(!needs_drop::<Top<EcoVec<u8>>>() && !needs_drop::<Room<EcoVec<u8>>>());
    assert!(!needs_drop::<Title<EcoVec<u8>, Global>>() && !needs_drop::<Deed<EcoVec<u8>, Global>>());
    assert!(needs_drop::<Block<u8>>() && needs_drop::<Shared<u8>>() && needs_drop::<SmallBytes<15>>());
};

/// A vector of elements that live longer serves where one of shorter lived ones is asked for, as std's.
fn _covariant<'a>(vec: crate::EcoVec<&'static str>) -> crate::EcoVec<&'a str> {
    vec
}

/// A drain serves where shorter lived elements are asked for, and for a shorter time, as the original's.
fn _covariant_drain<'a, 'b>(drain: Drain<'static, &'static str>) -> Drain<'b, &'a str> {
    drain
}

/// What is taken out has one owner, so it may be sent where its elements may be, as the original's.
const _: () = {
    const fn sent<T: Send>() {}
    const fn shared<T: Sync + UnwindSafe>() {}
    sent::<Drain<'static, Cell<u8>>>();
    sent::<Splice<'static, core::array::IntoIter<Cell<u8>, 1>>>();
    shared::<Drain<'static, u8>>();
    shared::<Splice<'static, core::array::IntoIter<u8, 1>>>();
};

/// What the compiler has to refuse. Elements outlive their vector, and so its drop:
///
/// ```compile_fail,E0597
/// let mut vec = ecow::EcoVec::new();
/// let text = String::new();
/// vec.push(text.as_str());
/// ```
///
/// A vector is in two threads where its elements may be:
///
/// ```compile_fail,E0277
/// fn sent<T: Send>(_: T) {}
/// sent(ecow::EcoVec::<std::rc::Rc<u8>>::new());
/// ```
///
/// ```compile_fail,E0277
/// fn sent<T: Send>(_: T) {}
/// sent(ecow::EcoVec::<std::cell::Cell<u8>>::new());
/// ```
///
/// ```compile_fail,E0277
/// fn sent<T: Send>() {}
/// sent::<ecow::vec::Drain<std::rc::Rc<u8>>>();
/// ```
///
/// ```compile_fail,E0277
/// fn shared<T: Sync>() {}
/// shared::<ecow::vec::Drain<std::cell::Cell<u8>>>();
/// ```
///
/// What a drain has taken out borrows the vector, as the original's:
///
/// ```compile_fail,E0502
/// let mut vec = ecow::eco_vec![1, 2, 3];
/// let drained = vec.drain(..);
/// assert_eq!(vec.len(), 0);
/// drop(drained);
/// ```
///
/// Proved modules are private:
///
/// ```compile_fail,E0603
/// ecow::proved::ecow_block::Block::<u8>::new(todo!());
/// ```
fn _refused() {}
