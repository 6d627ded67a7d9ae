//! Vectors: what a call asks of its caller, and what no random edit shows.

use ecow::{EcoVec, Error, Rejected, eco_vec};
use std::ops::Bound::{self, Excluded, Included, Unbounded};
use std::panic::{AssertUnwindSafe, catch_unwind};

fn panics<R>(call: impl FnOnce() -> R) -> bool {
    catch_unwind(AssertUnwindSafe(call)).is_err()
}

/// Sole, shared, and shared with another block's room.
fn states(len: usize) -> [(EcoVec<usize>, Option<EcoVec<usize>>); 3] {
    let sole: EcoVec<usize> = (0..len).collect();
    let mut roomy = EcoVec::with_capacity(len + 9);
    roomy.extend(0..len);
    let (first, second) = (sole.clone().into_iter().collect::<EcoVec<_>>(), roomy.clone());
    let shared = first.clone();
    [(sole, None), (first, Some(shared)), (roomy, Some(second))]
}

#[test]
fn indices_are_tested() {
    for len in [0, 1, 5, 1025usize] {
        for at in [0, 1, len.saturating_sub(1), len, len + 1, usize::MAX] {
            for (mut vec, shared) in states(len) {
                let (inside, below) = (at <= len, at < len);
                let before = vec.clone();
                assert_eq!(panics(|| vec.clone().insert(at, 7)), !inside);
                assert_eq!(panics(|| vec.clone().remove(at)), !below);
                assert_eq!(panics(|| vec.clone().set(at, 7)), !below);
                let rejected = Err(Rejected { error: Error::Index, value: 7 });
                assert_eq!(vec.clone().try_insert(at, 7), if inside { Ok(()) } else { rejected });
                assert_eq!(vec.clone().try_set(at, 7), if below { Ok(()) } else { rejected });
                assert_eq!(vec.try_remove(at).ok(), below.then_some(at));
                assert_eq!(vec.try_update(at, |item| *item += 1).is_ok(), at < vec.len());
                vec = before.clone();
                assert_eq!(vec.try_insert_slice(at, &[8, 9]).err(), (!inside).then_some(Error::Index));
                assert_eq!(before.len(), len);
                assert!(shared.is_none_or(|shared| shared == before));
            }
        }
    }
}

#[test]
fn ranges_are_tested() {
    let bounds = |at: usize| [Included(at), Excluded(at), Unbounded];
    for len in [0, 3] {
        for (start, end) in (0..6).flat_map(|a| (0..6).map(move |b| (a, b))).chain([(usize::MAX, 0), (0, usize::MAX)]) {
            for range in bounds(start).into_iter().flat_map(|a| bounds(end).map(|b| (a, b))) {
                // As std's `Vec` has it, on which a panic shows.
                let all: Vec<usize> = (0..len).collect();
                let part = catch_unwind(|| all.clone().drain(range).collect::<Vec<_>>()).ok();
                let error = part.is_none().then_some(Error::Index);
                for (mut vec, shared) in states(len) {
                    assert_eq!(vec.clone().try_drain(range).err().map(|_| Error::Index), error);
                    assert_eq!(vec.clone().try_splice(range, [1]).map(drop).err(), error);
                    assert_eq!(vec.clone().try_extend_from_within(range).err(), error);
                    assert_eq!(vec.clone().try_replace_range(range, &[1]).err(), error);
                    assert_eq!(panics(|| vec.clone().splice(range, [1]).count()), error.is_some());
                    let drained = catch_unwind(AssertUnwindSafe(|| vec.drain(range).collect::<Vec<_>>())).ok();
                    assert_eq!(drained, part);
                    assert!(shared.is_none_or(|shared| shared == all));
                }
            }
        }
    }
}

/// A range that tells other bounds each time is asked once.
#[test]
fn a_range_is_asked_once() {
    struct Changing(std::cell::Cell<usize>);
    impl std::ops::RangeBounds<usize> for Changing {
        fn start_bound(&self) -> Bound<&usize> {
            Unbounded
        }
        fn end_bound(&self) -> Bound<&usize> {
            self.0.set(self.0.get() + 1);
            if self.0.get() == 1 { Excluded(&2) } else { Unbounded }
        }
    }
    let changing = || Changing(Default::default());
    let vec = eco_vec![1, 2, 3];
    assert_eq!(vec.clone().drain(changing()).collect::<Vec<_>>(), [1, 2]);
    assert_eq!(vec.clone().splice(changing(), []).collect::<Vec<_>>(), [1, 2]);
    let mut longer = vec.clone();
    assert_eq!(longer.try_extend_from_within(changing()), Ok(()));
    assert_eq!(longer, [1, 2, 3, 1, 2]);
    assert_eq!(longer.try_replace_range(changing(), &[9]), Ok(()));
    assert_eq!(longer, [9, 3, 1, 2]);
}

#[test]
fn too_much_is_refused() {
    assert!(panics(|| EcoVec::<u8>::with_capacity(usize::MAX)));
    assert!(panics(|| EcoVec::<u64>::with_capacity(1 << 62)));
    assert_eq!(EcoVec::<u64>::try_with_capacity(1 << 62).err(), Some(Error::Capacity));
    assert_eq!(EcoVec::<u64>::try_with_capacity(1 << 59).err(), Some(Error::Memory));
    assert_eq!(EcoVec::try_from_elem(4, 1 << 62), Err(Rejected { error: Error::Capacity, value: 4 }));
    let mut vec = eco_vec![1, 2];
    assert_eq!([usize::MAX, 1 << 61].map(|more| vec.try_reserve(more)), [Err(Error::Capacity); 2]);
    assert!(panics(|| vec.reserve(usize::MAX)));
    assert_eq!(vec, [1, 2]);
    let mut all = EcoVec::<()>::with_capacity(isize::MAX as usize);
    all.push(());
    assert_eq!(all.try_reserve(isize::MAX as usize - 1), Ok(()));
    assert_eq!(all.try_reserve(isize::MAX as usize), Err(Error::Capacity));
}

#[test]
fn arrays_and_iterators() {
    assert_eq!(<[i32; 2]>::try_from(eco_vec![1, 2]), Ok([1, 2]));
    assert_eq!(<[i32; 3]>::try_from(eco_vec![1, 2]), Err(eco_vec![1, 2]));
    assert_eq!(<[i32; 1]>::try_from(eco_vec![1, 2]), Err(eco_vec![1, 2]));
    let mut left = eco_vec![String::from("a"), String::new()].into_iter();
    assert_eq!((format!("{left:?}").as_str(), left.next().as_deref()), (r#"IntoIter(["a", ""])"#, Some("a")));
    let mut vec: EcoVec<i32> = (0..5).collect();
    assert_eq!(
        (vec.clone().drain(1..3).as_slice(), vec.drain(1..3).rev().collect::<Vec<_>>()),
        (&[1, 2][..], vec![2, 1])
    );
    assert_eq!(vec.splice(..1, [7, 8].into_iter()).len(), 1);
    assert_eq!(vec, [7, 8, 3, 4]);
    assert!(vec.is_unique());
    let clone = vec.clone();
    assert!(!vec.is_unique() && clone.as_ptr() == vec.as_ptr());
    const EMPTY: EcoVec<String> = EcoVec::new();
    assert!(EMPTY.is_empty() && EcoVec::<String>::with_capacity(9).is_empty());
}
