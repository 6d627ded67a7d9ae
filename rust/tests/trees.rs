//! Lists in trees, beside `Vec`: edits at random places of lists whose versions are kept, what is shared and cloned, and
//! refused memory.

mod allocator;

use allocator::{HELD, REFUSED, REQUESTS};
use ecow::{EcoTree, EcoVec, Error, Rejected};
use std::cell::Cell;
use std::hash::{BuildHasher, BuildHasherDefault, DefaultHasher, Hash};
use std::panic::{AssertUnwindSafe, catch_unwind};

thread_local!(static CLONES: Cell<usize> = const { Cell::new(0) });

#[derive(Debug, PartialEq, Eq, PartialOrd, Ord, Hash)]
struct Item(Box<usize>);

impl Clone for Item {
    fn clone(&self) -> Self {
        CLONES.set(CLONES.get() + 1);
        Item(self.0.clone())
    }
}

fn item(number: usize) -> Item {
    Item(Box::new(number))
}

fn hash(value: impl Hash) -> u64 {
    BuildHasherDefault::<DefaultHasher>::default().hash_one(value)
}

fn same(list: &EcoTree<Item>, model: &Vec<Item>) {
    assert!(list.len() == model.len() && list.is_empty() == model.is_empty());
    assert!(list.iter().eq(model) && list.iter().len() == model.len());
    assert!(list.chunks().flatten().eq(model) && list.chunks().all(|chunk| (1..=128).contains(&chunk.len())));
    assert!(
        list.iter().rev().eq(model.iter().rev())
            && list.chunks().rev().flat_map(|chunk| chunk.iter().rev()).eq(model.iter().rev())
    );
    // From both ends in turn, in steps of other lengths.
    let (mut ours, mut theirs) = (list.iter(), model.iter());
    for step in (1..).map(|step| step % 37) {
        assert_eq!((ours.nth(step), ours.len()), (theirs.nth(step), theirs.len()));
        assert_eq!((ours.nth_back(step / 2), ours.size_hint()), (theirs.nth_back(step / 2), theirs.size_hint()));
        if theirs.len() == 0 {
            break;
        }
    }
    assert_eq!((ours.next(), ours.next_back(), ours.next()), (None, None, None));
    let (mut ours, mut left) = (list.chunks(), &model[..]);
    while let (Some(first), last) = (ours.next(), ours.next_back()) {
        assert!(left.starts_with(first) && left[first.len()..].ends_with(last.unwrap_or(&[])));
        left = &left[first.len()..left.len() - last.map_or(0, <[Item]>::len)];
    }
    assert!(left.is_empty() && ours.next_back().is_none());
    assert_eq!((list.first(), list.last(), list.get(model.len())), (model.first(), model.last(), None));
    assert!(list.height() == 0 || 4_usize.pow(list.height() as u32) <= 4 * model.len());
    assert_eq!((hash(list), format!("{list:?}")), (hash(model), format!("{model:?}")));
}

#[test]
fn edits_beside_a_vector() {
    let held = HELD.get();
    let mut random = 7_u64;
    let mut below = |most: usize| {
        random = random.wrapping_mul(6364136223846793005).wrapping_add(1442695040888963407);
        (random >> 33) as usize % most
    };
    for most in [3, 200, 3000] {
        let (mut list, mut model) = (EcoTree::new(), Vec::new());
        let mut versions = Vec::new();
        for edit in 0..3 * most + 50 {
            let grows = below(most) >= model.len() / 2;
            let at = below(model.len() + 1);
            match below(10) {
                0 if grows => (list.push(item(edit)), model.push(item(edit))),
                1 | 2 if grows => (list.insert(at, item(edit)), model.insert(at, item(edit))),
                3 if at < model.len() => (list.set(at, item(edit)), model[at] = item(edit)),
                4 => {
                    // The parts of both change places.
                    let (mut back, mut tail) = (list.split_off(at), model.split_off(at));
                    back.append(&mut list);
                    tail.append(&mut model);
                    assert!(list.is_empty());
                    ((list, model) = (back, tail), ())
                }
                5 if grows => {
                    let more: Vec<Item> = (0..below(300)).map(item).collect();
                    (list.extend_from_slice(&more), model.extend_from_slice(&more))
                }
                6 if at > model.len() / 2 => (list.truncate(at), model.truncate(at)),
                7 if grows => {
                    let other = &model[..at.min(300)];
                    (list.append(&mut EcoTree::from(other)), model.append(&mut other.to_vec()))
                }
                8 if at < model.len() => {
                    let was = list.try_update(at, |item| std::mem::replace(item.0.as_mut(), edit));
                    (assert_eq!(was, Ok(std::mem::replace(&mut *model[at].0, edit))), ())
                }
                9 => {
                    let (end, new) = (at.max(below(model.len() + 1)), below(if grows { 200 } else { 3 }));
                    let new: Vec<Item> = (0..new).map(item).collect();
                    (list.replace_range(at..end, &new), drop(model.splice(at..end, new)))
                }
                _ if at < model.len() => (assert_eq!(list.remove(at), model.remove(at)), ()),
                _ => (assert_eq!(list.pop(), model.pop()), ()),
            };
            assert_eq!(list.get(at), model.get(at));
            if edit % (most / 3 + 1) == 0 {
                versions.push((list.clone(), model.clone()));
                assert_eq!(list.pop(), model.pop());
                versions.push((list.clone(), model.clone()));
            }
        }
        same(&list, &model);
        for (list, model) in &versions {
            same(list, model);
            for (other, another) in &versions {
                let (equal, order) = (model == another, model.cmp(another));
                assert_eq!((list == other, *list == another[..], list.cmp(other)), (equal, equal, order));
                assert_eq!(list.partial_cmp(other), Some(order));
            }
        }
        same(&model.iter().cloned().collect(), &model);
        same(&EcoTree::from(&model[..]), &model);
        same(&EcoTree::from(EcoVec::from(&model[..])), &model);
    }
    assert_eq!(HELD.get(), held);
    // Equal lists in other blocks.
    let (mut list, other) = ((0..200).collect::<EcoTree<_>>(), (0..50).chain(150..200).collect());
    (0..100).for_each(|_| _ = list.remove(50));
    assert!(list == other && list.cmp(&other).is_eq() && list.height() > other.height());
}

/// A change of a list that shares its blocks asks for those on its way, and clones one block of elements. One that
/// shares nothing is changed in place.
#[test]
fn a_change_copies_its_way() {
    let mut list: EcoTree<Item> = (0..100_000).map(item).collect();
    let count = |change: &mut dyn FnMut()| {
        let before = (CLONES.get(), REQUESTS.get());
        change();
        (CLONES.get() - before.0, REQUESTS.get() - before.1)
    };
    let height = list.height();
    assert!((2..=4).contains(&height));
    let mut before = None;
    assert_eq!(count(&mut || before = Some(list.clone())), (0, 0));
    let before = before.unwrap();
    let new = item(1);
    let (clones, requests) = count(&mut || list.set(50_000, new.clone()));
    // `new`, and each clone, has a box.
    assert!((65..=129).contains(&clones) && requests - clones <= height + 2, "{clones} {requests}");
    assert_eq!((&list[50_000], &before[50_000], &before[99_999]), (&item(1), &item(50_000), &item(99_999)));
    assert!(std::ptr::eq(&list[0], &before[0]) && !std::ptr::eq(&list[50_001], &before[50_001]));
    let (number, other) = (item(2), item(3));
    assert_eq!(count(&mut || list.set(50_001, number.clone())), (1, 1));
    drop(before);
    assert_eq!(count(&mut || list.set(9, other.clone())), (1, 1));
    // Parts of a list keep its blocks, and so does a list that they are put into. 50,000 is inside a leaf.
    let (mut back, place) = (EcoTree::new(), std::ptr::from_ref(&list[99_999]));
    let (clones, requests) = count(&mut || back = list.split_off(50_000));
    assert!(clones == 0 && requests < 50 && std::ptr::eq(&back[49_999], place), "{requests}");
    let all = back.clone();
    let (clones, requests) = count(&mut || back.append(&mut list));
    assert!(clones == 0 && requests < 50 && std::ptr::eq(&back[49_999], place), "{requests}");
    assert!(list.is_empty() && back.len() == 100_000 && all.len() == 50_000 && back[50_000] == item(0));
    let (clones, requests) = count(&mut || back.truncate(1000));
    assert!((65..=128).contains(&clones) && requests - clones < 50, "{clones} {requests}");
}

#[test]
fn refused() {
    let all: EcoTree<u64> = (0..5000).collect();
    let mut list = all.clone();
    assert_eq!(list.try_set(5000, 1).unwrap_err(), Rejected { error: Error::Index, value: 1 });
    assert_eq!(list.try_insert(5001, 1).unwrap_err(), Rejected { error: Error::Index, value: 1 });
    assert_eq!(list.try_remove(5000), Err(Error::Index));
    assert_eq!(list.try_split_off(5001), Err(Error::Index));
    assert_eq!(list.try_update(5000, |_| unreachable!()), Err(Error::Index));
    assert_eq!(list.try_replace_range(4999..=5000, &[]), Err(Error::Index));
    assert!(catch_unwind(AssertUnwindSafe(|| list.replace_range(5001.., &[]))).is_err());
    assert!(catch_unwind(AssertUnwindSafe(|| list.split_off(5001))).is_err());
    assert!(catch_unwind(AssertUnwindSafe(|| list.set(5000, 1))).is_err());
    assert!(catch_unwind(AssertUnwindSafe(|| list.insert(5001, 1))).is_err());
    assert!(catch_unwind(AssertUnwindSafe(|| list.remove(5000))).is_err());
    let two = EcoTree::from([1, 2]);
    assert!(list == all && two == [1, 2] && two != [1] && two != [1, 3]);
    let held = HELD.get();
    let calls: [fn(&mut EcoTree<u64>) -> bool; 13] = [
        |list| list.try_set(2500, 7).is_err_and(|back| (back.value, back.error) == (7, Error::Memory)),
        |list| list.try_insert(2500, 7).is_err_and(|back| (back.value, back.error) == (7, Error::Memory)),
        |list| list.try_push(7).is_err_and(|back| (back.value, back.error) == (7, Error::Memory)),
        |list| list.try_remove(2500) == Err(Error::Memory),
        |list| list.try_pop() == Err(Error::Memory),
        |list| list.try_split_off(2500) == Err(Error::Memory),
        |list| list.try_truncate(2500) == Err(Error::Memory),
        |list| list.try_extend_from_slice(&[7; 300]) == Err(Error::Memory),
        |list| list.try_update(2500, |number| *number = 7) == Err(Error::Memory),
        |list| list.try_replace_range(2500..2600, &[7; 300]) == Err(Error::Memory),
        |list| list.try_replace_range(..4999, &[]) == Err(Error::Memory),
        |list| {
            let mut other = list.clone();
            let is_refused = list.try_append(&mut other) == Err(Error::Memory);
            assert_eq!(other.len(), if is_refused { 5000 } else { 0 });
            is_refused
        },
        |list| {
            let Some(chunk) = list.chunks().next() else { return false };
            EcoTree::try_from_slice(chunk) == Err(Error::Memory)
        },
    ];
    for call in calls {
        for request in 1.. {
            let mut list = all.clone();
            REFUSED.set(request);
            let is_refused = call(&mut list);
            if REFUSED.take() > 0 {
                break;
            }
            assert!(!is_refused || list == all, "{request}");
        }
    }
    assert_eq!(HELD.get(), held);
}
