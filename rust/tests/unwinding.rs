//! Clones, drops, comparisons, closures and iterators that unwind, at each point: nothing is dropped twice, nothing read
//! that was given up, and nothing leaks.

mod allocator;

use allocator::HELD;
use ecow::{EcoTree, EcoVec, eco_format};
use std::cell::{Cell, RefCell};
use std::collections::HashSet;
use std::panic::{AssertUnwindSafe, catch_unwind, set_hook};
use std::thread::LocalKey;

thread_local! {
    static LIVE: RefCell<HashSet<u64>> = RefCell::default();
    static NEXT: Cell<u64> = const { Cell::new(0) };
    static TWICE: Cell<bool> = const { Cell::new(false) };
    /// After how many of them one unwinds; 0: none does.
    static CLONES: Cell<usize> = const { Cell::new(0) };
    static DROPS: Cell<usize> = const { Cell::new(0) };
    static CALLS: Cell<usize> = const { Cell::new(0) };
}

#[derive(Debug)]
struct Item(u64, Box<u64>);

impl Item {
    fn new() -> Self {
        let id = NEXT.replace(NEXT.get() + 1);
        LIVE.with_borrow_mut(|live| live.insert(id));
        Item(id, Box::new(id))
    }
}

fn unwinds(left: &'static LocalKey<Cell<usize>>) {
    if left.get() > 0 {
        left.set(left.get() - 1);
        assert!(left.get() > 0);
    }
}

impl Clone for Item {
    fn clone(&self) -> Self {
        assert_eq!(self.0, *self.1);
        unwinds(&CLONES);
        Item::new()
    }
}

impl PartialEq for Item {
    fn eq(&self, other: &Self) -> bool {
        unwinds(&CALLS);
        *self.1 / 1000 == *other.1 / 1000
    }
}

impl Drop for Item {
    fn drop(&mut self) {
        if !LIVE.with_borrow_mut(|live| live.remove(&self.0)) {
            TWICE.set(true);
        }
        if !std::thread::panicking() {
            unwinds(&DROPS);
        }
    }
}

fn items(count: usize) -> impl Iterator<Item = Item> {
    (0..count).map(|_| {
        unwinds(&CALLS);
        Item::new()
    })
}

type Call = (&'static str, fn(&mut EcoVec<Item>));

const EACH: &[Call] = &[
    ("truncate", |vec| vec.truncate(5)),
    ("clear", |vec| vec.clear()),
    ("retain", |vec| {
        vec.retain(|item| {
            unwinds(&CALLS);
            item.0 % 3 != 0
        })
    }),
    ("drain", |vec| drop(vec.drain(3..9))),
    ("drain, one taken", |vec| drop(vec.drain(3..9).next())),
    ("splice", |vec| drop(vec.splice(3..9, items(12)))),
    ("splice, fewer", |vec| drop(vec.splice(3..9, items(2)))),
    ("extend", |vec| vec.extend(items(30))),
    ("try_extend", |vec| vec.try_extend(items(30)).unwrap()),
    ("collect", |vec| *vec = items(20).collect()),
    ("extend_from_slice", |vec| vec.extend_from_slice(&items(7).collect::<Vec<_>>())),
    ("extend_from_slice of many", |vec| vec.extend_from_slice(&items(300).collect::<Vec<_>>())),
    ("from a slice", |vec| *vec = EcoVec::from(&items(7).collect::<Vec<_>>()[..])),
    ("push", |vec| vec.push(Item::new())),
    ("insert", |vec| vec.insert(3, Item::new())),
    ("set", |vec| vec.set(3, Item::new())),
    ("update", |vec| {
        vec.try_update(3, |item| {
            unwinds(&CALLS);
            *item = Item::new();
        })
        .unwrap()
    }),
    ("remove", |vec| drop(vec.remove(3))),
    ("pop", |vec| drop(vec.pop())),
    ("make_mut", |vec| vec.make_mut()[2] = Item::new()),
    ("reserve", |vec| vec.reserve(100)),
    ("drop", |vec| *vec = EcoVec::new()),
    ("into_iter", |vec| std::mem::take(vec).into_iter().skip(3).for_each(drop)),
    ("into_iter, from the back", |vec| drop(std::mem::take(vec).into_iter().nth_back(3))),
    ("into_vec", |vec| drop(std::mem::take(vec).try_into_vec())),
    ("into an array", |vec| drop(<[Item; 20]>::try_from(std::mem::take(vec)))),
    ("from_elem", |vec| *vec = EcoVec::from_elem(Item::new(), 30)),
    ("equality", |vec| assert!(*vec != items(20).collect::<EcoVec<_>>() || vec.len() == 20)),
    ("printing", |vec| assert!(eco_format!("{vec:?}{:?}", vec.clone()).len() > 20)),
];

/// Makes each call with each point of unwinding, then reads and drops all that is left.
fn each(point: &'static LocalKey<Cell<usize>>) {
    set_hook(Box::new(|_| {}));
    drop(items(1000).collect::<Vec<_>>());
    let mut unwound = 0;
    for &(name, call) in EACH {
        for (shared, which) in [false, true].into_iter().flat_map(|shared| (1..70).map(move |which| (shared, which))) {
            let held = HELD.get();
            let mut vec: EcoVec<Item> = items(20).collect();
            let other = shared.then(|| vec.clone());
            point.set(which);
            let unwinds = catch_unwind(AssertUnwindSafe(|| call(&mut vec))).is_err();
            unwound += unwinds as usize;
            point.set(0);
            let keeps_all = name == "retain" && unwinds && !std::ptr::eq(point, &DROPS);
            assert!(!keeps_all || vec.len() == 20, "{name} at {which}");
            for item in vec.iter().chain(other.iter().flat_map(|other| other.iter())) {
                assert!(item.0 == *item.1 && LIVE.with_borrow(|live| live.contains(&item.0)), "{name} at {which}");
            }
            assert!(other.as_ref().is_none_or(|other| other.len() == 20));
            vec.push(Item::new());
            drop((vec, other));
            assert!(!TWICE.get(), "{name} at {which}: dropped twice");
            // Where the drop of an argument unwinds, rustc forgets what the call would have returned.
            let leaked = (LIVE.with_borrow_mut(|live| live.drain().count()), HELD.get() - held);
            assert!(leaked == (0, 0) || name == "from_elem" && which == 1, "{name} at {which}: {leaked:?} leak");
        }
    }
    assert!(unwound > 100, "{unwound}");
}

type TreeCall = (&'static str, fn(&mut EcoTree<Item>));

const EACH_OF_TREES: &[TreeCall] = &[
    ("push", |list| list.push(Item::new())),
    ("insert", |list| list.insert(3, Item::new())),
    ("insert, behind", |list| list.insert(100, Item::new())),
    ("set", |list| list.set(3, Item::new())),
    ("update", |list| {
        list.try_update(3, |item| {
            unwinds(&CALLS);
            *item = Item::new();
        })
        .unwrap()
    }),
    ("remove", |list| drop(list.remove(3))),
    ("remove, of a leaf of one", |list| drop(list.remove(299))),
    ("pop", |list| drop(list.pop())),
    ("split_off", |list| drop(list.split_off(5))),
    ("truncate", |list| list.truncate(133)),
    ("clear", |list| list.clear()),
    ("append", |list| list.append(&mut items(9).collect())),
    ("extend", |list| list.extend(items(150))),
    ("extend_from_slice", |list| list.extend_from_slice(&items(7).collect::<Vec<_>>())),
    ("extend_from_slice of many", |list| list.extend_from_slice(&items(300).collect::<Vec<_>>())),
    ("replace_range", |list| list.replace_range(3..9, &items(4).collect::<Vec<_>>())),
    ("from a slice", |list| *list = EcoTree::from(&items(200).collect::<Vec<_>>()[..])),
    ("from a vector", |list| *list = EcoTree::from(items(20).collect::<EcoVec<_>>())),
    ("collect", |list| *list = items(200).collect()),
    ("drop", |list| *list = EcoTree::new()),
    ("equality", |list| assert!(*list != items(300).collect::<EcoTree<_>>() || list.len() == 300)),
    ("printing", |list| assert!(eco_format!("{list:?}{:?}", list.clone()).len() > 20)),
];

/// The same of lists in trees, of 299 elements and one in a leaf of its own.
fn each_of_trees(point: &'static LocalKey<Cell<usize>>) {
    set_hook(Box::new(|_| {}));
    let mut unwound = 0;
    for &(name, call) in EACH_OF_TREES {
        let points = (1..8).chain([65, 127, 128, 129, 170, 300]);
        for (shared, which) in
            [false, true].into_iter().flat_map(|shared| points.clone().map(move |which| (shared, which)))
        {
            let held = HELD.get();
            let mut list: EcoTree<Item> = items(299).collect();
            list.append(&mut items(1).collect());
            let other = shared.then(|| list.clone());
            point.set(which);
            let unwinds = catch_unwind(AssertUnwindSafe(|| call(&mut list))).is_err();
            unwound += unwinds as usize;
            point.set(0);
            let grows = ["extend", "append"].iter().any(|call| name.starts_with(call));
            let keeps_all = unwinds && std::ptr::eq(point, &CLONES) && !grows;
            assert!(!keeps_all || list.len() == 300, "{name} at {which}");
            assert!(other.as_ref().is_none_or(|other| other.len() == 300));
            for list in [Some(&list), other.as_ref()].into_iter().flatten() {
                assert_eq!(list.iter().count(), list.len(), "{name} at {which}");
                for (at, item) in list.iter().enumerate() {
                    assert!(item.0 == *item.1 && LIVE.with_borrow(|live| live.contains(&item.0)), "{name} at {which}");
                    assert!(std::ptr::eq(item, &list[at]), "{name} at {which}");
                }
            }
            list.push(Item::new());
            drop((list, other));
            assert!(!TWICE.get(), "{name} at {which}: dropped twice");
            let leaked = (LIVE.with_borrow_mut(|live| live.drain().count()), HELD.get() - held);
            // As above: the vector is such an argument.
            assert!(leaked == (0, 0) || name == "from a vector" && which <= 20, "{name} at {which}: {leaked:?} leak");
        }
    }
    assert!(unwound > 100, "{unwound}");
}

#[test]
fn clones_that_unwind() {
    each(&CLONES);
    each_of_trees(&CLONES);
}

#[test]
fn drops_that_unwind() {
    each(&DROPS);
    each_of_trees(&DROPS);
}

#[test]
fn closures_iterators_and_comparisons_that_unwind() {
    each(&CALLS);
    each_of_trees(&CALLS);
}
