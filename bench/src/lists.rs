//! The loops on lists, each written once for the original's vector and for `Rc<Vec<T>>`, which copies where it is shared.
use ecow::EcoVec;
use std::cmp::Ordering;
use std::hash::{DefaultHasher, Hash, Hasher};
use std::ops::Range;
use std::rc::Rc;

/// An element that is made of a number, and of which a number is seen.
pub trait Element: Clone + Ord + Hash {
    fn made(number: u64) -> Self;
    fn seen(&self) -> u64;
}

impl Element for u8 {
    fn made(number: u64) -> Self {
        (number % 256) as u8
    }

    fn seen(&self) -> u64 {
        u64::from(*self)
    }
}

impl Element for u64 {
    fn made(number: u64) -> Self {
        number
    }

    fn seen(&self) -> u64 {
        *self
    }
}

impl<const N: usize> Element for [u64; N] {
    fn made(number: u64) -> Self {
        [number; N]
    }

    fn seen(&self) -> u64 {
        self[0]
    }
}

impl Element for EcoVec<u64> {
    fn made(number: u64) -> Self {
        EcoVec::from([number].as_slice())
    }

    fn seen(&self) -> u64 {
        self.first().copied().unwrap_or(0)
    }
}

impl Element for Rc<Vec<u64>> {
    fn made(number: u64) -> Self {
        Rc::new(vec![number])
    }

    fn seen(&self) -> u64 {
        self.first().copied().unwrap_or(0)
    }
}

impl Element for String {
    fn made(number: u64) -> Self {
        (0..20).map(|place| char::from(b'a' + (number / (place + 1) % 26) as u8)).collect()
    }

    fn seen(&self) -> u64 {
        self.as_bytes().first().map_or(0, |byte| u64::from(*byte))
    }
}

/// A list whose clones share its elements until one of them is written to.
pub trait Shared<T>: Clone + Default {
    fn items(&self) -> &[T];
    fn items_mut(&mut self) -> &mut [T];
    fn push(&mut self, item: T);
}

impl<T: Clone> Shared<T> for EcoVec<T> {
    fn items(&self) -> &[T] {
        self
    }

    fn items_mut(&mut self) -> &mut [T] {
        self.make_mut()
    }

    fn push(&mut self, item: T) {
        self.push(item);
    }
}

impl<T: Clone> Shared<T> for Rc<Vec<T>> {
    fn items(&self) -> &[T] {
        self
    }

    fn items_mut(&mut self) -> &mut [T] {
        Rc::<Vec<T>>::make_mut(self)
    }

    fn push(&mut self, item: T) {
        Rc::<Vec<T>>::make_mut(self).push(item);
    }
}

/// Such a list with the calls that are timed.
trait List<T: Element>: Shared<T> + Ord + Hash {
    fn new() -> Self;
    fn of(items: &[T]) -> Self;
    fn pop(&mut self) -> Option<T>;
    fn insert(&mut self, index: usize, item: T);
    fn remove(&mut self, index: usize) -> T;
    fn clear(&mut self);
    fn extend(&mut self, items: &[T]);
    fn retain(&mut self, keeps: impl FnMut(&T) -> bool);
    fn splice(&mut self, range: Range<usize>, items: &[T]) -> u64;
    fn drain(&mut self, range: Range<usize>) -> u64;
    fn into_sum(self) -> u64;
}

fn added_up<T: Element>(items: impl Iterator<Item = T>) -> u64 {
    items.fold(0, |sum: u64, item| sum.wrapping_add(item.seen()))
}

impl<T: Element> List<T> for EcoVec<T> {
    fn new() -> Self {
        EcoVec::new()
    }

    fn of(items: &[T]) -> Self {
        EcoVec::from(items)
    }

    fn pop(&mut self) -> Option<T> {
        self.pop()
    }

    fn insert(&mut self, index: usize, item: T) {
        self.insert(index, item);
    }

    fn remove(&mut self, index: usize) -> T {
        self.remove(index)
    }

    fn clear(&mut self) {
        self.clear();
    }

    fn extend(&mut self, items: &[T]) {
        self.extend_from_slice(items);
    }

    fn retain(&mut self, mut keeps: impl FnMut(&T) -> bool) {
        self.retain(|item| keeps(item));
    }

    fn splice(&mut self, range: Range<usize>, items: &[T]) -> u64 {
        added_up(self.splice(range, items.iter().cloned()))
    }

    fn drain(&mut self, range: Range<usize>) -> u64 {
        added_up(self.drain(range))
    }

    fn into_sum(self) -> u64 {
        added_up(self.into_iter())
    }
}

impl<T: Element> List<T> for Rc<Vec<T>> {
    fn new() -> Self {
        Rc::default()
    }

    fn of(items: &[T]) -> Self {
        Rc::new(items.to_vec())
    }

    fn pop(&mut self) -> Option<T> {
        Rc::make_mut(self).pop()
    }

    fn insert(&mut self, index: usize, item: T) {
        Rc::make_mut(self).insert(index, item);
    }

    fn remove(&mut self, index: usize) -> T {
        Rc::make_mut(self).remove(index)
    }

    fn clear(&mut self) {
        Rc::make_mut(self).clear();
    }

    fn extend(&mut self, items: &[T]) {
        Rc::make_mut(self).extend_from_slice(items);
    }

    fn retain(&mut self, keeps: impl FnMut(&T) -> bool) {
        Rc::make_mut(self).retain(keeps);
    }

    fn splice(&mut self, range: Range<usize>, items: &[T]) -> u64 {
        added_up(Rc::make_mut(self).splice(range, items.iter().cloned()))
    }

    fn drain(&mut self, range: Range<usize>) -> u64 {
        added_up(Rc::make_mut(self).drain(range))
    }

    fn into_sum(self) -> u64 {
        added_up(Rc::unwrap_or_clone(self).into_iter())
    }
}

/// Adds up what each round saw.
fn rounds(count: u64, mut round: impl FnMut(u64) -> u64) -> u64 {
    (0..count).fold(0, |sum: u64, number| sum.wrapping_add(round(number)))
}

/// Adds up what each round saw of one list or of another that equals it, by turns.
fn turns<T: Element, L: List<T>>(items: &[T], count: u64, mut round: impl FnMut(&L, u64) -> u64) -> u64 {
    let (even, odd) = (L::of(items), L::of(items));
    rounds(count, |number| round(if number % 2 == 0 { &even } else { &odd }, number))
}

#[inline(never)]
fn cloned<L: Clone>(list: &L) -> L {
    list.clone()
}

#[inline(never)]
fn total<T: Element, L: List<T>>(list: &L) -> u64 {
    list.items().iter().fold(0, |sum: u64, item| sum.wrapping_add(item.seen()))
}

#[inline(never)]
fn same<L: Eq>(left: &L, right: &L) -> bool {
    left == right
}

#[inline(never)]
fn compared<L: Ord>(left: &L, right: &L) -> Ordering {
    left.cmp(right)
}

#[inline(never)]
fn hashed<L: Hash>(list: &L) -> u64 {
    let mut hasher = DefaultHasher::new();
    list.hash(&mut hasher);
    hasher.finish()
}

/// A clone, of which two elements were exchanged.
fn written<T: Element, L: List<T>>(list: &L) -> L {
    let mut copy = cloned(list);
    let slice = copy.items_mut();
    if slice.len() > 1 {
        slice.swap(0, 1);
    }
    copy
}

/// What a loop saw: see the calls of the same names in `ecow_bench`.
fn sum<T: Element, L: List<T>>(call: &str, items: &[T], count: u64) -> u64 {
    let mut list = L::of(items);
    let middle = items.len() / 2;
    let quarter = middle..middle + items.len() / 4;
    let third = &items[items.len() - items.len() / 3..];
    match call {
        "push" => rounds(count, |_| {
            let mut list = L::new();
            items.iter().for_each(|item| list.push(item.clone()));
            list.items().len() as u64
        }),
        "clone" => rounds(count, |_| cloned(&list).items().len() as u64),
        "clone_push" => rounds(count, |_| {
            let mut copy = cloned(&list);
            copy.push(items[0].clone());
            copy.items().len() as u64
        }),
        "pop" => rounds(count, |_| {
            let mut sum = 0u64;
            for _ in 0..items.len() {
                sum = sum.wrapping_add(list.pop().map_or(0, |item| item.seen()));
            }
            list.extend(items);
            sum
        }),
        "insert_remove" => rounds(count, |_| {
            let item = list.remove(middle);
            let seen = item.seen();
            list.insert(middle, item);
            seen
        }),
        "remove_first" => rounds(count, |_| {
            let item = list.remove(0);
            let seen = item.seen();
            list.push(item);
            seen
        }),
        "from_slice" => rounds(count, |_| L::of(items).items().len() as u64),
        "extend" => rounds(count, |_| {
            let mut list = L::new();
            list.extend(items);
            list.items().len() as u64
        }),
        "extend_pieces" => rounds(count, |_| {
            let mut list = L::new();
            items.chunks(8).for_each(|piece| list.extend(piece));
            list.items().len() as u64
        }),
        "extend_few" => {
            let mut list = L::new();
            rounds(count, |_| {
                if list.items().len() > 1000 {
                    list.clear();
                }
                list.extend(items);
                list.items().len() as u64
            })
        }
        "sort" => rounds(count, |_| {
            let mut copy = written(&list);
            copy.items_mut().sort_unstable();
            copy.items().last().map_or(0, Element::seen)
        }),
        "write" => rounds(count, |_| written(&list).items().first().map_or(0, Element::seen)),
        "retain" => rounds(count, |_| {
            let mut list = L::of(items);
            list.retain(|item| item.seen() % 2 == 1);
            list.items().len() as u64
        }),
        "splice" => rounds(count, |_| {
            let mut list = L::of(items);
            list.splice(quarter.clone(), third).wrapping_add(list.items().len() as u64)
        }),
        "drain" => rounds(count, |_| {
            let mut list = L::of(items);
            list.drain(quarter.clone()).wrapping_add(list.items().len() as u64)
        }),
        "iter" => turns::<T, L>(items, count, |list, _| total(list)),
        "into_iter" => rounds(count, |_| L::of(items).into_sum()),
        "eq" => turns::<T, L>(items, count, |other, round| if same(&list, other) { round } else { 0 }),
        "cmp" => turns::<T, L>(items, count, |other, round| if compared(&list, other).is_eq() { round } else { 0 }),
        "hash" => turns::<T, L>(items, count, |list, _| hashed(list)),
        _ => 0,
    }
}

/// What a loop saw, on the original's vector or on `Rc<Vec<T>>`.
fn sum_of<T: Element>(rc: bool, call: &str, numbers: &[u64], count: u64) -> u64 {
    let items: Vec<T> = numbers.iter().map(|number| T::made(*number)).collect();
    if rc { sum::<T, Rc<Vec<T>>>(call, &items, count) } else { sum::<T, EcoVec<T>>(call, &items, count) }
}

/// What a loop on a list of some element saw.
pub fn sum_of_lists(rc: bool, call: &str, element: &str, numbers: &[u64], count: u64) -> u64 {
    match element {
        "u8" => sum_of::<u8>(rc, call, numbers, count),
        "u64" => sum_of::<u64>(rc, call, numbers, count),
        "[u64;3]" => sum_of::<[u64; 3]>(rc, call, numbers, count),
        "[u64;8]" => sum_of::<[u64; 8]>(rc, call, numbers, count),
        "vector" if rc => sum_of::<Rc<Vec<u64>>>(rc, call, numbers, count),
        "vector" => sum_of::<EcoVec<u64>>(rc, call, numbers, count),
        "String" => sum_of::<String>(rc, call, numbers, count),
        _ => 0,
    }
}

const LENGTHS: &[usize] = &[8, 1000, 1_000_000];
const SHORT: &[usize] = &[8, 1000];
const FEW: &[usize] = &[1, 2, 4, 8];
const OTHERS: &[&str] = &["u8", "[u64;3]", "[u64;8]", "vector", "String"];
const COPIES: &[&str] = &["u8", "[u64;3]", "[u64;8]"];

/// What the calls are named on the command line and in the table, and the elements and lengths that they are timed at.
pub const CALLS: &[(&str, &str, &[&str], &[usize])] = &[
    ("push", "push each to a new one", &["u64"], LENGTHS),
    ("clone", "clone and drop", &["u64"], LENGTHS),
    ("clone_push", "clone, push, drop", &["u64"], LENGTHS),
    ("pop", "pop each, refill", &["u64"], LENGTHS),
    ("insert_remove", "remove, insert in the middle", &["u64"], LENGTHS),
    ("insert_remove", "remove, insert in the middle", OTHERS, SHORT),
    ("remove_first", "remove the first, push", &["u64"], LENGTHS),
    ("remove_first", "remove the first, push", OTHERS, SHORT),
    ("from_slice", "from slice", &["u64"], FEW),
    ("extend", "extend a new one by all", &["u64"], LENGTHS),
    ("extend_pieces", "extend a new one by eights", &["u64"], LENGTHS),
    ("extend_few", "extend one with room", &["u64"], FEW),
    ("sort", "clone, make_mut, sort", &["u64"], LENGTHS),
    ("write", "clone, make_mut, write", &["u64"], LENGTHS),
    ("write", "clone, make_mut, write", OTHERS, SHORT),
    ("retain", "from slice, retain the odd", &["u64"], LENGTHS),
    ("splice", "from slice, splice a quarter", &["u64"], LENGTHS),
    ("splice", "from slice, splice a quarter", COPIES, SHORT),
    ("drain", "from slice, drain a quarter", &["u64"], LENGTHS),
    ("drain", "from slice, drain a quarter", OTHERS, SHORT),
    ("iter", "iter", &["u64"], LENGTHS),
    ("into_iter", "from slice, into_iter", &["u64"], LENGTHS),
    ("eq", "equality", &["u64"], LENGTHS),
    ("eq", "equality", OTHERS, SHORT),
    ("cmp", "order", &["u64"], LENGTHS),
    ("hash", "hash", &["u64"], LENGTHS),
];
