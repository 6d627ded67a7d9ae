//! Each public call, on values in each state, beside std's of that name: what it answers and leaves, how often it
//! clones and drops an element, how often it asks for memory, whether it leaves shared memory, and the capacity. The
//! numbers follow from the rules in `docs/COSTS.md`. A public call without a row fails, and so does one that is refused
//! memory and doesn't abort.

mod allocator;

use allocator::{FIRST, HELD, REFUSED, REQUESTS};
use ecow::string::ToEcoString;
use ecow::value::Step;
use ecow::{EcoBytes, EcoString, EcoTree, EcoVec, Error, Rejected, Value, eco_vec};
use std::cell::{Cell, RefCell};
use std::collections::{BTreeMap, BTreeSet};
use std::fmt::{Debug, Write};
use std::io::Write as _;
use std::mem::take;
use std::ops::Deref;
use std::os::unix::process::ExitStatusExt;
use std::panic::{AssertUnwindSafe, catch_unwind};

thread_local! {
    static CLONES: Cell<usize> = const { Cell::new(0) };
    static DROPS: Cell<usize> = const { Cell::new(0) };
    static LIVE: Cell<isize> = const { Cell::new(0) };
    /// Which request of the next call is refused.
    static REFUSED_NEXT: Cell<usize> = const { Cell::new(0) };
    /// The rows, by call and number, and how many bytes each asks for first.
    static ROWS: RefCell<BTreeMap<String, usize>> = const { RefCell::new(BTreeMap::new()) };
}

/// An element that counts its clones and drops.
#[derive(Debug, PartialEq)]
struct Item(u64);

fn item(number: u64) -> Item {
    LIVE.set(LIVE.get() + 1);
    Item(number)
}

impl Clone for Item {
    fn clone(&self) -> Self {
        CLONES.set(CLONES.get() + 1);
        item(self.0)
    }
}

impl Drop for Item {
    fn drop(&mut self) {
        DROPS.set(DROPS.get() + 1);
        LIVE.set(LIVE.get() - 1);
    }
}

/// Never dropped.
static PAIR: [Item; 2] = [Item(8), Item(9)];

/// What a call answers, with its clones, drops and requests, and how many bytes it asks for first.
fn counted<R>(call: impl FnOnce() -> R) -> (R, [usize; 4]) {
    let before = [CLONES.get(), DROPS.get(), REQUESTS.get(), 0];
    REFUSED.set(REFUSED_NEXT.take());
    FIRST.set(0);
    let answer = call();
    let after = [CLONES.get(), DROPS.get(), REQUESTS.get(), FIRST.get()];
    (answer, std::array::from_fn(|at| after[at] - before[at]))
}

/// What a call answers, printed, with the same numbers.
fn printed<R: Debug>(call: impl FnOnce() -> R) -> (String, [usize; 4]) {
    let (answer, counts) = counted(call);
    (format!("{answer:?}"), counts)
}

/// Begins a row. A process that is asked for a row leaves out the others, and refuses the first request of that one.
fn begin(call: &str) -> Option<String> {
    let row = format!("{call} {}", ROWS.with_borrow(BTreeMap::len));
    let refused = std::env::var("REFUSED_ROW").ok().map(|refused| refused == row);
    REFUSED_NEXT.set((refused == Some(true)).into());
    ROWS.with_borrow_mut(|rows| rows.insert(row.clone(), 0));
    (refused != Some(false)).then_some(row)
}

/// Notes how many bytes the row's call asked for first.
fn note(row: &str, counts: [usize; 4]) {
    ROWS.with_borrow_mut(|rows| *rows.get_mut(row).unwrap() = counts[3]);
}

/// A type beside std's: the values of its rows have so many elements, that capacity, and perhaps a clone.
trait Subject: Clone + Debug + PartialEq<<Self::Std as Deref>::Target> {
    type Std: Debug + Deref;
    const NAME: &'static str;
    const STATES: &'static [(u64, usize, bool)];
    fn made(len: u64, capacity: usize) -> Self;
    fn std(len: u64) -> Self::Std;
    fn seen(&self) -> (usize, *const u8);
}

/// No block; full; with spare capacity; these two shared.
const VECTOR: &[(u64, usize, bool)] = &[(0, 0, false), (4, 4, false), (4, 8, false), (4, 4, true), (4, 8, true)];
/// Full, and with spare capacity, with the places in an allocation of their own, which grows in place.
const LARGE: &[(u64, usize, bool)] = &[(2000, 2000, false), (1500, 2000, false)];
/// Empty; inline; inline and full; spilled and full; with spare capacity; these two shared.
#[rustfmt::skip]
const TEXT: &[(u64, usize, bool)] = &[
    (0, 15, false), (5, 15, false), (15, 15, false), (20, 20, false), (20, 32, false), (20, 20, true), (20, 32, true),
];

macro_rules! subjects {
    ($($type:ty, $name:literal, $std:ty, $states:ident, $element:expr;)*) => { $(
        impl Subject for $type {
            type Std = $std;
            const NAME: &'static str = $name;
            const STATES: &'static [(u64, usize, bool)] = $states;

            fn made(len: u64, capacity: usize) -> Self {
                let mut made = Self::with_capacity(capacity);
                made.extend((0..len).map($element));
                made
            }

            fn std(len: u64) -> $std {
                (0..len).map($element).collect()
            }

            fn seen(&self) -> (usize, *const u8) {
                (self.capacity(), self.as_ptr().cast())
            }
        }
    )* };
}
subjects! {
    EcoVec<Item>, "EcoVec", Vec<Item>, VECTOR, item;
    EcoVec<u8>, "EcoVec", Vec<u8>, VECTOR, |n| n as u8;
    EcoVec<u16>, "EcoVec", Vec<u16>, LARGE, |n| n as u16;
    EcoBytes, "SmallBytes", Vec<u8>, TEXT, |n| b'0' + n as u8 % 10;
    EcoString, "SmallText", String, TEXT, |n| char::from(b'0' + n as u8 % 10);
}

/// What a tree has for a capacity is its height, and it counts as shared where its first block is. No element; one block
/// that is short, shared, or full; two levels, the second shared; three.
impl Subject for EcoTree<Item> {
    type Std = Vec<Item>;
    const NAME: &'static str = "EcoTree";
    #[rustfmt::skip]
    const STATES: &'static [(u64, usize, bool)] = &[
        (0, 0, false), (4, 0, false), (4, 0, true), (128, 0, false), (300, 1, false), (300, 1, true), (2100, 2, true),
    ];

    fn made(len: u64, _height: usize) -> Self {
        (0..len).map(item).collect()
    }

    fn std(len: u64) -> Vec<Item> {
        (0..len).map(item).collect()
    }

    fn seen(&self) -> (usize, *const u8) {
        (self.height(), self.first().map_or(std::ptr::null(), |item| std::ptr::from_ref(item).cast()))
    }
}

/// A row: a call, std's, and what the call costs in each state. `-` is nothing, and `.` leaves the state out. Otherwise
/// the numbers are the clones and the drops, which bytes don't have, the requests, and the capacity. `=` says that the
/// value stays shared.
fn row<X: Subject>(
    name: &str,
    call: &dyn Fn(&mut X) -> (String, [usize; 4]),
    std: &dyn Fn(&mut X::Std) -> String,
    costs: &str,
) {
    let name = format!("{}::{name}", X::NAME);
    assert_eq!(costs.split_whitespace().count(), X::STATES.len(), "{name}");
    for (&(len, capacity, shared), cost) in X::STATES.iter().zip(costs.split_whitespace()).filter(|row| row.1 != ".") {
        let what = format!("{name} of {len} in {capacity}, shared: {shared}");
        let numbers: Vec<usize> = cost.split(['/', '-', '=']).filter_map(|number| number.parse().ok()).collect();
        let (did, stays) = match numbers[..] {
            [] => ([0, 0, 0, capacity], shared),
            [requests, capacity] => ([0, 0, requests, capacity], cost.ends_with('=')),
            [clones, drops, requests, capacity] => ([clones, drops, requests, capacity], cost.ends_with('=')),
            _ => panic!("{what}: {cost}"),
        };
        let Some(row) = begin(&name) else { continue };
        let (held, live) = (HELD.get(), LIVE.get());
        {
            let (mut ours, mut theirs) = (X::made(len, capacity), X::std(len));
            assert_eq!(ours.seen().0, capacity, "{what}: before");
            let other = shared.then(|| ours.clone());
            let (answer, counts) = call(&mut ours);
            note(&row, counts);
            assert_eq!(answer, std(&mut theirs), "{what}: the answer");
            assert!(ours == *theirs && format!("{ours:#?}") == format!("{theirs:#?}"), "{what}: {ours:?} {theirs:?}");
            let after = [counts[0], counts[1], counts[2], ours.seen().0];
            assert_eq!(after, did, "{what}: clones, drops, requests, capacity");
            if let Some(other) = other {
                assert_eq!(ours.seen().1 == other.seen().1, stays, "{what}: shared");
                assert!(other == *X::std(len), "{what}: the other owner has {other:?}");
            }
        }
        assert_eq!((HELD.get(), LIVE.get()), (held, live), "{what}: blocks and elements that are left");
    }
}

/// Rows of calls and of their `try_` forms, beside std's calls of the same names.
macro_rules! rows {
    ($type:ty: $($call:ident $try:ident ($($arg:tt)*) $cost:tt)*) => { $(
        let std = |w: &mut <$type as Subject>::Std| format!("{:?}", w.$call($($arg)*));
        row::<$type>(stringify!($call), &|v| printed(|| v.$call($($arg)*)), &std, $cost);
        row::<$type>(stringify!($try), &|v| printed(|| v.$try($($arg)*).unwrap()), &std, $cost);
    )* };
}

/// Rows of calls that std's has in another form, or hasn't.
macro_rules! other_rows {
    ($type:ty: $($call:ident ($v:pat => $ours:expr) ($w:pat => $std:expr) $cost:tt)*) => { $(
        row::<$type>(stringify!($call), &|$v| printed(|| $ours), &|$w| format!("{:?}", $std), $cost);
    )* };
}

/// Rows of calls that make a value.
macro_rules! made_rows {
    ($type:ty: $($call:ident ($ours:expr) ($std:expr) $cost:literal)*) => { $('row: {
        let name = format!("{}::{}", <$type>::NAME, stringify!($call));
        let numbers: Vec<usize> = $cost.split('/').map(|number| number.parse().unwrap()).collect();
        let Some(row) = begin(&name) else { break 'row };
        let (held, live) = (HELD.get(), LIVE.get());
        let (made, counts): ($type, _) = counted(|| $ours);
        note(&row, counts);
        assert_eq!(made, $std, "{name}");
        let after = [counts[0], counts[1], counts[2], made.seen().0];
        assert_eq!(after[4 - numbers.len()..], numbers, "{name}: clones, drops, requests, capacity");
        drop(made);
        assert_eq!((HELD.get(), LIVE.get()), (held, live), "{name}: blocks and elements that are left");
    })* };
}

fn vectors() {
    rows! { EcoVec<Item>:
        push try_push (item(9))                         "0/0/1/4 0/0/1/8 - 4/0/1/8 4/0/1/8"
        pop try_pop ()                                  "- - - 4/0/1/4 4/0/1/4"
        insert try_insert (0, item(9))                  "0/0/1/4 0/0/1/8 - 4/0/1/8 4/0/1/8"
        remove try_remove (0)                           ". - - 4/0/1/4 4/0/1/4"
        retain try_retain (|item| item.0 % 2 == 0)      "- 0/2/0/4 0/2/0/8 4/2/1/4 4/2/1/4"
        truncate try_truncate (3)                       "- 0/1/0/4 0/1/0/8 3/0/1/4 3/0/1/4"
        extend_from_slice try_extend_from_slice (&PAIR) "2/0/1/4 2/0/1/8 2/0/0/8 6/0/1/8 6/0/1/8"
        extend try_extend ([item(8), item(9)])          "0/0/1/4 0/0/1/8 - 4/0/1/8 4/0/1/8"
        extend try_extend ([])                          "- - - - -"
        extend_from_slice try_extend_from_slice (&[])   "- - - - -"
    }
    fn three<T>(mut left: impl Iterator<Item = T>) -> [Option<T>; 3] {
        [left.next(), left.next(), left.next()]
    }
    other_rows! { EcoVec<Item>:
        len (v => v.len()) (w => w.len()) "- - - - -"
        is_empty (v => v.is_empty()) (w => w.is_empty()) "- - - - -"
        capacity (v => v.capacity() < v.len()) (_ => false) "- - - - -"
        as_slice (v => v.as_slice().first().map(|item| item.0)) (w => w.first().map(|item| item.0)) "- - - - -"
        clear (v => v.clear()) (w => w.clear()) "- 0/4/0/4 0/4/0/8 0/0/0/0 0/0/0/0"
        try_clone (v => v.try_clone().is_ok_and(|other| other == *v && other.as_ptr() == v.as_ptr())) (_ => true)
            "- - - - -"
        make_mut (v => v.make_mut().reverse()) (w => w.reverse()) "- - - 4/0/1/4 4/0/1/4"
        try_make_mut (v => v.try_make_mut().unwrap().reverse()) (w => w.reverse()) "- - - 4/0/1/4 4/0/1/4"
        set (v => v.set(0, item(9))) (w => w[0] = item(9)) ". 0/1/0/4 0/1/0/8 4/1/1/4 4/1/1/4"
        try_set (v => v.try_set(0, item(9)).unwrap()) (w => w[0] = item(9)) ". 0/1/0/4 0/1/0/8 4/1/1/4 4/1/1/4"
        try_update (v => v.try_update(1, |item| { item.0 += 5; item.0 }).unwrap()) (w => { w[1].0 += 5; w[1].0 })
            ". - - 4/0/1/4 4/0/1/4"
        drain (v => three(v.drain(1..3))) (w => three(w.drain(1..3))) ". 0/0/1/4 0/0/1/8 4/0/2/4 4/0/2/4"
        try_drain (v => three(v.try_drain(1..3).unwrap())) (w => three(w.drain(1..3)))
            ". 0/0/1/4 0/0/1/8 4/0/2/4 4/0/2/4"
        splice (v => three(v.splice(1..3, [item(8), item(9)]))) (w => three(w.splice(1..3, [item(8), item(9)])))
            ". 0/0/1/4 0/0/1/8 4/0/2/4 4/0/2/4"
        try_splice (v => three(v.try_splice(1..3, [item(8), item(9)]).unwrap()))
            (w => three(w.splice(1..3, [item(8), item(9)]))) ". 0/0/1/4 0/0/1/8 4/0/2/4 4/0/2/4"
        drain (v => v.drain(1..1).len()) (_ => 0) ". - - 4/0/1/4 4/0/1/4"
        try_drain (v => v.try_drain(1..1).unwrap().len()) (_ => 0) ". - - 4/0/1/4 4/0/1/4"
        splice (v => v.splice(1..1, []).len()) (_ => 0) ". - - 4/0/1/4 4/0/1/4"
        try_splice (v => v.try_splice(1..1, []).unwrap().len()) (_ => 0) ". - - 4/0/1/4 4/0/1/4"
        reserve (v => v.reserve(1)) (_ => ()) "0/0/1/4 0/0/1/8 - 4/0/1/8 4/0/1/8"
        try_reserve (v => v.try_reserve(1).unwrap()) (_ => ()) "0/0/1/4 0/0/1/8 - 4/0/1/8 4/0/1/8"
        try_into_vec (v => take(v).try_into_vec().unwrap()) (w => take(w)) "- 0/0/1/0 0/0/1/0 4/0/1/0 4/0/1/0"
        into_array (v => <[Item; 4]>::try_from(take(v)).unwrap()) (w => take(w)) ". 0/0/1/0 0/0/1/0 4/0/1/0 4/0/1/0"
        into_iter (v => { let mut left = take(v).into_iter(); (left.next(), left.next_back(), left.len()) })
            (w => { let mut left = take(w).into_iter(); (left.next(), left.next_back(), left.len()) })
            "- 0/2/0/0 0/2/0/0 2/0/0/0 2/0/0/0"
        iter (v => (&*v).into_iter().map(|item| item.0).sum::<u64>()) (w => w.iter().map(|item| item.0).sum::<u64>())
            "- - - - -"
        fold (v => take(v).into_iter().fold(7, |sum, item| 2 * sum + item.0))
            (w => take(w).into_iter().fold(7, |sum, item| 2 * sum + item.0)) "- 0/4/0/0 0/4/0/0 4/4/0/0 4/4/0/0"
        drop (v => drop(take(v))) (w => w.clear()) "- 0/4/0/0 0/4/0/0 0/0/0/0 0/0/0/0"
    }
    other_rows! { EcoVec<u8>:
        try_extend_from_within (v => v.try_extend_from_within(..2).unwrap()) (w => w.extend_from_within(..2))
            ". 1/8 - 1/8 1/8"
        try_insert_slice (v => v.try_insert_slice(0, &[8, 9]).unwrap()) (w => drop(w.splice(0..0, [8, 9])))
            "1/4 1/8 - 1/8 1/8"
        try_replace_range (v => v.try_replace_range(..2, &[7, 8, 9]).unwrap()) (w => drop(w.splice(..2, [7, 8, 9])))
            ". 1/8 - 1/8 1/8"
    }
    rows! { EcoVec<u8>: extend_from_slice try_extend_from_slice (&[7; 40]) "1/40 1/44 1/44 1/44 1/44" }
    // By a size hint of 40, by one of none, and without one.
    other_rows! { EcoVec<u8>:
        extend (v => v.extend([7; 40])) (w => w.extend([7; 40])) "1/40 1/44 1/44 1/44 1/44"
        extend (v => v.extend((0..40).filter(|_| true))) (w => w.extend(0..40)) "5/64 4/64 3/64 4/64 4/64"
        try_extend (v => v.try_extend([7; 40]).unwrap()) (w => w.extend([7; 40])) "5/64 4/64 3/64 4/64 4/64"
        try_write (v => v.write(&[7; 40]).unwrap()) (w => w.write(&[7; 40]).unwrap()) "1/40 1/44 1/44 1/44 1/44"
    }
    rows! { EcoVec<u16>: push try_push (7) "1/4000 -" reserve try_reserve (1000) "1/4000 1/4000" }
    let five = || (0..5).map(item);
    made_rows! { EcoVec<Item>:
        new (EcoVec::new()) ([]) "0/0/0/0"
        with_capacity (EcoVec::with_capacity(3)) ([]) "0/0/1/3"
        try_with_capacity (EcoVec::try_with_capacity(3).unwrap()) ([]) "0/0/1/3"
        from_elem (EcoVec::from_elem(item(3), 5)) ([3; 5].map(item)) "5/1/1/5"
        try_from_elem (EcoVec::try_from_elem(item(3), 5).unwrap()) ([3; 5].map(item)) "5/1/1/5"
        try_from_elem (EcoVec::try_from_elem(item(3), 0).unwrap()) ([]) "0/1/0/0"
        try_from_iter (EcoVec::try_from_iter(five()).unwrap()) (five().collect::<Vec<_>>()) "0/0/2/8"
        from_iter (five().collect()) (five().collect::<Vec<_>>()) "0/0/1/5"
        from_iter (five().filter(|_| true).collect()) (five().collect::<Vec<_>>()) "0/0/2/8"
        try_from_array (EcoVec::try_from_array([1, 2].map(item)).unwrap()) ([1, 2].map(item)) "0/0/1/4"
        try_from_array (EcoVec::try_from_array([]).unwrap()) ([]) "0/0/0/0"
        from (EcoVec::from([1, 2].map(item))) ([1, 2].map(item)) "0/0/1/4"
        try_from_slice (EcoVec::try_from_slice(&PAIR).unwrap()) (PAIR) "2/0/1/4"
        from (EcoVec::from(&PAIR[..])) (PAIR) "2/0/1/4"
    }
    // The `Vec` takes a request itself.
    let list = || five().collect::<Vec<_>>();
    made_rows! { EcoVec<Item>:
        try_from_vec (EcoVec::try_from_vec(list()).unwrap()) (list()) "0/0/2/5"
        from (EcoVec::from(list())) (list()) "0/0/2/5"
    }
    // Elements without a drop.
    made_rows! { EcoVec<u8>:
        from_elem (EcoVec::from_elem(7, 0)) ([]) "0/0"
        from_elem (EcoVec::from_elem(7, 5)) ([7; 5]) "1/5"
        from_elem (EcoVec::from_elem(7, 1000)) ([7; 1000]) "1/1000"
        from_elem (EcoVec::from_elem(7, 1025)) ([7; 1025]) "2/1025"
    }
}

const NOTHING: &str = "- - - - - - -";
/// What adds some bytes, at the end or elsewhere; what adds 40, one by one or at once; what puts more in place of some;
/// what changes nothing, but unshares; what writes; what makes longer ones.
const ADDS: &str = "- - 1/32 1/40 - 1/40 1/32";
const ADDS_MANY: &str = "2/64 2/64 2/64 2/80 1/64 2/80 2/64";
const ADDS_AT_ONCE: &str = "1/64 1/64 1/64 1/60 1/64 1/60 1/64";
const FORTY: &str = "0123456789abcdefghijklmnopqrstuvwxyz+-*/";
const PUTS: &str = ". - 1/32 1/40 - 1/40 1/32";
const UNSHARES: &str = "- - - - - 1/20 1/32";
const WRITES: &str = "- - - - - 1/20 1/20";
const TAKES: &str = ". - - - - 1/20 1/20";
const LONGER: &str = "- - 1/15 1/20 1/32 1/20= 1/32=";
const SAME_LENGTH: &str = "- - - 1/20 1/32 1/20= 1/32=";
const INTO_VECTOR: &str = "- 1/15 1/15 0/15 0/15 0/15 0/15";

/// The rows that bytes and texts have alike.
macro_rules! rows_of_both {
    ($type:ty, $std:ident) => {
        rows! { $type:
            truncate try_truncate (3) "- - - - - 1/4 1/4"
            repeat try_repeat (2) LONGER
            repeat try_repeat (1) SAME_LENGTH
        }
        other_rows! { $type:
            len (v => v.len()) (w => w.len()) NOTHING
            is_empty (v => v.is_empty()) (w => w.is_empty()) NOTHING
            is_inline (v => v.is_inline()) (w => w.len() <= 15) NOTHING
            capacity (v => v.capacity() < v.len()) (_ => false) NOTHING
            try_clone (v => v.try_clone().is_ok_and(|other| other == *v && other.is_inline() == v.is_inline()))
                (_ => true) NOTHING
            clear (v => v.clear()) (w => w.clear()) "- - - - - 0/0 0/0"
            reserve (v => v.reserve(1)) (_ => ()) ADDS
            try_reserve (v => v.try_reserve(1).unwrap()) (_ => ()) ADDS
            shrink_to_fit (v => v.shrink_to_fit()) (_ => ()) NOTHING
            try_into_eco_vec (v => take(v).try_into_eco_vec().unwrap()) (w => Vec::from(take(w))) INTO_VECTOR
        }
        made_rows! { $type:
            new (<$type>::new()) ($std::new()) "0/15"
            with_capacity (<$type>::with_capacity(15)) ($std::new()) "0/15"
            with_capacity (<$type>::with_capacity(16)) ($std::new()) "1/16"
            try_with_capacity (<$type>::try_with_capacity(16).unwrap()) ($std::new()) "1/16"
            repeat (<$type>::made(5, 15).repeat(4)) (<$type>::std(5).repeat(4)) "1/20"
        }
    };
}

fn bytes() {
    rows_of_both! { EcoBytes, Vec }
    rows! { EcoBytes:
        push try_push (7) ADDS
        pop try_pop () WRITES
        extend_from_slice try_extend_from_slice (b"") NOTHING
        extend_from_slice try_extend_from_slice (FORTY.as_bytes()) ADDS_AT_ONCE
        insert try_insert (0, 7) ADDS
        remove try_remove (0) TAKES
    }
    other_rows! { EcoBytes:
        as_slice (v => v.as_slice().first().copied()) (w => w.first().copied()) NOTHING
        make_mut (v => v.make_mut().reverse()) (w => w.reverse()) WRITES
        try_make_mut (v => v.try_make_mut().unwrap().reverse()) (w => w.reverse()) WRITES
        insert_slice (v => v.insert_slice(0, b"xy")) (w => drop(w.splice(0..0, *b"xy"))) ADDS
        try_insert_slice (v => v.try_insert_slice(0, b"xy").unwrap()) (w => drop(w.splice(0..0, *b"xy"))) ADDS
        set (v => v.set(0, 7)) (w => w[0] = 7) TAKES
        try_set (v => v.try_set(0, 7).unwrap()) (w => w[0] = 7) TAKES
        replace_range (v => v.replace_range(..2, b"wxyz")) (w => drop(w.splice(..2, *b"wxyz"))) PUTS
        try_replace_range (v => v.try_replace_range(..2, b"wxyz").unwrap()) (w => drop(w.splice(..2, *b"wxyz"))) PUTS
        replace_range (v => v.replace_range(..0, b"")) (_ => ()) UNSHARES
        try_replace_range (v => v.try_replace_range(..0, b"").unwrap()) (_ => ()) UNSHARES
        extend (v => v.extend([8; 40])) (w => w.extend([8; 40])) ADDS_MANY
        extend (v => v.extend(&[8; 40])) (w => w.extend(&[8; 40])) ADDS_MANY
        try_write (v => v.write(&[7; 40]).unwrap()) (w => w.write(&[7; 40]).unwrap()) ADDS_AT_ONCE
    }
    let sixteen = *b"0123456789abcdef";
    made_rows! { EcoBytes:
        inline (EcoBytes::inline(&sixteen[1..])) (sixteen[1..]) "0/15"
        try_inline (EcoBytes::try_inline(&sixteen[1..]).unwrap()) (sixteen[1..]) "0/15"
        try_from_slice (EcoBytes::try_from_slice(&sixteen).unwrap()) (sixteen) "1/16"
        from (EcoBytes::from(&sixteen[..])) (sixteen) "1/16"
        try_from_vec (EcoBytes::try_from_vec(sixteen.to_vec()).unwrap()) (sixteen) "2/16"
        from (EcoBytes::from(sixteen.to_vec())) (sixteen) "2/16"
        from_iter ([7; 40].into_iter().collect()) ([7; 40]) "2/64"
    }
}

fn texts() {
    rows_of_both! { EcoString, String }
    rows! { EcoString:
        push try_push ('x') ADDS
        pop try_pop () "- - - - - 1/19 1/19"
        push_str try_push_str (FORTY) ADDS_AT_ONCE
        push_str try_push_str ("") NOTHING
        insert try_insert (0, 'x') ADDS
        insert_str try_insert_str (0, "xy") ADDS
        remove try_remove (0) TAKES
        replace_range try_replace_range (..2, "wxyz") PUTS
        replace_range try_replace_range (..0, "") UNSHARES
        replace try_replace ("0", "ab") LONGER
        replace try_replace ("-", "+") SAME_LENGTH
        replacen try_replacen ("0", "+", 0) SAME_LENGTH
        replacen try_replacen ("0", "xyz", 1) LONGER
    }
    other_rows! { EcoString:
        as_str (v => v.as_str().chars().next()) (w => w.chars().next()) NOTHING
        make_mut (v => v.make_mut().make_ascii_uppercase()) (w => w.make_ascii_uppercase()) WRITES
        try_make_mut (v => v.try_make_mut().unwrap().make_ascii_uppercase()) (w => w.make_ascii_uppercase()) WRITES
        to_lowercase (v => v.to_lowercase()) (w => w.to_lowercase()) SAME_LENGTH
        to_uppercase (v => v.to_uppercase()) (w => w.to_uppercase()) SAME_LENGTH
        to_ascii_lowercase (v => v.to_ascii_lowercase()) (w => w.to_ascii_lowercase()) SAME_LENGTH
        to_ascii_uppercase (v => v.to_ascii_uppercase()) (w => w.to_ascii_uppercase()) SAME_LENGTH
        add (v => *v = take(v) + FORTY) (w => *w = take(w) + FORTY) ADDS_AT_ONCE
        add_assign (v => *v += FORTY) (w => *w += FORTY) ADDS_AT_ONCE
        write_str (v => Write::write_str(v, FORTY)) (w => Write::write_str(w, FORTY)) ADDS_AT_ONCE
        extend (v => v.extend(["x"; 40])) (w => w.extend(["x"; 40])) ADDS_MANY
        extend (v => v.extend(['x'; 40])) (w => w.extend(['x'; 40])) ADDS_MANY
    }
    let sixteen = "0123456789abcdef";
    made_rows! { EcoString:
        inline (EcoString::inline(&sixteen[1..])) (sixteen[1..]) "0/15"
        try_inline (EcoString::try_inline(&sixteen[1..]).unwrap()) (sixteen[1..]) "0/15"
        try_from_str (EcoString::try_from_str(sixteen).unwrap()) (sixteen) "1/16"
        from (EcoString::from(sixteen)) (sixteen) "1/16"
        from (EcoString::from(String::with_capacity(99) + sixteen)) (sixteen) "2/16"
        try_format (EcoString::try_format(sixteen).ok_or(Error::Memory).unwrap()) (sixteen) "1/16"
        format (ecow::string::format(format_args!("{sixteen}"))) (sixteen) "1/16"
        to_eco_string (sixteen.to_eco_string()) (sixteen) "1/16"
        from_iter (['x'; 40].into_iter().collect()) ("x".repeat(40)) "2/64"
        from_iter ([sixteen].into_iter().collect()) (sixteen) "1/16"
        from_iter ([sixteen, "12345678"].map(EcoString::from).into_iter().collect()) ("0123456789abcdef12345678") "3/32"
    }
}

/// A leaf of four is full, and one that comes of a full leaf has room for 128. Where an element goes in at the front of a
/// full leaf, half of the elements move by way of a drain.
fn trees() {
    rows! { EcoTree<Item>:
        push try_push (item(9))       "0/0/1/0 0/0/1/0 4/0/1/0 0/0/2/1 - 44/0/2/1= 52/0/3/2="
        pop try_pop ()                "- - 4/0/1/0 - - 44/0/2/1= 52/0/3/2="
        insert try_insert (0, item(9)) "0/0/1/0 0/0/1/0 4/0/1/0 0/0/3/1 0/0/2/1 128/0/4/1 128/0/5/2"
        remove try_remove (0)         ". - 4/0/1/0 - - 128/0/2/1 128/0/3/2"
        split_off try_split_off (3)   ". 0/0/1/0 4/0/2/0 0/0/1/0 0/0/2/0 128/0/4/0 128/0/10/0"
        truncate try_truncate (3)     "- 0/1/1/0 4/1/2/0 0/125/1/0 0/297/2/0 128/125/4/0 128/125/10/0"
        truncate try_truncate (2100)  NOTHING
        extend_from_slice try_extend_from_slice (&PAIR)
            "2/0/1/0 2/0/1/0 6/0/1/0 2/0/3/1 2/0/0/1 46/0/2/1= 54/0/3/2="
        extend_from_slice try_extend_from_slice (&[]) NOTHING
    }
    // A list that is appended keeps its block, and nothing is appended of an empty one.
    let (pair, none) = (EcoTree::from([8, 9].map(item)), EcoTree::new());
    let append = |list: &mut EcoTree<Item>, other: &EcoTree<Item>| {
        let mut other = other.clone();
        list.append(&mut other);
        other.len()
    };
    let try_append = |list: &mut EcoTree<Item>, other: &EcoTree<Item>| {
        let mut other = other.clone();
        list.try_append(&mut other).unwrap();
        other.len()
    };
    let more = |list: &mut Vec<Item>| {
        list.extend([8, 9].map(item));
        0
    };
    let mix = |all: u64, number: u64| (all * 31 + number) % 1_000_003;
    let sum = |all: u64, item: &Item| mix(all, item.0);
    let whole = |all: u64, chunk: &[Item]| chunk.iter().fold(mix(all, chunk.len() as u64), sum);
    other_rows! { EcoTree<Item>:
        len (v => v.len()) (w => w.len()) NOTHING
        is_empty (v => v.is_empty()) (w => w.is_empty()) NOTHING
        height (v => v.height()) (w => usize::from(w.len() > 128) + usize::from(w.len() > 2048)) NOTHING
        get (v => (v.get(3), v.get(200), v.get(v.len()))) (w => (w.get(3), w.get(200), None::<Item>)) NOTHING
        first (v => v.first()) (w => w.first()) NOTHING
        last (v => v.last()) (w => w.last()) NOTHING
        index (v => (&v[0], &v[v.len() - 1])) (w => (&w[0], w.last().unwrap())) ". - - - - - -"
        chunks (v => v.chunks().fold(7, whole)) (w => w.chunks(128).fold(7, whole)) NOTHING
        chunks (v => v.chunks().rev().fold(7, whole)) (w => w.chunks(128).rev().fold(7, whole)) NOTHING
        iter (v => { let mut left = v.iter(); (left.next(), left.next_back(), left.size_hint(), left.len(), left.rfold(7, sum)) })
            (w => { let mut left = w.iter(); (left.next(), left.next_back(), left.size_hint(), left.len(), left.rfold(7, sum)) })
            NOTHING
        into_iter (v => (&*v).into_iter().fold(7, sum)) (w => w.iter().fold(7, sum)) NOTHING
        clone (v => v.clone().first().map(|item| item.0) == v.first().map(|item| item.0)) (_ => true) NOTHING
        set (v => v.set(0, item(9))) (w => w[0] = item(9))
            ". 0/1/0/0 4/1/1/0 0/1/0/0 0/1/0/1 128/1/2/1 128/1/3/2"
        try_set (v => v.try_set(0, item(9)).unwrap()) (w => w[0] = item(9))
            ". 0/1/0/0 4/1/1/0 0/1/0/0 0/1/0/1 128/1/2/1 128/1/3/2"
        try_update (v => v.try_update(1, |item| { item.0 += 5; item.0 }).unwrap()) (w => { w[1].0 += 5; w[1].0 })
            ". - 4/0/1/0 - - 128/0/2/1 128/0/3/2"
        extend (v => v.extend([8, 9].map(item))) (w => w.extend([8, 9].map(item)))
            "0/0/1/0 0/0/1/0 4/0/1/0 0/0/2/1 - 44/0/2/1= 52/0/3/2="
        replace_range (v => v.replace_range(1..2, &PAIR)) (w => drop(w.splice(1..2, PAIR.iter().cloned())))
            ". 2/1/11/1 6/1/12/1 2/1/11/1 2/1/11/1 130/1/13/1 130/1/24/2"
        try_replace_range (v => v.try_replace_range(1..2, &PAIR).unwrap()) (w => drop(w.splice(1..2, PAIR.iter().cloned())))
            ". 2/1/11/1 6/1/12/1 2/1/11/1 2/1/11/1 130/1/13/1 130/1/24/2"
        try_extend (v => v.try_extend([8, 9].map(item)).unwrap()) (w => w.extend([8, 9].map(item)))
            "0/0/1/0 0/0/1/0 4/0/1/0 0/0/2/1 - 44/0/2/1= 52/0/3/2="
        append (v => append(v, &pair)) (w => more(w)) "- 0/0/2/1 0/0/2/1= 0/0/2/1 0/0/2/1 0/0/2/1= 0/0/3/2="
        try_append (v => try_append(v, &pair)) (w => more(w)) "- 0/0/2/1 0/0/2/1= 0/0/2/1 0/0/2/1 0/0/2/1= 0/0/3/2="
        append (v => append(v, &none)) (_ => 0) NOTHING
        try_append (v => try_append(v, &none)) (_ => 0) NOTHING
        clear (v => v.clear()) (w => w.clear()) "- 0/4/0/0 0/0/0/0 0/128/0/0 0/300/0/0 0/0/0/0 0/0/0/0"
        drop (v => drop(take(v))) (w => w.clear()) "- 0/4/0/0 0/0/0/0 0/128/0/0 0/300/0/0 0/0/0/0 0/0/0/0"
    }
    made_rows! { EcoTree<Item>:
        new (EcoTree::new()) ([]) "0/0/0/0"
        default (EcoTree::default()) ([]) "0/0/0/0"
        from (EcoTree::from([1, 2].map(item))) ([1, 2].map(item)) "0/0/1/0"
        from_iter ((0..5).map(item).collect()) ([0, 1, 2, 3, 4].map(item)) "0/0/2/0"
        from (EcoTree::from(&PAIR[..])) (PAIR) "2/0/1/0"
        try_from_slice (EcoTree::try_from_slice(&PAIR).unwrap()) (PAIR) "2/0/1/0"
    }
    let vec = EcoVec::from(&PAIR[..]);
    made_rows! { EcoTree<Item>:
        from (EcoTree::from(vec.clone())) (PAIR) "2/0/1/0"
        try_from_eco_vec (EcoTree::try_from_eco_vec(vec.clone()).unwrap()) (PAIR) "2/0/1/0"
    }
    // Of other lengths, in `trees.rs`.
    for call in ["eq", "partial_cmp", "cmp", "hash", "fmt"] {
        begin(&format!("EcoTree::{call}"));
    }
}

/// A row of a call of a nested value: its answer, what it leaves, and its requests for a sole and for a shared value.
fn value(
    name: &str,
    of: &dyn Fn() -> Value,
    call: &dyn Fn(&mut Value) -> (String, [usize; 4]),
    answer: &str,
    left: &str,
    requests: [usize; 2],
) {
    let name = format!("Value::{name}");
    for (shared, requests) in [false, true].into_iter().zip(requests) {
        let Some(row) = begin(&name) else { continue };
        let held = HELD.get();
        {
            let mut value = of();
            let other = shared.then(|| value.clone());
            let (said, counts) = call(&mut value);
            note(&row, counts);
            assert_eq!(said, answer, "{name}, shared: {shared}");
            assert_eq!(format!("{value:?}"), left, "{name}, shared: {shared}");
            assert_eq!(counts[2], requests, "{name}, shared: {shared}: requests");
            assert!(other.is_none_or(|other| other == of()), "{name}: the other owner");
        }
        assert_eq!(HELD.get(), held, "{name}, shared: {shared}: blocks that are left");
    }
}

macro_rules! values {
    ($($call:ident $of:ident ($($arg:expr),*) $answer:literal $left:literal $requests:expr;)*) => { $(
        value(stringify!($call), &$of, &|value| printed(|| value.$call($($arg),*)), $answer, $left, $requests);
    )* };
}

fn values() {
    let list = || Value::from([1, 2, 3, 4]);
    let fields = || [("a", Value::from([1, 2])), ("b", 3.into())].into_iter().collect::<Value>();
    let (number, text) = (|| Value::from(7), || Value::from("a"));
    let (truth, real) = (|| Value::from(true), || Value::from(0.5));
    let path = [Step::Field("a"), Step::Index(1)];
    values! {
        kind      list   ()         "List"                      "[1, 2, 3, 4]"         [0, 0];
        depth     fields ()         "2"                         r#"{"a": [1, 2], "b": 3}"# [0, 0];
        len       list   ()         "4"                         "[1, 2, 3, 4]"         [0, 0];
        is_empty  list   ()         "false"                     "[1, 2, 3, 4]"         [0, 0];
        truth     truth  ()         "Ok(true)"                  "true"                 [0, 0];
        number    number ()         "Ok(7)"                     "7"                    [0, 0];
        real      real   ()         "Ok(0.5)"                   "0.5"                  [0, 0];
        text      text   ()         r#"Ok("a")"#                r#""a""#               [0, 0];
        try_clone list   ()         "Ok([1, 2, 3, 4])"          "[1, 2, 3, 4]"         [0, 0];
        get       list   (1)        "Ok(2)"                     "[1, 2, 3, 4]"         [0, 0];
        get       fields (0)        "Ok([1, 2])"                r#"{"a": [1, 2], "b": 3}"# [0, 0];
        set       list   (1, 9)     "Ok(())"                    "[1, 9, 3, 4]"         [0, 1];
        push      list   (9)        "Ok(())"                    "[1, 2, 3, 4, 9]"      [1, 1];
        pop       list   ()         "Ok(4)"                     "[1, 2, 3]"            [0, 1];
        insert    list   (1, 9)     "Ok(())"                    "[1, 9, 2, 3, 4]"      [1, 1];
        remove    list   (1)        "Ok(2)"                     "[1, 3, 4]"            [0, 1];
        truncate  list   (2)        "Ok(())"                    "[1, 2]"               [0, 1];
        truncate  list   (0)        "Ok(())"                    "[]"                   [0, 0];
        get_field fields ("b")      "Ok(3)"                     r#"{"a": [1, 2], "b": 3}"# [0, 0];
        set_field fields ("b", 9)   "Ok(())"                    r#"{"a": [1, 2], "b": 9}"# [0, 1];
        set_field fields ("c", 9)   "Ok(())"                    r#"{"a": [1, 2], "b": 3, "c": 9}"# [0, 1];
        push_field fields ("c", 9)  "Ok(())"                    r#"{"a": [1, 2], "b": 3, "c": 9}"# [0, 1];
        remove_field fields ("a")   "Ok([1, 2])"                r#"{"b": 3}"#          [0, 1];
        field_name fields (1)       r#"Ok("b")"#                r#"{"a": [1, 2], "b": 3}"# [0, 0];
        get_path  fields (&path)    "Ok(2)"                     r#"{"a": [1, 2], "b": 3}"# [0, 0];
        set_path  fields (&path, 9) "Ok(())"                    r#"{"a": [1, 9], "b": 3}"# [0, 2];
        update_path fields (&path[..1], Value::pop) "Ok(2)"     r#"{"a": [1], "b": 3}"# [0, 2];
    }
    let last = |value: &mut Value| printed(|| value.items().next_back());
    value("items", &list, &last, "Some(4)", "[1, 2, 3, 4]", [0, 0]);
    let last = |value: &mut Value| printed(|| value.fields().last());
    value("fields", &fields, &last, r#"Some(("b", 3))"#, r#"{"a": [1, 2], "b": 3}"#, [0, 0]);
    value("new", &Value::new, &|_| printed(Value::new), "null", "null", [0, 0]);
    value("new_list", &Value::new_list, &|_| printed(Value::new_list), "[]", "[]", [0, 0]);
    value("new_fields", &Value::new_fields, &|_| printed(Value::new_fields), "{}", "{}", [0, 0]);
}

/// What is left of iterators, and whether a vector is a block's only owner.
fn left_and_owned() {
    for name in ["IntoIter::as_slice", "Drain::as_slice", "EcoVec::is_unique"] {
        begin(name);
    }
    for shared in [false, true] {
        let mut vec = EcoVec::<Item>::made(4, 8);
        let other = shared.then(|| vec.clone());
        assert_eq!(counted(|| vec.is_unique()), (!shared, [0; 4]));
        let mut left = vec.into_iter();
        drop(left.next());
        assert_eq!(counted(|| left.as_slice().iter().map(|item| item.0).sum()), (6, [0; 4]));
        drop(other);
    }
    let mut vec = EcoVec::<Item>::made(4, 8);
    let mut left = vec.drain(1..);
    left.next_back();
    assert_eq!(left.as_ref(), left.as_slice());
    assert_eq!(counted(|| left.as_slice().iter().map(|item| item.0).sum()), (3, [0; 4]));
    assert!(EcoVec::<u8>::new().is_unique());
}

/// The public calls that a source file defines, each with its type. Those of `small!` are of both its types.
fn defined(source: &str) -> Vec<String> {
    let (mut types, mut calls) = (Vec::new(), Vec::new());
    for line in source.lines() {
        let words = line.trim_start();
        if let Some(head) = words.strip_prefix("impl") {
            let of = head.rsplit(" for ").next().unwrap();
            let small = of.contains("$type").then_some(&["SmallBytes", "SmallText"][..]);
            let small = small.or(of.contains("$list").then_some(&["EcoVec", "EcoTree"][..]));
            let known = &["EcoVec", "IntoIter", "Drain", "SmallBytes", "SmallText", "Value", "EcoTree"];
            types = small.unwrap_or(known).iter().filter(|name| small.is_some() || of.contains(*name)).collect();
        } else if line.starts_with("pub fn") {
            types = vec![&"SmallText"];
        }
        let call = words.strip_prefix("pub ").or((types == [&"EcoTree"]).then_some(words));
        let call = call.map(|rest| rest.strip_prefix("const ").unwrap_or(rest));
        if let Some(name) = call.and_then(|rest| rest.strip_prefix("fn ")) {
            let name = name.split(['(', '<']).next().unwrap();
            assert!(!types.is_empty(), "{line}");
            calls.extend(types.iter().map(|of| format!("{of}::{name}")));
        }
    }
    calls
}

#[test]
fn each_public_call_has_a_row() {
    for table in [vectors, bytes, texts, trees, values, left_and_owned] {
        table();
    }
    let rows = ROWS.take();
    let sources = [
        include_str!("../src/traits.rs"),
        include_str!("../src/vec.rs"),
        include_str!("../src/bytes.rs"),
        include_str!("../src/string.rs"),
        include_str!("../src/value.rs"),
        include_str!("../src/tree.rs"),
    ];
    let calls: Vec<String> = sources.into_iter().flat_map(defined).collect();
    assert!(calls.len() > 160, "{}", calls.len());
    let name = |row: &str| row.split(' ').next().unwrap().to_string();
    let with_rows: BTreeSet<String> = rows.keys().map(|row| name(row)).collect();
    for call in &calls {
        assert!(with_rows.contains(call), "{call} has no row");
    }
    if std::env::var_os("REFUSED_ROW").is_some() {
        return;
    }
    // A call that is refused memory ends the program, unless its name begins with `try_` or it answers an error. Where a
    // `Vec` goes in, its own request comes first.
    let mut refused = 0;
    for (row, &bytes) in rows.iter().filter(|(row, bytes)| **bytes > 0 && !row.contains("try_from_vec")) {
        let child = std::process::Command::new(std::env::current_exe().unwrap())
            .args(["--exact", "each_public_call_has_a_row", "--nocapture"])
            .envs([("REFUSED_ROW", row.as_str()), ("RUST_BACKTRACE", "0")])
            .output()
            .unwrap();
        let said = String::from_utf8_lossy(&child.stderr);
        if ["::try_", "Value::"].iter().any(|part| row.contains(part)) {
            assert!(child.status.code() == Some(101) && said.contains("Memory"), "{row}: {said}");
            continue;
        }
        assert_eq!(child.status.signal(), Some(6), "{row}: {said}");
        assert!(said.contains(&format!("memory allocation of {bytes} bytes failed")), "{row}: {bytes}, {said}");
        refused += 1;
    }
    assert!(refused > 100, "{refused}");
}

/// A conversion hands the block on: no request, and what is made stands where its source stood.
#[test]
fn conversions_share() {
    fn passes<A: Clone + AsRef<[u8]>, B: AsRef<[u8]>>(made: A, convert: impl Fn(A) -> B) {
        for (value, other) in [(made.clone(), Some(made.clone())), (made, None)] {
            let place = value.as_ref().as_ptr();
            let (to, counts) = counted(|| convert(value));
            assert_eq!((to.as_ref().as_ptr(), counts[2]), (place, 0), "{}", std::any::type_name::<(A, B)>());
            assert!(other.is_none_or(|other| other.as_ref() == to.as_ref()));
        }
    }
    let text = || EcoString::made(20, 32);
    let (bytes, vec) = (|| EcoBytes::from(text()), || EcoVec::<u8>::from(text()));
    passes(text(), EcoBytes::from);
    passes(text(), EcoVec::from);
    passes(text(), |text| EcoString::from(&text));
    passes(text(), |text| Value::from(text).text().unwrap());
    passes(text(), |text| Value::from(&text).text().unwrap());
    passes(bytes(), |bytes| EcoString::try_from(bytes).unwrap());
    passes(bytes(), EcoVec::from);
    passes(bytes(), |bytes| EcoVec::from(&bytes));
    passes(bytes(), |bytes| EcoBytes::from(&bytes));
    passes(vec(), EcoBytes::from);
    passes(vec(), |vec| EcoString::try_from(vec).unwrap());
    let value = Value::from([Value::from(text())]);
    let (same, counts) = counted(|| Value::from(&value));
    let place = |value: &Value| value.get(0).unwrap().text().unwrap().as_ptr();
    assert_eq!((place(&same), counts[2]), (place(&value), 0));
    // At most 15 bytes that have a block come back inline when they are told to.
    for shared in [false, true] {
        let mut few = EcoString::made(15, 32);
        let other = shared.then(|| few.clone());
        let ((), counts) = counted(|| few.shrink_to_fit());
        assert_eq!((few.is_inline(), few.capacity(), counts[2], few.as_str()), (true, 15, 0, "012345678901234"));
        assert!(other.is_none_or(|other| !other.is_inline() && other.capacity() == 32));
    }
}

#[test]
fn a_nan_differs_from_itself() {
    let (vec, tree) = (eco_vec![f64::NAN], EcoTree::from([f64::NAN]));
    let other = vec.clone();
    assert!(tree != tree.clone() && tree.partial_cmp(&tree).is_none());
    assert!(vec.as_ptr() == other.as_ptr() && vec != other && vec.partial_cmp(&other).is_none());
}

/// What a call that panics says.
fn said(call: impl FnOnce()) -> String {
    let panic = catch_unwind(AssertUnwindSafe(call)).unwrap_err();
    panic.downcast::<String>().map_or_else(|panic| panic.downcast_ref::<&str>().unwrap().to_string(), |said| *said)
}

#[test]
fn words() {
    let words = [
        (Error::Memory, "out of memory", "Memory"),
        (Error::Capacity, "capacity overflow", "Capacity"),
        (Error::Index, "index past the end", "Index"),
        (Error::Boundary, "index inside a character", "Boundary"),
        (Error::Kind, "value of another kind", "Kind"),
        (Error::Depth, "nested too deep", "Depth"),
    ];
    for (error, display, debug) in words {
        let rejected = Rejected { error, value: 7 };
        assert_eq!((error.to_string().as_str(), rejected.to_string().as_str()), (display, display));
        assert_eq!(format!("{error:?}"), debug);
        assert_eq!(format!("{rejected:?}"), format!("Rejected {{ error: {debug}, value: 7 }}"));
        assert_eq!(Error::from(rejected), error);
    }
    let vec = eco_vec!["a", "b"];
    assert_eq!(format!("{vec:?} {:?}", vec.clone().into_iter()), r#"["a", "b"] IntoIter(["a", "b"])"#);
    assert_eq!(format!("{:?}", vec.clone().drain(..1)), r#"Drain(["a"])"#);
    assert_eq!(format!("{:?}", vec.clone().splice(1.., ["c"])), r#"Splice(["b"])"#);
    assert_eq!(said(|| vec.clone().insert(3, "c")), "index is out bounds (index: 3, len: 2)");
    assert_eq!(said(|| _ = vec.clone().remove(2)), "index is out bounds (index: 2, len: 2)");
    assert_eq!(said(|| vec.clone().reserve(usize::MAX)), "capacity overflow");
    assert_eq!(said(|| drop(vec.clone().drain(3..))), "range (Included(3), Unbounded) is out of bounds of length 2");
    assert_eq!(said(|| vec.clone().set(2, "c")), "index is out bounds (index: 2, len: 2)");
    assert_eq!(said(|| EcoBytes::new().set(0, 1)), "index is out bounds (index: 0, len: 0)");
    assert_eq!(said(|| _ = EcoTree::from([1])[1]), "index is out bounds (index: 1, len: 1)");
    let (short, long) = (EcoString::from("aé"), EcoString::from("é".to_string() + &"x".repeat(253) + "éé"));
    let inside = "byte index 2 is not a char boundary; it is inside 'é' (bytes 1..3) of `aé`";
    assert_eq!(said(|| short.clone().insert(2, 'c')), inside);
    assert_eq!(said(|| short.clone().insert_str(2, "c")), inside);
    assert_eq!(said(|| _ = short.clone().remove(2)), inside);
    assert_eq!(said(|| short.clone().truncate(2)), inside);
    assert_eq!(said(|| short.clone().replace_range(2.., "")), inside);
    assert_eq!(said(|| short.clone().replace_range(..2, "")), inside);
    assert_eq!(said(|| short.clone().insert(4, 'c')), "index is out bounds (index: 4, len: 3)");
    let most = format!("index is out bounds (index: {}, len: 3)", usize::MAX);
    assert_eq!(said(|| short.clone().insert_str(usize::MAX, "c")), most);
    assert_eq!(said(|| _ = short.clone().remove(3)), "index is out bounds (index: 3, len: 3)");
    let shown = "byte index 256 is not a char boundary; it is inside 'é' (bytes 255..257) of `é".to_string();
    assert_eq!(said(|| long.clone().truncate(256)), shown + &"x".repeat(253) + "`[...]");
    assert_eq!(said(|| drop(EcoString::inline("0123456789abcdef"))), "exceeded inline capacity");
    assert_eq!(said(|| drop(EcoBytes::inline(&[0; 16]))), "exceeded inline capacity");
}
