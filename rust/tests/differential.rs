//! Random edits of values that share memory, each beside the same of std. `EDITS` says how many there are of each type.

use ecow::{EcoString, EcoVec, SmallBytes, SmallText, Value};
use std::cell::{Cell, RefCell};
use std::fmt::Debug;
use std::hash::{BuildHasher, BuildHasherDefault, DefaultHasher, Hash};
use std::ops::Range;

thread_local!(static LIVE: Cell<i64> = const { Cell::new(0) });

/// xorshift.
struct Random(u64);

impl Random {
    fn next(&mut self) -> u64 {
        self.0 ^= self.0 << 13;
        self.0 ^= self.0 >> 7;
        self.0 ^= self.0 << 17;
        self.0.wrapping_mul(0x2545F4914F6CDD1D)
    }

    fn below(&mut self, end: usize) -> usize {
        (self.next() >> 11) as usize % end.max(1)
    }

    fn range(&mut self, len: usize) -> Range<usize> {
        let (start, most) = (self.below(len + 1), 1 + self.below(40));
        start..start + self.below((len - start).min(most) + 1)
    }
}

/// An element of which is counted how many live. A box tells where one is dropped twice.
#[derive(Debug, PartialEq, Eq, PartialOrd, Ord, Hash)]
struct Counted<B>(B);

impl<B> Counted<B> {
    fn new(inner: B) -> Self {
        LIVE.set(LIVE.get() + 1);
        Counted(inner)
    }
}

impl<B: Clone> Clone for Counted<B> {
    fn clone(&self) -> Self {
        Counted::new(self.0.clone())
    }
}

impl<B> Drop for Counted<B> {
    fn drop(&mut self) {
        LIVE.set(LIVE.get() - 1);
    }
}

macro_rules! aligned {
    ($($name:ident $align:literal)*) => { $(
        #[derive(Clone, Debug, PartialEq, Eq, PartialOrd, Ord, Hash)]
        #[repr(align($align))]
        struct $name(Vec<u64>);
    )* };
}
aligned! { To64 64 To4096 4096 }

/// Aligned to 64, and no bytes.
#[derive(Clone, Debug, PartialEq, Eq, PartialOrd, Ord, Hash)]
#[repr(align(64))]
struct Nothing;

/// The same call on ours and on std's, and the same answer.
macro_rules! same {
    ($ours:expr, $std:expr, $($call:tt)*) => { assert_eq!($ours.$($call)*, $std.$($call)*) };
}

fn edits() -> usize {
    std::env::var("EDITS").ok().and_then(|count| count.parse().ok()).unwrap_or(20_000)
}

fn hash(value: impl Hash) -> u64 {
    BuildHasherDefault::<DefaultHasher>::default().hash_one(value)
}

fn compared<A: Ord + Hash + Debug, B: Ord + Hash + Debug>(ours: [&A; 2], std: [&B; 2]) {
    assert_eq!(ours[0] == ours[1], std[0] == std[1]);
    assert_eq!(ours[0].cmp(ours[1]), std[0].cmp(std[1]));
    assert_eq!(ours[0].partial_cmp(ours[1]), std[0].partial_cmp(std[1]));
    assert_eq!(hash(ours[0]), hash(std[0]));
    assert_eq!(format!("{:?}", ours[0]), format!("{:?}", std[0]));
}

fn vectors<T: Clone + Debug + Ord + Hash>(seed: u64, most: usize, make: impl Fn(u64) -> T) {
    const POOL: usize = 12;
    let mut random = Random(seed);
    let mut ours: Vec<EcoVec<T>> = vec![EcoVec::new(); POOL];
    let mut std: Vec<Vec<T>> = vec![Vec::new(); POOL];
    for edit in 0..edits() {
        let (i, j) = (random.below(POOL), random.below(POOL));
        let (v, w) = (&mut ours[i], &mut std[i]);
        let (item, at) = (make(random.next()), random.below(w.len()));
        let n = random.below(if edit % 16 == 0 { 300 } else { 20 });
        let items: Vec<T> = (0..n).map(|_| make(random.next())).collect();
        match random.below(26) {
            0..=4 => same!(v, w, push(item.clone())),
            5 => same!(v, w, pop()),
            6..=7 => same!(v, w, insert(at, item.clone())),
            8 if !w.is_empty() => same!(v, w, remove(at)),
            9 => same!(v, w, truncate(at + n)),
            10 if n == 0 => same!(v, w, clear()),
            11 => same!(v, w, extend_from_slice(&items)),
            12 => same!(v, w, extend(items.iter().cloned())),
            13 if !w.is_empty() => (v.make_mut()[at], w[at]) = (item.clone(), item),
            14 => {
                let kept = random.next() | 1;
                v.retain(|item| hash(item) & kept & 7 != 0);
                w.retain(|item| hash(item) & kept & 7 != 0);
            }
            15 => {
                let range = random.range(w.len());
                let (mut a, mut b) = (v.drain(range.clone()), w.drain(range));
                assert_eq!((a.next_back(), a.next(), a.len()), (b.next_back(), b.next(), b.len()));
                assert!(n < 9 || a.eq(b));
            }
            16 => {
                let range = random.range(w.len());
                let (mut a, mut b) = (v.splice(range.clone(), items.clone()), w.splice(range, items));
                assert_eq!((a.next(), a.next_back()), (b.next(), b.next_back()));
            }
            17 => {
                *v = match n % 4 {
                    0 => items.iter().cloned().collect(),
                    1 => EcoVec::from(items.clone()),
                    2 => EcoVec::from(items.as_slice()),
                    _ => EcoVec::from_elem(item.clone(), n),
                };
                *w = if n % 4 == 3 { vec![item; n] } else { items };
            }
            18 => {
                let (mut a, mut b) = (v.clone().into_iter(), w.clone().into_iter());
                assert_eq!((a.next_back(), a.next(), a.len()), (b.next_back(), b.next(), b.len()));
                assert_eq!(a.as_slice(), b.as_slice());
                if n > 9 {
                    assert!(std::mem::take(v).into_iter().eq(std::mem::take(w)));
                }
            }
            19 => v.reserve(n * 8),
            20 => compared([&ours[i], &ours[j]], [&std[i], &std[j]]),
            _ => (ours[j], std[j]) = (ours[i].clone(), std[i].clone()),
        }
        if std[i].len() > most {
            same!(ours[i], std[i], truncate(most / 2));
        }
        assert_eq!(ours[i], std[i], "edit {edit}");
        assert!(ours[i].capacity() >= std[i].len() && ours[i].as_ptr().is_aligned());
        if edit % 64 == 0 {
            assert!(ours.iter().zip(&std).all(|(v, w)| v == w), "edit {edit}");
        }
    }
}

#[test]
fn vectors_of_copied_elements() {
    vectors(1, 3000, |n| n as u8);
    vectors(2, 3000, |n| n as i64);
    vectors(3, 2000, |n| (n, n ^ 7));
    vectors(4, 1200, |n| [n as u32; 9]);
    vectors(5, 1100, |n| [n as u8; 65]);
    vectors(6, 30, |n| [n as u8; 4096].map(|byte| byte));
}

#[test]
fn vectors_of_owners() {
    vectors(7, 400, |n| if n & 1 == 0 { String::new() } else { format!("{n}") });
    vectors(8, 400, |n| Counted::new(Box::new(n)));
    vectors(9, 200, |n| EcoVec::from([Counted::new(Box::new(n)), Counted::new(Box::new(n >> 3))]));
    vectors(10, 1200, |n| Counted::new([n as u8; 65]));
    assert_eq!(LIVE.get(), 0);
}

#[test]
fn vectors_of_no_bytes_and_of_aligned_elements() {
    vectors(11, 2000, |_| ());
    vectors(12, 2000, |_| Counted::new(()));
    vectors(13, 2000, |_| Nothing);
    vectors(14, 1200, |n| To64(vec![n; n as usize % 3]));
    vectors(15, 40, |n| To4096(vec![n; n as usize % 3]));
    assert_eq!(LIVE.get(), 0);
}

/// The room of a vector that needs so much: what it has, or twice that, and 4 at least.
fn room(needed: usize, room: usize) -> usize {
    if needed <= room { room } else { needed.max(2 * room).max(4) }
}

/// One call at a time on vectors whose lengths are powers of two, their neighbours, or drawn between powers.
fn sizes<T: Clone + Debug + Ord + Hash>(power: usize, make: impl Fn(u64) -> T) {
    let mut random = Random(power as u64);
    for round in 0..edits() / 1000 {
        let power = 1 << random.below(power + 1);
        let len = [power - 1, power, power + 1, power + random.below(power)][round % 4];
        let made: Vec<T> = (0..len as u64).map(&make).collect();
        let (mut ours, mut std, at) = (EcoVec::from(made.as_slice()), made.clone(), random.below(len));
        let (kept, call, made_room) = ((round % 8 < 4).then(|| ours.clone()), random.below(9), room(len, 0));
        assert_eq!(ours.capacity(), made_room, "of {len}");
        match call {
            0 => same!(ours, std, push(make(7))),
            1 => same!(ours, std, insert(at, make(7))),
            2 if len > 0 => same!(ours, std, remove(at)),
            3 => same!(ours, std, truncate(at)),
            4 => same!(ours, std, extend_from_slice(&made)),
            5 => same!(ours, std, retain(|item| hash(item) & 1 == 0)),
            6 => assert!(ours.drain(at..).eq(std.drain(at..))),
            7 => assert!(ours.splice(..at, made.iter().cloned()).eq(std.splice(..at, made.iter().cloned()))),
            _ => ours = std::mem::take(&mut ours).into_iter().collect(),
        }
        let needed = [Some(len + 1), Some(len + 1), None, None, Some(2 * len)].get(call).copied().flatten();
        assert!(needed.is_none_or(|needed| ours.capacity() == room(needed, made_room)), "of {len}");
        assert!(ours == std && ours.cmp(&EcoVec::from(std)).is_eq(), "of {len}");
        assert!(kept.is_none_or(|kept| kept == made), "of {len}");
    }
}

#[test]
fn vectors_of_each_size() {
    sizes(24, |n| n as u8);
    sizes(21, |n| n as u16);
    sizes(20, |n| [n as u8, 1, 2]);
    sizes(19, |n| n as i64);
    sizes(17, |n| [n; 3]);
    sizes(16, |n| [n as u8; 65]);
    sizes(15, |n| Counted::new(Box::new(n)));
    sizes(10, |n| [n as u8; 4096]);
    assert_eq!(LIVE.get(), 0);
}

/// Room for a gibibyte is given as it is asked for, and takes no time while nothing stands there.
#[test]
fn large_rooms() {
    for room in [(1 << 26) + 1, 1 << 30] {
        assert_eq!(EcoVec::<u8>::with_capacity(room).capacity(), room);
        assert_eq!(SmallBytes::<15>::with_capacity(room).capacity(), room);
        assert_eq!(EcoString::with_capacity(room).capacity(), room);
        let (mut vector, mut bytes) = (EcoVec::from([1u8; 5]), SmallBytes::<15>::from([1; 20].as_slice()));
        vector.reserve(room);
        bytes.reserve(room);
        assert_eq!((vector.capacity(), bytes.capacity()), (room + 5, room + 20));
    }
}

thread_local!(static DROPPED: RefCell<Vec<u64>> = const { RefCell::new(Vec::new()) });

/// An element that tells when it is dropped.
#[derive(Clone)]
struct Told(u64);

impl Drop for Told {
    fn drop(&mut self) {
        DROPPED.with_borrow_mut(|dropped| dropped.push(self.0));
    }
}

/// What a call drops, of our vector and of std's, in the same order.
macro_rules! same_drops {
    ($v:ident, $call:expr) => {{
        let dropped = |mut $v: EcoVec<Told>| {
            DROPPED.take();
            $call;
            DROPPED.take()
        };
        let of_std = |mut $v: Vec<Told>| {
            DROPPED.take();
            $call;
            DROPPED.take()
        };
        assert_eq!(dropped((0..9).map(Told).collect()), of_std((0..9).map(Told).collect()), "{}", stringify!($call));
    }};
}

#[test]
fn drops_are_in_order() {
    same_drops!(v, drop(std::mem::take(&mut v)));
    same_drops!(v, v.clear());
    same_drops!(v, v.truncate(3));
    // The original's order too: what stays is swapped to the front, and the others are dropped in the end.
    DROPPED.take();
    let mut kept: EcoVec<Told> = (0..9).map(Told).collect();
    kept.retain(|told| told.0 % 3 == 0);
    assert_eq!(DROPPED.take(), [1, 4, 5, 2, 7, 8]);
    same_drops!(v, drop(v.drain(2..7)));
    same_drops!(v, drop(v.splice(2..7, (20..23).map(Told))));
    same_drops!(v, {
        let mut rest = std::mem::take(&mut v).into_iter();
        drop((rest.next(), rest.next_back()));
        drop(rest);
    });
    same_drops!(v, drop(std::mem::replace(&mut v, [3, 2, 1].map(Told).into_iter().collect())));
}

macro_rules! at_limits {
    ($test:ident: $($limit:literal)*) => { $( $test::<$limit>(); )* };
}

fn bytes<const N: usize>() {
    let mut random = Random(N as u64 + 21);
    let mut ours: Vec<SmallBytes<N>> = vec![SmallBytes::new(); 8];
    let mut std: Vec<Vec<u8>> = vec![Vec::new(); 8];
    for edit in 0..edits() / (1 + N / 64) {
        let (i, j, byte) = (random.below(8), random.below(8), random.next() as u8);
        let (v, w) = (&mut ours[i], &mut std[i]);
        let (at, range) = (random.below(w.len()), random.range(w.len()));
        let some: Vec<u8> = (0..random.below(2 * N.min(40))).map(|_| random.next() as u8).collect();
        match random.below(16) {
            0..=2 => same!(v, w, push(byte)),
            3 => same!(v, w, pop()),
            4 => same!(v, w, insert(at, byte)),
            5 if !w.is_empty() => same!(v, w, remove(at)),
            6 => same!(v, w, truncate(at + 2)),
            7 => same!(v, w, extend_from_slice(&some)),
            8 if !w.is_empty() => (v.make_mut()[at], w[at]) = (byte, byte),
            9 => *v = SmallBytes::from(w.as_slice()),
            10 => compared([&ours[i], &ours[j]], [&std[i], &std[j]]),
            11 if w.len() < N + 300 => (*v, *w) = (v.repeat(some.len() % 4), w.repeat(some.len() % 4)),
            12 => {
                v.replace_range(range.clone(), &some);
                w.splice(range, some);
            }
            13 if at % 8 == 0 => same!(v, w, clear()),
            14 => v.shrink_to_fit(),
            _ => (ours[j], std[j]) = (ours[i].clone(), std[i].clone()),
        }
        assert_eq!(ours[i], std[i], "edit {edit}");
        assert!(!ours[i].is_inline() || std[i].len() <= N);
    }
    assert!(ours.iter().zip(&std).all(|(v, w)| v == w));
}

#[test]
fn bytes_of_each_limit() {
    at_limits!(bytes: 0 1 2 7 15 23 31 64 127 128 254 257 300 511 4096);
}

/// What is laid out for a constant is what the proved calls make.
fn laid_out<const N: usize>() {
    for len in 0..=N {
        let text: String = (0..len).map(|at| char::from(b'a' + (at % 26) as u8)).collect();
        let (mut constant, mut made) = (SmallText::<N>::inline(&text), SmallText::<N>::from(&text[..]));
        assert!(constant == made && constant.is_inline() && made.is_inline());
        assert_eq!((constant.len(), constant.capacity()), (len, N));
        for _ in 0..3 {
            constant.push('!');
            made.push('!');
            assert_eq!((constant.as_str(), constant.is_inline()), (made.as_str(), made.is_inline()));
        }
        constant.truncate(len);
        assert_eq!(constant, text);
    }
    let long = "x".repeat(N + 1);
    assert!(SmallBytes::<N>::try_inline(long.as_bytes()).is_none() && SmallText::<N>::try_inline(&long).is_none());
}

#[test]
fn constants_are_laid_out_as_the_proved_calls_do() {
    at_limits!(laid_out: 0 1 15 255 256 257 600);
}

#[test]
fn texts() {
    const PARTS: [&str; 9] = ["", "a", "ß", "€", "😀", "hello", "aa", "Ωmega ", "a long piece of text, "];
    let mut random = Random(31);
    let mut ours: Vec<EcoString> = vec![EcoString::new(); 8];
    let mut std: Vec<String> = vec![String::new(); 8];
    for edit in 0..edits() {
        let (i, j) = (random.below(8), random.below(8));
        let (part, to, n) = (PARTS[random.below(9)], PARTS[random.below(9)], random.below(5));
        let (v, w) = (&mut ours[i], &mut std[i]);
        let mut at = random.below(w.len() + 1);
        while !w.is_char_boundary(at) {
            at -= 1;
        }
        match random.below(18) {
            0..=1 => same!(v, w, push_str(part)),
            2 => same!(v, w, push(part.chars().last().unwrap_or('x'))),
            3 => same!(v, w, pop()),
            4 => same!(v, w, insert_str(at, part)),
            5 if at < w.len() => same!(v, w, remove(at)),
            6 => same!(v, w, truncate(at)),
            7 => {
                same!(v, w, replacen(part, to, n));
                if w.len() < 200 {
                    (*v, *w) = (v.replace(part, to), w.replace(part, to));
                }
            }
            8 => {
                same!(v, w, to_uppercase());
                same!(v, w, to_lowercase());
                same!(v, w, to_ascii_uppercase());
                same!(v, w, to_ascii_lowercase());
            }
            9 => compared([&ours[i], &ours[j]], [&std[i], &std[j]]),
            10 => *v = EcoString::from(w.as_str()),
            11 if w.len() < 100 => (*v, *w) = (v.repeat(n), w.repeat(n)),
            12 => (*v, *w) = (w.chars().rev().collect(), w.chars().rev().collect()),
            13 => same!(v, w, replace_range(at.., part)),
            14 => same!(v, w, insert(at, 'ß')),
            15 => same!(v.make_mut(), w, make_ascii_uppercase()),
            _ => (ours[j], std[j]) = (ours[i].clone(), std[i].clone()),
        }
        if std[i].len() > 400 {
            same!(ours[i], std[i], clear());
        }
        assert_eq!(ours[i], std[i], "edit {edit}");
        assert_eq!(format!("{:>30}", ours[i]), format!("{:>30}", std[i]));
    }
}

/// Patterns of few letters in texts of few: each place at which one begins is found, and no other.
#[test]
fn patterns() {
    const LETTERS: [&str; 5] = ["a", "b", "z", "é", " "];
    let mut random = Random(41);
    for _ in 0..edits() {
        let letters = 1 + random.below(5);
        let mut some = |most| (0..random.below(most)).map(|_| LETTERS[random.below(letters)]).collect::<String>();
        let (text, pattern) = (some(300), some(5));
        assert_eq!(EcoString::from(&text).replace(&pattern, "-+"), text.replace(&pattern, "-+"), "{pattern} in {text}");
    }
}

/// Fields beside names and numbers. From 16 names on they have an index; a removal drops it, and 64 further names make it
/// anew.
#[test]
fn fields() {
    let mut random = Random(51);
    let (mut ours, mut std) = (Value::new_fields(), Vec::<(String, i64)>::new());
    let mut kept = (ours.clone(), std.clone());
    for edit in 0..edits() {
        if edit % 2000 == 0 {
            (ours, std) = (Value::new_fields(), Vec::new());
        }
        let is_there = !std.is_empty() && random.below(2) == 0;
        let name = if is_there { std[random.below(std.len())].0.clone() } else { format!("n{}", random.below(3000)) };
        let (at, number) = (std.iter().position(|field| field.0 == name), edit as i64);
        match random.below(if edit % 2000 < 200 { 12 } else { 200 }) {
            0 => assert_eq!(ours.remove_field(&name).ok(), at.map(|at| std.remove(at).1.into())),
            1 => kept = (ours.clone(), std.clone()),
            call if call % 8 == 2 => {
                assert_eq!((ours.push_field(&name, number), std.push((name.clone(), number))), (Ok(()), ()));
            }
            call if call % 2 == 1 => {
                ours.set_field(&name, number).unwrap();
                match at {
                    Some(at) => std[at].1 = number,
                    None => std.push((name.clone(), number)),
                }
            }
            _ => {}
        }
        let found = std.iter().find(|field| field.0 == name).map(|field| field.1.into());
        assert_eq!(ours.get_field(&name).ok(), found, "edit {edit}");
        if edit % 64 == 0 {
            for (ours, std) in [(&ours, &std), (&kept.0, &kept.1)] {
                let pairs = std.iter().map(|(name, number)| (EcoString::from(name), Value::from(*number)));
                assert!(ours.fields().eq(pairs), "edit {edit}");
            }
        }
    }
}
