//! The same calls of the original and of the proved crate, by turns: nanoseconds of the processor a call, the least of the
//! samples of each, and the ratio of these: so other programs disturb little. `rust-bench [SAMPLES [WORD]]`, on Linux.

use std::hint::black_box;
use std::time::Duration;

#[repr(C)]
struct Time {
    seconds: i64,
    nanoseconds: i64,
}

unsafe extern "C" {
    fn clock_gettime(clock: i32, time: *mut Time) -> i32;
}

/// For how long this thread has run.
fn now() -> Duration {
    let mut time = Time { seconds: 0, nanoseconds: 0 };
    // SAFETY: the clock 3 of Linux is the thread's, and there is room for the time.
    assert_eq!(unsafe { clock_gettime(3, &mut time) }, 0);
    Duration::new(time.seconds as u64, time.nanoseconds as u32)
}

type Row = (&'static str, Box<dyn FnMut(Duration) -> f64>);

/// Times `call` on fresh states for about a span; nanoseconds of each of its `per` calls.
fn fresh<S: 'static>(name: &'static str, per: usize, mut make: impl FnMut() -> S + 'static, mut call: impl FnMut(&mut S) + 'static) -> Row {
    let timed = move |span| {
        let (mut spent, mut done) = (Duration::ZERO, 0);
        while spent < span {
            let start = now();
            let mut state = make();
            call(&mut state);
            let batch = (200_000 / (now() - start).as_nanos().max(1)).clamp(1, 256) as usize;
            let mut states: Vec<S> = (0..batch).map(|_| make()).collect();
            let start = now();
            states.iter_mut().for_each(&mut call);
            spent += now() - start;
            done += batch;
            black_box(&states);
        }
        spent.as_nanos() as f64 / (done * per) as f64
    };
    (name, Box::new(timed))
}

/// Times `call` on one state, likewise.
fn again<S: 'static, R>(name: &'static str, per: usize, mut state: S, mut call: impl FnMut(&mut S) -> R + 'static) -> Row {
    let timed = move |span| {
        let mut count = 64usize;
        loop {
            let start = now();
            for _ in 0..count {
                black_box(call(black_box(&mut state)));
            }
            let spent = now() - start;
            if spent >= span / 2 {
                return spent.as_nanos() as f64 / (count * per) as f64;
            }
            count *= 2;
        }
    };
    (name, Box::new(timed))
}

macro_rules! rows {
    ($module:ident, $ecow:ident) => {
        mod $module {
            use super::{Row, again, black_box, fresh};
            use $ecow::{EcoBytes, EcoString, EcoVec};
            use std::hash::{BuildHasher, BuildHasherDefault, DefaultHasher};

            const MANY: usize = 1_000_000;

            fn numbers() -> EcoVec<u64> {
                (0..1000u64).map(|n| n.wrapping_mul(0x9E3779B97F4A7C15)).collect()
            }

            pub fn rows() -> Vec<Row> {
                let words: Vec<String> = (0..100).map(|n| format!("a text of some bytes, number {n}")).collect();
                let (seven, forty) = ("seven b", "forty bytes of text stand in this piece.");
                let mega = "the quick brown fox jumps over the lazy dog 0123456789 ABCDEFG ".repeat(17000);
                let (seven_text, forty_text, mega_text) = (EcoString::from(seven), EcoString::from(forty), EcoString::from(&mega));
                let all = EcoVec::from((0..MANY as u64).collect::<Vec<_>>());
                let owned = words.clone();
                vec![
                    fresh("vector: push, 10^6 u64", MANY, EcoVec::<u64>::new, |v| (0..MANY as u64).for_each(|n| v.push(black_box(n)))),
                    fresh("vector: push, 1000 u64", 1000, EcoVec::<u64>::new, |v| (0..1000).for_each(|n| v.push(black_box(n)))),
                    fresh("vector: push, 1000 u8", 1000, EcoVec::<u8>::new, |v| (0..1000).for_each(|n| v.push(black_box(n as u8)))),
                    fresh("vector: push, 100 String, with room", 100, move || (EcoVec::with_capacity(100), owned.clone()), |(v, s)| {
                        while let Some(word) = s.pop() {
                            v.push(word)
                        }
                    }),
                    fresh("vector: pop, from 1000", 1000, numbers, |v| while let Some(n) = v.pop() { black_box(n); }),
                    again("vector: clone and drop, 10^6 u64", 1, all.clone(), |v| v.clone()),
                    again("vector: clone and drop, 100 String", 1, EcoVec::from(&words[..]), |v| v.clone()),
                    again("vector: clone, push, 1000", 1, numbers(), |v| { let mut c = v.clone(); c.push(1); c }),
                    again("vector: clone, write, 1000", 1, numbers(), |v| { let mut c = v.clone(); c.make_mut()[3] = 5; c }),
                    again("vector: clone, write, 10", 1, EcoVec::from(&numbers()[..10]), |v| { let mut c = v.clone(); c.make_mut()[3] = 5; c }),
                    again("vector: clone, push, 100 String", 1, EcoVec::from(&words[..]), |v| { let mut c = v.clone(); c.push(String::new()); c }),
                    again("vector: write, sole", 1, numbers(), |v| { v.make_mut()[3] ^= 5; v[4] }),
                    again("vector: insert and remove at 500 of 1000", 1, numbers(), |v| { v.insert(500, 7); v.remove(500) }),
                    again("vector: extend_from_slice of 1000", 1, numbers(), |s| { let mut v = EcoVec::new(); v.extend_from_slice(s); v }),
                    again("vector: from [1, 2, 3] and drop", 1, (), |_| EcoVec::from([1u64, 2, 3])),
                    again("vector: collect 1000 u64", 1, 1000u64, |n| (0..*n).collect::<EcoVec<u64>>()),
                    fresh("vector: retain every second of 1000", 1, numbers, |v| { let mut n = 0; v.retain(|_| { n += 1; n % 2 == 0 }) }),
                    fresh("vector: drain 400..600 of 1000, all taken", 1, numbers, |v| { black_box(v.drain(400..600).fold(0, |a, n| a ^ n)); }),
                    fresh("vector: splice 400..410 of 1000 by 20", 1, || (numbers(), [7u64; 20]), |(v, s)| { v.splice(400..410, s.iter().copied()); }),
                    fresh("vector: truncate 1000 to 500, sole", 1, numbers, |v| v.truncate(500)),
                    again("vector: clone, truncate 1000 to 500", 1, numbers(), |v| { let mut c = v.clone(); c.truncate(500); c }),
                    again("vector: iterate by reference (an item)", 1000, numbers(), |v| v.iter().fold(0u64, |a, n| a ^ n.rotate_left(3))),
                    again("vector: index (an item)", 1000, numbers(), |v| (0..v.len()).fold(0, |a, at| a ^ v[at].rotate_left(3))),
                    again("vector: len of 100 vectors (a vector)", 100, vec![numbers(); 100], |v| v.iter().map(|v| v.len()).sum::<usize>()),
                    fresh("vector: into_iter, 1000 sole", 1, || Some(numbers()), |v| { black_box(v.take().unwrap().into_iter().fold(0, |a, n| a ^ n)); }),
                    again("vector: clone, into_iter, 1000 shared", 1, numbers(), |v| v.clone().into_iter().fold(0, |a, n| a ^ n)),
                    again("vector: equality of 1000 u64", 1, (numbers(), numbers()), |p| p.0 == p.1),
                    again("vector: from_elem, 1000 u64", 1, (), |_| EcoVec::from_elem(7u64, 1000)),
                    fresh("bytes: push, 10^6", MANY, EcoBytes::new, |b| (0..MANY).for_each(|_| b.push(black_box(7)))),
                    again("text: of a str of 7, and drop", 1, seven, |t| EcoString::from(*t)),
                    again("text: of a str of 40, and drop", 1, forty, |t| EcoString::from(*t)),
                    again("text: clone and drop, 7 bytes", 1, seven_text.clone(), |t| t.clone()),
                    again("text: clone and drop, 40 bytes", 1, forty_text.clone(), |t| t.clone()),
                    fresh("text: push 12 letters, inline (a letter)", 12, EcoString::new, |t| (0..12).for_each(|_| t.push(black_box('a')))),
                    fresh("text: push 10^6 letters", MANY, EcoString::new, |t| (0..MANY).for_each(|_| t.push(black_box('a')))),
                    fresh("text: push_str of 16, to 1 MB", 65536, EcoString::new, |t| (0..65536).for_each(|_| t.push_str(black_box("sixteen bytes ..")))),
                    again("text: equality, 7 bytes", 1, (seven_text.clone(), EcoString::from(seven)), |p| p.0 == p.1),
                    again("text: equality, 40 bytes", 1, (forty_text.clone(), EcoString::from(forty)), |p| p.0 == p.1),
                    again("text: order, 7 bytes", 1, (seven_text.clone(), EcoString::from(seven)), |p| p.0.cmp(&p.1)),
                    again("text: as_str().len(), 7 bytes", 1, seven_text.clone(), |t| t.as_str().len()),
                    again("text: hash, 7 bytes", 1, seven_text.clone(), |t| BuildHasherDefault::<DefaultHasher>::default().hash_one(t)),
                    again("text: bytes of 100 summed (a text)", 100, vec![seven_text.clone(); 100], |v| {
                        v.iter().map(|t| t.bytes().map(u64::from).sum::<u64>()).sum::<u64>()
                    }),
                    again("text: sort 1000 short", 1, (0..1000).map(|n| EcoString::from(format!("t{}", n * 7919 % 1000))).collect::<Vec<_>>(), |v| {
                        let mut sorted = v.clone();
                        sorted.sort();
                        sorted
                    }),
                    again("text: repeat 3 bytes 5 times", 1, EcoString::from("abc"), |t| EcoString::repeat(t, 5)),
                    again("text: insert 3 at 512 of 1024, remove 3", 1, EcoString::from(&mega[..1024]), |t| {
                        t.insert_str(512, "abc");
                        (t.remove(512), t.remove(512), t.remove(512))
                    }),
                    again("text: replace ' ' in 1 MB", 1, mega_text.clone(), |t| EcoString::replace(t, " ", "__")),
                    again("text: replace an absent word in 1 MB", 1, mega_text, |t| EcoString::replace(t, "walrus", "-")),
                    again("text: eco_format! of two numbers", 1, (12, 3456), |p| $ecow::eco_format!("{} and {}", p.0, p.1)),
                ]
            }
        }
    };
}

rows!(of_original, original);
rows!(of_proved, proved);

fn main() {
    let mut words = std::env::args().skip(1);
    let samples = words.next().map_or(15, |count| count.parse().expect("SAMPLES is a number"));
    let word = words.next().unwrap_or_default();
    let span = Duration::from_millis(4);
    println!("| Call | The original, ns | This | Ratio |\n|---|---|---|---|");
    let (mut logs, mut most) = (Vec::new(), 0f64);
    for ((name, mut theirs), (_, mut ours)) in of_original::rows().into_iter().zip(of_proved::rows()) {
        if !name.contains(&word) {
            continue;
        }
        let (mut other, mut own) = (f64::INFINITY, f64::INFINITY);
        for _ in 0..samples {
            other = other.min(theirs(span));
            own = own.min(ours(span));
        }
        let ratio = own / other;
        println!("| {name} | {other:.2} | {own:.2} | {ratio:.2} |");
        logs.push(ratio.ln());
        most = most.max(ratio);
    }
    let mean = (logs.iter().sum::<f64>() / logs.len() as f64).exp();
    println!("\nThe geometric mean of {} ratios is {mean:.2}, and the greatest {most:.2}.", logs.len());
}
