//! Times tasks of this crate beside the original, std's types and other crates: `peers [ROUNDS]`.
//!
//! It prints a table. A cell is the least of ROUNDS runs, which take turns after a warm one, in
//! nanoseconds where the row names no other unit; the least of a row is bold. Bytes are those that
//! are asked of the allocator.

use bytes::{Bytes, BytesMut};
use dogged::DVec;
use im_rc::Vector;
use kstring::KString;
use proved::EcoTree;
use std::alloc::{GlobalAlloc, Layout, System};
use std::hint::black_box;
use std::ops::Deref;
use std::rc::Rc;
use std::sync::atomic::{AtomicUsize, Ordering::Relaxed};
use std::time::Instant;

const LEN: usize = 100_000;
const EDITS: usize = 1_000;
/// Of a text that is copied whole: 100,000 versions would take 150 GiB.
const EDITS_OF_COPIES: usize = 100;
const CLONES: usize = 1_000;
const APPENDS: usize = 100;
const TEN: &str = "ten letter";
const ALPHABETS: &str = "abcdefghijklmnopqrstuvwxyzabcdefghijklmnopqrstuvwxyz";

/// std's allocator, which counts the bytes that are held.
struct Counting;

static HELD: AtomicUsize = AtomicUsize::new(0);

/// Counts without an atomic step, which would cost time: there is one thread.
fn count(freed: usize, taken: usize) {
    HELD.store(HELD.load(Relaxed) - freed + taken, Relaxed);
}

// SAFETY: std's allocator does all but the counting.
unsafe impl GlobalAlloc for Counting {
    unsafe fn alloc(&self, layout: Layout) -> *mut u8 {
        count(0, layout.size());
        unsafe { System.alloc(layout) }
    }

    unsafe fn dealloc(&self, at: *mut u8, layout: Layout) {
        count(layout.size(), 0);
        unsafe { System.dealloc(at, layout) }
    }

    unsafe fn realloc(&self, at: *mut u8, layout: Layout, size: usize) -> *mut u8 {
        count(layout.size(), size);
        unsafe { System.realloc(at, layout, size) }
    }
}

#[global_allocator]
static COUNTING: Counting = Counting;

unsafe extern "C" {
    /// Gives the system the memory back that malloc keeps for later.
    safe fn malloc_trim(keep: usize) -> i32;
}

/// Nanoseconds of each of the steps that a call makes, and what it gives.
fn timed<R>(steps: usize, call: impl FnOnce() -> R) -> (f64, R) {
    let start = Instant::now();
    let made = black_box(call());
    (start.elapsed().as_nanos() as f64 / steps as f64, made)
}

/// Nanoseconds of a call that is made often, whose result is dropped.
fn repeated<R>(times: usize, mut call: impl FnMut() -> R) -> f64 {
    timed(times, || (0..times).for_each(|_| drop(black_box(call())))).0
}

/// The bytes that are held by what a call makes, and this.
fn held<R>(call: impl FnOnce() -> R) -> (f64, R) {
    let before = HELD.load(Relaxed);
    let made = call();
    ((HELD.load(Relaxed) - before) as f64, made)
}

/// What a column does in a row, and the least that came of it.
struct Cell {
    column: usize,
    run: Box<dyn Fn() -> f64>,
    least: f64,
}

#[derive(Default)]
struct Table {
    columns: Vec<&'static str>,
    rows: Vec<(&'static str, Vec<Cell>)>,
}

impl Table {
    fn column(&mut self, name: &'static str) -> &mut Self {
        self.columns.push(name);
        self
    }

    /// Adds a cell of the last column. The first column has a cell in each row.
    fn add(&mut self, task: &'static str, run: impl Fn() -> f64 + 'static) {
        let column = self.columns.len() - 1;
        if column == 0 {
            self.rows.push((task, Vec::new()));
        }
        let row = self.rows.iter_mut().find(|row| row.0 == task).expect("the task of a row");
        row.1.push(Cell { column, run: Box::new(run), least: f64::INFINITY });
    }

    fn run(&mut self, rounds: usize) {
        for round in 0..=rounds {
            for cell in self.rows.iter_mut().flat_map(|row| &mut row.1) {
                let taken = (cell.run)();
                if round > 0 {
                    cell.least = cell.least.min(taken);
                }
            }
        }
    }

    fn print(&self) {
        println!("| Task (lists have 100,000 numbers) | {} |", self.columns.join(" | "));
        println!("|---|{}", "--:|".repeat(self.columns.len()));
        for (task, cells) in &self.rows {
            let least = cells.iter().map(|cell| cell.least).fold(f64::INFINITY, f64::min);
            let mut texts = vec!["–".to_string(); self.columns.len()];
            for cell in cells {
                let text = digits(cell.least);
                texts[cell.column] =
                    if text == digits(least) { format!("**{text}**") } else { text };
            }
            println!("| {task} | {} |", texts.join(" | "));
        }
    }
}

/// A number with a tenth below ten, and with its thousands apart.
fn digits(number: f64) -> String {
    if number < 9.95 {
        return format!("{number:.1}");
    }
    let mut text = format!("{number:.0}");
    for at in (1..text.len()).rev().filter(|at| (text.len() - at) % 3 == 0).collect::<Vec<_>>() {
        text.insert(at, ',');
    }
    text
}

/// Where edits go, one after another: all over a list, and never twice to a place.
fn places(edits: usize) -> Vec<usize> {
    (0..edits).map(|edit| edit * 61_803 % LEN).collect()
}

/// The sum of the numbers from 0, of which edits have set some to the length.
fn sum_after(edits: usize) -> i64 {
    let added: usize = places(edits).iter().map(|place| LEN - place).sum();
    (LEN * (LEN - 1) / 2 + added) as i64
}

/// Adds the tasks of lists, of a type whose calls are given.
fn lists<L: Clone + 'static>(
    table: &mut Table,
    new: fn() -> L,
    push: impl Fn(&mut L, i64) + Copy + 'static,
    set: impl Fn(&mut L, usize, i64) + Copy + 'static,
    sum: impl Fn(&L) -> i64 + Copy + 'static,
) {
    let make = move || {
        let mut list = new();
        (0..LEN as i64).for_each(|number| push(&mut list, number));
        list
    };
    let edit = move |list: &mut L, at: usize| set(list, at, LEN as i64);
    let versions = move |first: L, places: &[usize]| {
        let mut versions = Vec::with_capacity(EDITS + 1);
        versions.push(first);
        for (before, &at) in places.iter().enumerate() {
            let mut next = versions[before].clone();
            edit(&mut next, at);
            versions.push(next);
        }
        versions
    };
    table.add("1,000 edits of a list, each kept as a version: an edit", move || {
        let (first, places) = (make(), places(EDITS));
        // What is kept takes new memory.
        malloc_trim(0);
        let (time, versions) = timed(EDITS, || versions(first, &places));
        assert_eq!([0, EDITS].map(|at| sum(&versions[at])), [0, EDITS].map(sum_after));
        time
    });
    table.add("the same: memory of all versions, MiB", move || {
        let places = places(EDITS);
        held(|| versions(make(), &places)).0 / f64::from(1 << 20)
    });
    table.add("edits in place, of a list that nobody shares: an edit", move || {
        let (mut list, places) = (make(), places(LEN));
        let (time, ()) = timed(LEN, || places.iter().for_each(|&at| edit(&mut list, at)));
        assert_eq!(sum(&list), sum_after(LEN));
        time
    });
    table.add("a list cloned, the clone dropped", move || {
        let list = make();
        repeated(CLONES, || black_box(&list).clone())
    });
    table.add("a list made by pushes: a push", move || {
        let (time, list) = timed(LEN, make);
        assert_eq!(sum(&list), sum_after(0));
        time
    });
    table.add("the sum of a list by iteration: a number", move || {
        let list = make();
        repeated(10, || assert_eq!(sum(black_box(&list)), sum_after(0))) / LEN as f64
    });
}

/// Adds the program of an editor: lines of a text are replaced all over, so often, and each version
/// is kept for undo.
fn undo<L: Clone + 'static, T: Deref<Target = str> + 'static>(
    table: &mut Table,
    edits: usize,
    line: fn(&str) -> T,
    push: impl Fn(&mut L, T) + Copy + 'static,
    set: impl Fn(&mut L, usize, T) + Copy + 'static,
    get: impl for<'a> Fn(&'a L, usize) -> &'a str + Copy + 'static,
    new: fn() -> L,
) {
    let make = move || {
        let mut text = new();
        (0..LEN).for_each(|number| push(&mut text, line(&ALPHABETS[number % 26..][..TEN.len()])));
        text
    };
    let edited = move |mut text: L| {
        let mut versions = Vec::with_capacity(edits);
        for at in places(edits) {
            versions.push(text.clone());
            set(&mut text, at, line(black_box(TEN)));
        }
        for (at, version) in places(edits).into_iter().zip(&versions) {
            assert_eq!([get(version, at), get(&text, at)], [&ALPHABETS[at % 26..][..TEN.len()], TEN]);
        }
        (text, versions)
    };
    table.add("100,000 edits of a text of 100,000 lines, each kept: an edit", move || {
        let text = make();
        malloc_trim(0);
        timed(edits, || edited(text)).0
    });
    table.add("the same: memory of an edit, bytes", move || {
        let text = make();
        held(|| edited(text)).0 / edits as f64
    });
}

/// Adds the task of lists that are compared.
fn equality<L: Clone + PartialEq + 'static>(table: &mut Table, make: fn(Vec<i64>) -> L) {
    table.add("a list compared with its clone", move || {
        let list = make((0..LEN as i64).collect());
        let clone = list.clone();
        repeated(CLONES, || assert!(black_box(&list) == black_box(&clone)))
    });
}

/// Adds the tasks of texts.
fn texts<T>(table: &mut Table, make: impl Fn(&str) -> T + Copy + 'static)
where
    T: Clone + Deref<Target: AsRef<[u8]>> + 'static,
{
    let slices = || (0..LEN).map(|number| &black_box(ALPHABETS)[number % 26..][..TEN.len()]);
    let all = move || slices().map(make).collect::<Vec<T>>();
    table.add("100,000 texts of ten letters made of slices: a text", move || {
        let (time, texts) = timed(LEN, all);
        assert!(texts.iter().map(|text| text.as_ref()).eq(slices().map(str::as_bytes)));
        time
    });
    table.add("the same: memory of a text, bytes", move || held(all).0 / LEN as f64);
    let clones = move |len: usize| {
        let text = make(&TEN.repeat(len / TEN.len()));
        assert_eq!(text.as_ref().len(), len);
        repeated(CLONES, || black_box(&text).clone())
    };
    table.add("a text of ten letters cloned, the clone dropped", move || clones(10));
    table.add("the same with a text of 1,000 letters", move || clones(1000));
}

/// Adds the task of texts that grow.
fn appends<T>(table: &mut Table, append: impl Fn(&mut T, &str) + Copy + 'static)
where
    T: Default + Deref<Target: AsRef<[u8]>>,
{
    table.add("a text made by 100 appends of ten letters: an append", move || {
        let made = || {
            let mut text = T::default();
            (0..APPENDS).for_each(|_| append(&mut text, black_box(TEN)));
            assert_eq!(text.as_ref().len(), APPENDS * TEN.len());
            text
        };
        repeated(CLONES, made) / APPENDS as f64
    });
}

macro_rules! ecow {
    ($table:expr, $name:literal, $ecow:ident) => {{
        use $ecow::{EcoString, EcoVec};
        let table = $table.column($name);
        lists(
            table,
            EcoVec::new,
            EcoVec::push,
            |list, at, number| list.make_mut()[at] = number,
            |list| list.iter().sum(),
        );
        undo(
            table,
            EDITS_OF_COPIES,
            |line| EcoString::from(line),
            EcoVec::push,
            |text, at, line| text.make_mut()[at] = line,
            |text, at| &text[at],
            EcoVec::new,
        );
        equality(table, EcoVec::from);
        texts(table, |letters| EcoString::from(letters));
        appends(table, EcoString::push_str);
    }};
}

fn main() {
    let rounds = std::env::args().nth(1).map_or(15, |rounds| rounds.parse().expect("ROUNDS"));
    let mut table = Table::default();
    ecow!(table, "This crate", proved);
    let tree = table.column("Its `EcoTree`");
    lists(tree, EcoTree::new, EcoTree::push, EcoTree::set, |list| list.chunks().flatten().sum());
    undo(
        tree,
        LEN,
        |line| proved::EcoString::from(line),
        EcoTree::push,
        EcoTree::set,
        |text, at| &text[at],
        EcoTree::new,
    );
    equality(tree, |numbers| numbers.into_iter().collect::<EcoTree<i64>>());

    ecow!(table, "The original", original);

    let std = table.column("`Vec`, `String`");
    lists(
        std,
        Vec::new,
        Vec::push,
        |list, at, number| list[at] = number,
        |list| list.iter().sum(),
    );
    undo(
        std,
        EDITS_OF_COPIES,
        |line| String::from(line),
        Vec::push,
        |text, at, line| text[at] = line,
        |text, at| &text[at],
        Vec::new,
    );
    equality(std, |numbers| numbers);
    texts(std, |letters| String::from(letters));
    appends(std, String::push_str);

    let shared = table.column("`Rc<Vec>`, `Rc<str>`");
    lists(
        shared,
        Rc::<Vec<i64>>::default,
        |list, number| Rc::make_mut(list).push(number),
        |list, at, number| Rc::make_mut(list)[at] = number,
        |list| list.iter().sum(),
    );
    undo(
        shared,
        EDITS_OF_COPIES,
        |line| Rc::<str>::from(line),
        |text, line| Rc::make_mut(text).push(line),
        |text, at, line| Rc::make_mut(text)[at] = line,
        |text, at| &text[at],
        Rc::<Vec<_>>::default,
    );
    equality(shared, Rc::new);
    texts(shared, |letters| Rc::<str>::from(letters));

    let tree = table.column("`im_rc::Vector`");
    lists(
        tree,
        Vector::new,
        Vector::push_back,
        |list, at, number| list[at] = number,
        |list| list.iter().sum(),
    );
    undo(
        tree,
        LEN,
        |line| Rc::<str>::from(line),
        Vector::push_back,
        |text, at, line| text[at] = line,
        |text, at| &text[at],
        Vector::new,
    );
    equality(tree, Vector::from);

    // It has no iterator and no equality.
    let tree = table.column("`dogged::DVec`");
    lists(
        tree,
        DVec::new,
        DVec::push,
        |list, at, number| list[at] = number,
        |list| (0..list.len()).map(|at| list[at]).sum(),
    );
    undo(
        tree,
        LEN,
        |line| Rc::<str>::from(line),
        DVec::push,
        |text, at, line| text[at] = line,
        |text, at| &text[at],
        DVec::new,
    );

    texts(table.column("`KString`"), KString::from_ref);

    let bytes = table.column("`Bytes`, `BytesMut`");
    texts(bytes, |letters| Bytes::copy_from_slice(letters.as_bytes()));
    appends(bytes, |text: &mut BytesMut, more| text.extend_from_slice(more.as_bytes()));

    table.run(rounds);
    table.print();
}
