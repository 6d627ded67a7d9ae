//! Times the loops of `ecow_bench` beside the same loops on the original crate, those of lists also on `Rc<Vec<T>>`. Each is
//! run in a process of its own, by turns, and what counts is the least processor time of so many runs, less that of a run of
//! no rounds.
//! `bench PROGRAM [SAMPLES [WORD [FOLDER]]]`: PROGRAM is the built `ecow_bench`; WORD keeps the calls and workloads whose name
//! holds it; FOLDER gets a picture of how times grow with the length.
//! `bench WHICH CALL ELEMENT LENGTH COUNT` goes round one loop, as PROGRAM does without the first word, and prints what it
//! saw; WHICH is `ecow` or `rc`. Where ELEMENT is `workload`, CALL is a whole program of those two sizes.
mod curves;
mod lists;
mod workloads;

use ecow::{EcoBytes, EcoString, eco_format};
use std::cmp::Ordering;
use std::hash::{DefaultHasher, Hash, Hasher};
use std::hint::black_box;
use std::io::Read;
use std::process::{Command, Stdio};

type ByteLoop = fn(&[u8], u64) -> u64;
type TextLoop = fn(&str, u64) -> u64;

/// What the calls of bytes are named on the command line and in the table, and the lengths they are timed at.
const BYTE_CALLS: [(&str, &str, &[usize], ByteLoop); 9] = [
    ("bytes_from_slice", "bytes: from slice", &[7, 15, 40, 1000], bytes_from_slice),
    ("bytes_push", "bytes: push each", &[14, 20], bytes_push),
    ("bytes_clone", "bytes: clone and drop", &[7, 40], bytes_clone),
    ("bytes_extend", "bytes: extend ten times", &[1, 8, 100], bytes_extend),
    ("bytes_eq", "bytes: equality", &[7, 40, 1000], bytes_eq),
    ("bytes_cmp", "bytes: order", &[7, 40, 1000], bytes_cmp),
    ("bytes_repeat", "bytes: repeat 1000 times", &[40], bytes_repeat),
    ("bytes_insert_slice", "bytes: insert slice", &[7, 40, 1000], bytes_insert_slice),
    ("bytes_hash", "bytes: hash", &[7, 40, 1000], bytes_hash),
];

/// The same of texts.
const TEXT_CALLS: [(&str, &str, &[usize], TextLoop); 16] = [
    ("text_from_str", "text: from str", &[7, 15, 40], text_from_str),
    ("text_clone", "text: clone and drop", &[7, 40], text_clone),
    ("text_push_a", "text: push 'a'", &[14, 40], |text, count| text_push('a', text, count)),
    ("text_push_e", "text: push 'é'", &[7, 40], |text, count| text_push('é', text, count)),
    ("text_push_str", "text: push_str ten times", &[1, 16, 100], text_push_str),
    ("text_pop", "text: pop, push back", &[7, 40], text_pop),
    ("text_insert_str", "text: insert_str in the middle", &[7, 40], text_insert_str),
    ("text_eq", "text: equality", &[7, 40], text_eq),
    ("text_cmp", "text: order", &[7, 40], text_cmp),
    ("text_hash", "text: hash", &[7, 40], text_hash),
    ("text_replace_rare", "text: replace what is rare", &[1_000_000], |text, count| text_replace("qzx", text, count)),
    ("text_replace_often", "text: replace what is frequent", &[1_000_000], |text, count| text_replace("v", text, count)),
    ("text_to_uppercase", "text: to_uppercase", &[1_000_000], text_to_uppercase),
    ("text_repeat", "text: repeat 1000 times", &[40], text_repeat),
    ("text_format", "text: eco_format! of three", &[6], text_format),
    ("text_to_eco_string", "text: to_eco_string", &[1], text_to_eco_string),
];

#[inline(never)]
fn bytes_of(bytes: &[u8]) -> EcoBytes {
    EcoBytes::from(bytes)
}

#[inline(never)]
fn seen_bytes(bytes: &EcoBytes) -> u64 {
    let all = bytes.as_slice();
    all.last().map_or(0, |byte| all.len() as u64 + u64::from(*byte))
}

fn bytes_from_slice(bytes: &[u8], count: u64) -> u64 {
    let odd = bytes_of(bytes);
    let mut sum = 0u64;
    for round in 0..count {
        let bytes = if round % 2 == 0 { bytes } else { odd.as_slice() };
        sum = sum.wrapping_add(seen_bytes(&bytes_of(bytes)));
    }
    sum
}

#[inline(never)]
fn pushed(bytes: &[u8]) -> EcoBytes {
    let mut made = EcoBytes::new();
    for byte in bytes {
        made.push(*byte);
    }
    made
}

fn bytes_push(bytes: &[u8], count: u64) -> u64 {
    let mut sum = 0u64;
    for _ in 0..count {
        sum = sum.wrapping_add(pushed(bytes).len() as u64);
    }
    sum
}

fn bytes_clone(bytes: &[u8], count: u64) -> u64 {
    let (even, odd) = (bytes_of(bytes), bytes_of(bytes));
    let mut sum = 0u64;
    for round in 0..count {
        let made = if round % 2 == 0 { &even } else { &odd };
        sum = sum.wrapping_add(seen_bytes(&made.clone()));
    }
    sum
}

#[inline(never)]
fn extended(bytes: &[u8]) -> EcoBytes {
    let mut made = EcoBytes::new();
    for _ in 0..10 {
        made.extend_from_slice(bytes);
    }
    made
}

fn bytes_extend(bytes: &[u8], count: u64) -> u64 {
    let mut sum = 0u64;
    for _ in 0..count {
        sum = sum.wrapping_add(extended(bytes).len() as u64);
    }
    sum
}

#[inline(never)]
fn same(left: &EcoBytes, right: &EcoBytes) -> bool {
    left == right
}

fn bytes_eq(bytes: &[u8], count: u64) -> u64 {
    let made = bytes_of(bytes);
    let (even, odd) = (bytes_of(bytes), bytes_of(bytes));
    let mut sum = 0u64;
    for round in 0..count {
        let other = if round % 2 == 0 { &even } else { &odd };
        if same(&made, other) {
            sum = sum.wrapping_add(round);
        }
    }
    sum
}

#[inline(never)]
fn compared(left: &EcoBytes, right: &EcoBytes) -> Ordering {
    left.cmp(right)
}

fn bytes_cmp(bytes: &[u8], count: u64) -> u64 {
    let made = bytes_of(bytes);
    let (even, odd) = (bytes_of(bytes), bytes_of(bytes));
    let mut sum = 0u64;
    for round in 0..count {
        let other = if round % 2 == 0 { &even } else { &odd };
        if compared(&made, other).is_eq() {
            sum = sum.wrapping_add(round);
        }
    }
    sum
}

fn bytes_repeat(bytes: &[u8], count: u64) -> u64 {
    let made = bytes_of(bytes);
    let mut sum = 0u64;
    for _ in 0..count {
        sum = sum.wrapping_add(made.repeat(1000).len() as u64);
    }
    sum
}

#[inline(never)]
fn inserted(made: &mut EcoBytes, bytes: &[u8]) {
    let middle = made.len() / 2;
    made.insert_slice(middle, bytes);
}

fn bytes_insert_slice(bytes: &[u8], count: u64) -> u64 {
    let mut made = bytes_of(bytes);
    let mut sum = 0u64;
    for _ in 0..count {
        inserted(&mut made, bytes);
        sum = sum.wrapping_add(made.len() as u64);
        made.truncate(bytes.len());
    }
    sum
}

#[inline(never)]
fn hashed(bytes: &EcoBytes) -> u64 {
    let mut hasher = DefaultHasher::new();
    bytes.hash(&mut hasher);
    hasher.finish()
}

fn bytes_hash(bytes: &[u8], count: u64) -> u64 {
    let (even, odd) = (bytes_of(bytes), bytes_of(bytes));
    let mut sum = 0u64;
    for round in 0..count {
        let made = if round % 2 == 0 { &even } else { &odd };
        sum = sum.wrapping_add(hashed(made));
    }
    sum
}

#[inline(never)]
fn text_of(text: &str) -> EcoString {
    EcoString::from(text)
}

#[inline(never)]
fn seen(text: &EcoString) -> u64 {
    let all = text.as_bytes();
    all.last().map_or(0, |byte| all.len() as u64 + u64::from(*byte))
}

fn text_from_str(text: &str, count: u64) -> u64 {
    let odd = text_of(text);
    let mut sum = 0u64;
    for round in 0..count {
        let text = if round % 2 == 0 { text } else { odd.as_str() };
        sum = sum.wrapping_add(seen(&text_of(text)));
    }
    sum
}

fn text_clone(text: &str, count: u64) -> u64 {
    let (even, odd) = (text_of(text), text_of(text));
    let mut sum = 0u64;
    for round in 0..count {
        let made = if round % 2 == 0 { &even } else { &odd };
        sum = sum.wrapping_add(seen(&made.clone()));
    }
    sum
}

#[inline(never)]
fn pushed_text(c: char, times: usize) -> EcoString {
    let mut made = EcoString::new();
    for _ in 0..times {
        made.push(c);
    }
    made
}

fn text_push(c: char, text: &str, count: u64) -> u64 {
    let mut sum = 0u64;
    for _ in 0..count {
        sum = sum.wrapping_add(pushed_text(c, text.len()).len() as u64);
    }
    sum
}

#[inline(never)]
fn extended_text(text: &str) -> EcoString {
    let mut made = EcoString::new();
    for _ in 0..10 {
        made.push_str(text);
    }
    made
}

fn text_push_str(text: &str, count: u64) -> u64 {
    let mut sum = 0u64;
    for _ in 0..count {
        sum = sum.wrapping_add(extended_text(text).len() as u64);
    }
    sum
}

#[inline(never)]
fn popped(made: &mut EcoString) -> Option<char> {
    made.pop()
}

fn text_pop(text: &str, count: u64) -> u64 {
    let mut made = text_of(text);
    let mut sum = 0u64;
    for _ in 0..count {
        if let Some(c) = popped(&mut made) {
            sum = sum.wrapping_add(u64::from(u32::from(c)));
            made.push(c);
        }
    }
    sum
}

#[inline(never)]
fn inserted_text(made: &mut EcoString) {
    let middle = made.len() / 2;
    made.insert_str(middle, "..");
}

fn text_insert_str(text: &str, count: u64) -> u64 {
    let mut made = text_of(text);
    let mut sum = 0u64;
    for _ in 0..count {
        inserted_text(&mut made);
        sum = sum.wrapping_add(made.len() as u64);
        made.truncate(text.len());
    }
    sum
}

#[inline(never)]
fn same_text(left: &EcoString, right: &EcoString) -> bool {
    left == right
}

fn text_eq(text: &str, count: u64) -> u64 {
    let made = text_of(text);
    let (even, odd) = (text_of(text), text_of(text));
    let mut sum = 0u64;
    for round in 0..count {
        let other = if round % 2 == 0 { &even } else { &odd };
        if same_text(&made, other) {
            sum = sum.wrapping_add(round);
        }
    }
    sum
}

#[inline(never)]
fn compared_text(left: &EcoString, right: &EcoString) -> Ordering {
    left.cmp(right)
}

fn text_cmp(text: &str, count: u64) -> u64 {
    let made = text_of(text);
    let (even, odd) = (text_of(text), text_of(text));
    let mut sum = 0u64;
    for round in 0..count {
        let other = if round % 2 == 0 { &even } else { &odd };
        if compared_text(&made, other).is_eq() {
            sum = sum.wrapping_add(round);
        }
    }
    sum
}

#[inline(never)]
fn hashed_text(text: &EcoString) -> u64 {
    let mut hasher = DefaultHasher::new();
    text.hash(&mut hasher);
    hasher.finish()
}

fn text_hash(text: &str, count: u64) -> u64 {
    let (even, odd) = (text_of(text), text_of(text));
    let mut sum = 0u64;
    for round in 0..count {
        let made = if round % 2 == 0 { &even } else { &odd };
        sum = sum.wrapping_add(hashed_text(made));
    }
    sum
}

fn text_replace(pattern: &str, text: &str, count: u64) -> u64 {
    let made = text_of(text);
    let mut sum = 0u64;
    for _ in 0..count {
        sum = sum.wrapping_add(made.replace(pattern, "...").len() as u64);
    }
    sum
}

fn text_to_uppercase(text: &str, count: u64) -> u64 {
    let made = text_of(text);
    let mut sum = 0u64;
    for _ in 0..count {
        sum = sum.wrapping_add(made.to_uppercase().len() as u64);
    }
    sum
}

fn text_repeat(text: &str, count: u64) -> u64 {
    let made = text_of(text);
    let mut sum = 0u64;
    for _ in 0..count {
        sum = sum.wrapping_add(made.repeat(1000).len() as u64);
    }
    sum
}

#[inline(never)]
fn formatted(text: &str, number: u64) -> usize {
    eco_format!("{text} {text} {number}").len()
}

fn text_format(text: &str, count: u64) -> u64 {
    let mut sum = 0u64;
    for round in 0..count {
        sum = sum.wrapping_add(formatted(text, round % 1000) as u64);
    }
    sum
}

#[inline(never)]
fn printed(number: u64) -> usize {
    use ecow::string::ToEcoString;
    number.to_eco_string().len()
}

fn text_to_eco_string(_text: &str, count: u64) -> u64 {
    let mut sum = 0u64;
    for round in 0..count {
        sum = sum.wrapping_add(printed(round % 1000000) as u64);
    }
    sum
}

/// Numbers in no order, after one large block was given back.
fn numbers(length: usize) -> Vec<u64> {
    drop(black_box(Vec::<u8>::with_capacity(32505856)));
    let mut state = 88172645463325252u64;
    let mut next = || {
        state ^= state << 13;
        state ^= state >> 7;
        state ^= state << 17;
        state
    };
    (0..length).map(|_| next()).collect()
}

/// As many lower case letters as there are numbers.
fn prose(items: &[u64]) -> String {
    items.iter().map(|item| char::from(b'a' + (item % 26) as u8)).collect()
}

/// As many bytes as there are numbers.
fn letters(items: &[u64]) -> Vec<u8> {
    items.iter().map(|item| (item % 251) as u8).collect()
}

#[repr(C)]
#[derive(Default)]
struct Usage {
    user: [i64; 2],
    system: [i64; 2],
    rest: [i64; 14],
}

unsafe extern "C" {
    fn wait4(process: i32, status: *mut i32, options: i32, usage: *mut Usage) -> i32;
}

/// What one run of a program printed, its processor time in nanoseconds, and the most memory that it had, in MiB.
fn measured(program: &[&str], words: &[String]) -> (String, [f64; 2]) {
    let mut child = Command::new(program[0]).args(&program[1..]).args(words).stdout(Stdio::piped()).spawn().unwrap();
    let mut printed = String::new();
    child.stdout.take().unwrap().read_to_string(&mut printed).unwrap();
    let (process, mut status, mut usage) = (child.id() as i32, 0, Usage::default());
    assert_eq!(unsafe { wait4(process, &mut status, 0, &mut usage) }, process);
    assert_eq!(status, 0);
    let time = (usage.user[0] + usage.system[0]) as f64 * 1e9 + (usage.user[1] + usage.system[1]) as f64 * 1e3;
    (printed, [time, usage.rest[0] as f64 / 1024.0])
}

/// What one run of a program printed, and its processor time.
fn run(program: &[&str], words: &[String]) -> (String, f64) {
    let (printed, [time, _memory]) = measured(program, words);
    (printed, time)
}

/// The least processor times of one round of each program, in nanoseconds. The first program is this, the second the original.
fn least(programs: &[&[&str]], call: &str, element: &str, length: usize, samples: u32) -> Vec<f64> {
    let words = |count: u64| [call, element, &length.to_string(), &count.to_string()].map(str::to_string);
    // The fastest program goes round for some milliseconds too: what a run takes without a call differs by one or two.
    let lasts = |program: &[&str], count: u64, long: f64| {
        let none = run(program, &words(0)).1;
        run(program, &words(count)).1 - none >= long.max(none / 2.0)
    };
    let mut count = 1u64;
    while !lasts(programs[1], count, 2e7) || !programs.iter().all(|program| lasts(program, count, 8e6)) {
        count *= 2;
    }
    let answers: Vec<String> = programs.iter().map(|program| run(program, &words(count)).0).collect();
    assert!(answers.iter().all(|answer| *answer == answers[0]), "{call} saw something else: {answers:?}");
    let mut least = vec![[f64::INFINITY; 2]; programs.len()];
    for _ in 0..samples {
        for (program, least) in programs.iter().zip(&mut least) {
            least[0] = least[0].min(run(program, &words(0)).1);
            least[1] = least[1].min(run(program, &words(count)).1);
        }
    }
    least.iter().map(|[none, all]| (all - none) / count as f64).collect()
}

fn report(what: &str, ratios: &[(f64, String)]) {
    let mean = (ratios.iter().map(|r| r.0.ln()).sum::<f64>() / ratios.len() as f64).exp();
    if let Some((worst, name)) = ratios.iter().max_by(|a, b| a.0.total_cmp(&b.0)) {
        println!("{what}: geometric mean {mean:.2}, worst {worst:.2} ({name})");
    }
}

/// Times a call and prints a line of the table.
fn row(programs: &[&[&str]], samples: u32, call: &str, name: &str, element: &str, length: usize) -> (f64, String) {
    let times = least(programs, call, element, length, samples);
    let ratio = times[0] / times[1];
    let rc = times.get(2).map_or(String::new(), |time| format!("{time:.2}"));
    println!("{name:<30} {element:>8} {length:>8} {:>14.2} {rc:>14} {:>14.2} {ratio:>6.2}", times[1], times[0]);
    (ratio, format!("{name}, {length} of {element}"))
}

/// The least processor time and the least peak of memory of each program, of so many runs by turns.
fn least_of_workload(programs: &[&[&str]], name: &str, length: usize, count: u64, samples: u32) -> Vec<[f64; 2]> {
    let words = [name, "workload", &length.to_string(), &count.to_string()].map(str::to_string);
    let mut least = vec![[f64::INFINITY; 2]; programs.len()];
    let mut answer = None;
    for _ in 0..samples {
        for (program, least) in programs.iter().zip(&mut least) {
            let (printed, measures) = measured(program, &words);
            assert_eq!(*answer.get_or_insert_with(|| printed.clone()), printed, "{name} saw something else");
            *least = [least[0].min(measures[0]), least[1].min(measures[1])];
        }
    }
    least
}

/// Runs the workloads whose name holds `word`, and prints a line for each.
fn run_workloads(programs: &[&[&str]], samples: u32, word: &str) {
    println!("{:<14} {:>10} {:>10} {:>10} {:>6} {:>6}   {:>8} {:>8} {:>8} {:>6}", "workload", "original s", "std s", "this s", "ratio", "to std", "original", "std MiB", "this MiB", "ratio");
    let (mut to_original, mut to_std, mut memory) = (Vec::new(), Vec::new(), Vec::new());
    for (call, name, length, count) in workloads::WORKLOADS.iter().filter(|row| row.1.contains(word)) {
        let least = least_of_workload(programs, call, *length, *count, samples);
        let ([this, own], [original, theirs], [std, plain]) = (least[0], least[1], least[2]);
        println!(
            "{name:<14} {:>10.2} {:>10.2} {:>10.2} {:>6.2} {:>6.2}   {theirs:>8.0} {plain:>8.0} {own:>8.0} {:>6.2}",
            original / 1e9, std / 1e9, this / 1e9, this / original, this / std, own / theirs,
        );
        to_original.push((this / original, name.to_string()));
        to_std.push((this / std, name.to_string()));
        memory.push((own / theirs, name.to_string()));
    }
    report("workloads, time to the original's", &to_original);
    report("workloads, time to std's", &to_std);
    report("workloads, memory to the original's", &memory);
}

/// Times some calls at lengths that grow, prints them, and leaves a picture of them in `file`.
fn draw(programs: &[&[&str]], samples: u32, file: &str) {
    let curve = |call: &str| -> curves::Curve {
        let times = |length: &usize| {
            let times = least(programs, call, "u64", *length, samples);
            println!("{call:<30} {:>8} {length:>8} {:>14.2} {:>14.2} {:>14.2} {:>6.2}", "u64", times[1], times[2], times[0], times[0] / times[1]);
            [times[0], times[1], times[2]]
        };
        curves::LENGTHS.iter().map(times).collect()
    };
    let curves: Vec<_> = curves::CALLS.iter().map(|(call, _)| curve(call)).collect();
    std::fs::write(file, curves::picture(&curves)).unwrap();
}

fn compare(program: &str, samples: u32, word: &str, picture: Option<&String>) {
    let own = std::env::current_exe().unwrap();
    let own = own.to_str().unwrap();
    let programs: [&[&str]; 3] = [&[program], &[own, "ecow"], &[own, "rc"]];
    let (mut short, mut long) = (Vec::new(), Vec::new());
    let (mut bytes, mut texts) = (Vec::new(), Vec::new());
    println!("{:<30} {:>8} {:>8} {:>14} {:>14} {:>14} {:>6}", "call", "element", "length", "original ns", "Rc<Vec> ns", "this ns", "ratio");
    for (call, name, elements, lengths) in lists::CALLS.iter().filter(|call| call.1.contains(word)) {
        for element in *elements {
            for length in *lengths {
                let ratios = if *length < 10 { &mut short } else { &mut long };
                ratios.push(row(&programs, samples, call, name, element, *length));
            }
        }
    }
    for (call, name, lengths, _) in BYTE_CALLS.iter().filter(|call| call.1.contains(word)) {
        bytes.extend(lengths.iter().map(|length| row(&programs[..2], samples, call, name, "byte", *length)));
    }
    for (call, name, lengths, _) in TEXT_CALLS.iter().filter(|call| call.1.contains(word)) {
        texts.extend(lengths.iter().map(|length| row(&programs[..2], samples, call, name, "letter", *length)));
    }
    report("the vector, fewer than ten elements", &short);
    report("the vector, ten elements and more", &long);
    short.append(&mut long);
    report("the vector, all", &short);
    report("bytes", &bytes);
    report("texts", &texts);
    short.append(&mut bytes);
    short.append(&mut texts);
    report("all", &short);
    run_workloads(&programs, samples, word);
    if let Some(folder) = picture {
        draw(&programs, samples, &format!("{folder}/curves.svg"));
    }
}

fn main() {
    let words: Vec<String> = std::env::args().skip(1).collect();
    if let [which, word, element, length, count] = words.as_slice()
        && let (Ok(length), Ok(count)) = (length.parse(), count.parse())
    {
        let workload = match which.as_str() {
            "rc" => workloads::sum::<workloads::Std>(word, length, count),
            _ => workloads::sum::<workloads::Original>(word, length, count),
        };
        let numbers = numbers(if element == "workload" { 0 } else { length });
        let sum = if let Some(sum) = workload {
            sum
        } else if let Some(call) = BYTE_CALLS.iter().find(|call| call.0 == word) {
            call.3(&letters(&numbers), count)
        } else if let Some(call) = TEXT_CALLS.iter().find(|call| call.0 == word) {
            call.3(&prose(&numbers), count)
        } else {
            lists::sum_of_lists(which == "rc", word, element, &numbers, count)
        };
        println!("{sum}");
        return;
    }
    let samples = words.get(1).and_then(|word| word.parse().ok()).unwrap_or(9);
    compare(&words[0], samples, words.get(2).map_or("", |word| word), words.get(3));
}
