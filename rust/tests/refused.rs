//! What is left where a request for memory is refused: each request of each call in turn.

mod allocator;

use allocator::{HELD, REFUSED, REQUESTS};
use ecow::{EcoBytes, EcoString, EcoVec, Error, Rejected, Value};
use std::fmt::Debug;
use std::io::Write;

/// Makes a call on a value, sole and shared, with each of its requests refused in turn. A refusal is for memory, and leaves
/// the value, the block and the other owner. Answers how many requests were refused.
fn refused<T: Clone + PartialEq + Debug, E: Into<Error>>(
    make: impl Fn() -> T,
    call: impl Fn(&mut T) -> Result<(), E>,
) -> usize {
    let mut count = 0;
    for shared in [false, true] {
        for which in 1.. {
            let held = HELD.get();
            let mut value = make();
            let (same, other) = (make(), shared.then(|| value.clone()));
            REFUSED.set(which);
            let error = call(&mut value).err().map(Into::into);
            let came = REFUSED.replace(0) == 0;
            assert!(other.is_none_or(|other| other == same));
            if came {
                assert_eq!((&value, error), (&same, Some(Error::Memory)));
                count += 1;
            } else {
                assert_eq!(error, None);
            }
            drop((value, same));
            assert_eq!(HELD.get(), held, "each block is given back");
            if !came {
                break;
            }
        }
    }
    count
}

fn for_memory(error: std::io::Error) -> Error {
    assert_eq!(error.kind(), std::io::ErrorKind::OutOfMemory);
    Error::Memory
}

fn text(len: usize) -> EcoString {
    EcoString::from("t".repeat(len))
}

#[test]
fn vectors() {
    // At 1,024 a block of elements passes from one request to two.
    for len in [0, 1, 4, 1023, 1024, 1025, 3000] {
        let (few, word, two) = (usize::from(len > 0), EcoString::from("word"), [text(2), text(3)]);
        let words = || (0..len).map(|n| EcoString::from(n.to_string())).collect::<EcoVec<_>>();
        assert!(refused(words, |vec| vec.try_push(word.clone())) >= 1);
        assert!(refused(words, |vec| vec.try_insert(len / 2, word.clone())) >= 1);
        assert!(refused(words, |vec| vec.try_extend_from_slice(&[const { EcoString::new() }; 9])) >= 1);
        assert!(refused(words, |vec| vec.try_reserve(5000)) >= 2);
        assert!(refused(words, |vec| vec.try_make_mut().map(drop)) >= few);
        assert!(refused(words, |vec| vec.try_pop().map(drop)) >= few);
        assert!(refused(words, |vec| vec.try_retain(|_| false)) >= few);
        assert!(refused(words, |vec| vec.try_truncate(len - few)) >= (len > 1) as usize);
        assert!(refused(words, |vec| vec.try_drain(..).map(drop)) >= few);
        assert!(refused(words, |vec| vec.try_splice(.., two.clone()).map(drop)) >= 1);
        assert!(refused(words, |vec| vec.clone().try_into_vec().map(drop)) >= few);
        if len > 0 {
            assert!(refused(words, |vec| vec.try_remove(0).map(drop)) >= 1);
            assert!(refused(words, |vec| vec.try_set(0, word.clone())) >= 1);
            assert!(refused(words, |vec| vec.try_update(0, |word| word.push('x'))) >= 1);
        }
        let (bytes, more) = (|| EcoVec::from(vec![7u8; len]), vec![2; 2 * len + 1]);
        assert!(refused(bytes, |vec| vec.write(&more).map(drop).map_err(for_memory)) >= 1);
        assert!(refused(bytes, |vec| vec.try_extend_from_within(..)) >= few);
        assert!(refused(bytes, |vec| vec.try_insert_slice(0, &[1; 9])) >= 1);
        assert!(refused(bytes, |vec| vec.try_replace_range(.., &more)) >= 1);
    }
    // What is handed in comes back.
    fn back<R: Debug, V: Debug>(call: impl FnOnce() -> Result<R, Rejected<V>>) -> V {
        REFUSED.set(1);
        let back = call().unwrap_err();
        assert_eq!(back.error, Error::Memory);
        back.value
    }
    let (words, bytes, vec) = (vec![String::from("a"); 3], vec![7; 99], EcoVec::from([String::from("b")]));
    let other = vec.clone();
    assert_eq!(back(|| EcoVec::try_from_elem(String::new(), 3)), "");
    assert_eq!(back(|| EcoVec::try_from_vec(words)), ["a"; 3]);
    assert_eq!(back(|| EcoVec::try_from_array([String::new()])), [""]);
    assert_eq!(back(|| vec.try_into_vec()), other);
    assert_eq!(back(|| EcoBytes::try_from_vec(bytes)), [7; 99]);
    assert_eq!(back(|| EcoBytes::from([7]).try_into_eco_vec()), [7]);
    assert_eq!(back(|| EcoString::from("a").try_into_eco_vec()), "a");
    REFUSED.set(1);
    assert_eq!(EcoVec::try_from_iter(0..9).unwrap_err(), Error::Memory);
}

#[test]
fn texts_bytes_and_values() {
    for len in [0, 3, 15, 16, 17, 1024, 1025] {
        let (spilled, shared, long) = ((len > 15) as usize, || text(len), "x".repeat(2 * len + 16));
        assert!(refused(shared, |text| text.try_push_str("a text that does not fit inline")) >= 1);
        assert!(refused(shared, |text| text.try_insert_str(0, "a text that does not fit inline")) >= 1);
        assert!(refused(shared, |text| text.try_replace_range(.., &long)) >= 1);
        assert!(refused(shared, |text| text.try_reserve(3000)) >= 1);
        assert!(refused(shared, |text| text.try_make_mut().map(drop)) >= spilled);
        assert!(refused(shared, |text| text.try_pop().map(drop)) >= spilled);
        assert!(refused(shared, |text| text.try_replace("t", "long enough").map(drop)) >= (len > 1) as usize);
        assert!(refused(shared, |text| text.try_repeat(20).map(drop)) >= few(len));
        assert!(refused(shared, |text| text.clone().try_into_eco_vec().map(drop)) >= few(len) - spilled);
        let bytes = || EcoBytes::from(vec![7; len]);
        assert!(refused(bytes, |bytes| bytes.try_extend_from_slice(&[1; 20])) >= 1);
        assert!(refused(bytes, |bytes| bytes.write(&[1; 20]).map(drop).map_err(for_memory)) >= 1);
        assert!(refused(bytes, |bytes| bytes.try_insert_slice(0, &[1; 20])) >= 1);
        assert!(refused(bytes, |bytes| bytes.try_truncate(len.saturating_sub(1))) >= spilled);
        let list = || (0..len as i64).map(Value::from).collect::<Value>();
        let fields = || [("list", list())].into_iter().collect::<Value>();
        assert!(refused(list, |list| list.push(1)) >= 1);
        assert!(refused(list, |list| list.truncate(len / 2)) >= (len > 1) as usize);
        assert!(refused(fields, |fields| fields.set_field("a name of more than fifteen bytes", 1)) >= 1);
        assert!(refused(fields, |fields| fields.set_path(&["list".into()], 1)) >= 1);
    }
}

fn few(len: usize) -> usize {
    (len > 0) as usize
}

#[test]
fn clones_and_edits_in_place_ask_for_nothing() {
    let mut vec: EcoVec<i64> = EcoVec::with_capacity(100);
    let (long, value) = (text(40), Value::from([1, 2]));
    let before = REQUESTS.get();
    for number in 0..100 {
        vec.push(number);
    }
    vec.insert(3, vec.len() as i64 - 1);
    drop((vec.clone(), long.clone(), value.clone(), EcoString::from("inline"), EcoVec::<u8>::new()));
    assert_eq!(REQUESTS.get() - before, 1, "the insertion alone grows");
    drop((0..40).map(Value::from).collect::<Value>());
    assert_eq!(REQUESTS.get() - before, 2, "a list of so many items asks once");
}

#[test]
fn a_comparison_of_values_needs_no_memory() {
    let parts = |count| (0..count).map(|number: i64| Value::from([[number]])).collect::<Value>();
    let (few, many) = ([parts(400), parts(400)], [parts(9000), parts(9000)]);
    let (before, held) = (REQUESTS.get(), HELD.get());
    assert!(few[0] == few[1] && few[0] != many[0]);
    assert_eq!(REQUESTS.get() - before, 0);
    let refused = (1..).take_while(|which| {
        REFUSED.set(*which);
        assert!(many[0] == many[1] && HELD.get() == held);
        REFUSED.replace(0) == 0
    });
    assert!((2..9).contains(&refused.count()));
}
