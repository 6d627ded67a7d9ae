//! Strings, beside values that are worked out by hand or by `str`.

use ecow::string::ToEcoString;
use ecow::{EcoBytes, EcoString, Error, eco_format};
use std::borrow::{Borrow, Cow};
use std::collections::{BTreeMap, HashMap};
use std::ffi::OsStr;
use std::fmt::Write;
use std::hash::{BuildHasher, BuildHasherDefault, DefaultHasher, Hash};
use std::panic::catch_unwind;
use std::path::Path;

fn hash(value: impl Hash) -> u64 {
    BuildHasherDefault::<DefaultHasher>::default().hash_one(value)
}

/// A spilled string of fewer than 16 bytes.
fn spilled(text: &str) -> EcoString {
    let mut string = EcoString::from(text);
    string.reserve(16);
    assert!(!string.is_inline());
    string
}

#[test]
fn indices_are_tested() {
    for text in ["a\u{20ac}b", "a\u{20ac}b and more than fifteen"] {
        for at in 0..text.len() + 2 {
            let expected = if at > text.len() {
                Some(Error::Index)
            } else if !text.is_char_boundary(at) {
                Some(Error::Boundary)
            } else {
                None
            };
            let mut string = EcoString::from(text);
            let shared = string.clone();
            assert_eq!(string.try_insert_str(at, "x").err(), expected);
            assert_eq!(string == text, expected.is_some());
            assert_eq!(shared, text);

            assert_eq!(shared.clone().try_insert_str(at, "").err(), expected);
            assert_eq!(shared.clone().try_insert(at, 'x').err(), expected);
            let boundary = expected.filter(|error| *error == Error::Boundary);
            assert_eq!(shared.clone().try_truncate(at).err(), boundary);
            assert_eq!(shared.clone().try_replace_range(at.., "x").err(), expected);
            assert_eq!(shared.clone().try_replace_range(..at, "x").err(), expected);
            let mut string = shared.clone();
            let removed = string.try_remove(at);
            match text.get(at..).and_then(|rest| rest.chars().next()) {
                Some(character) => assert_eq!(removed, Ok(character)),
                None => assert_eq!(removed, Err(expected.unwrap_or(Error::Index))),
            }

            let panics = |edit: fn(&mut EcoString, usize)| {
                let mut string = shared.clone();
                catch_unwind(move || edit(&mut string, at)).is_err()
            };
            assert_eq!(panics(|string, at| string.insert(at, 'x')), expected.is_some());
            assert_eq!(panics(|string, at| string.insert_str(at, "")), expected.is_some());
            assert_eq!(panics(|string, at| string.truncate(at)), boundary.is_some());
            assert_eq!(panics(|string, at| string.replace_range(at.., "")), expected.is_some());
            assert_eq!(panics(|string, at| _ = string.remove(at)), removed.is_err());
            assert_eq!(shared, text);
        }
    }
    let mut string = EcoString::from("abc");
    assert_eq!(string.try_replace_range(3..=usize::MAX, ""), Err(Error::Index));
    assert_eq!(string.try_replace_range(..=3, ""), Err(Error::Index));
    assert_eq!(string.try_replace_range(4.., ""), Err(Error::Index));
    let backwards = std::ops::Range { start: 2, end: 1 };
    assert_eq!(string.try_replace_range(backwards, ""), Err(Error::Index));
    assert_eq!(string, "abc");
}

#[test]
fn too_much_is_refused() {
    let mut string = EcoString::from("abc");
    assert_eq!(string.try_reserve(usize::MAX), Err(Error::Capacity));
    assert_eq!(string.try_reserve(1 << 62), Err(Error::Memory));
    assert_eq!(EcoString::try_with_capacity(usize::MAX), Err(Error::Capacity));
    assert_eq!(string.try_repeat(usize::MAX), Err(Error::Capacity));
    assert_eq!(string.try_repeat(1 << 60), Err(Error::Memory));
    assert_eq!(EcoString::new().try_repeat(usize::MAX).as_deref(), Ok(""));
    let panic = catch_unwind(|| EcoString::with_capacity(usize::MAX)).unwrap_err();
    assert_eq!(panic.downcast_ref::<String>().map(String::as_str), Some("capacity overflow"));
    assert!(catch_unwind(|| EcoString::from("ab").repeat(usize::MAX)).is_err());
    assert_eq!(string, "abc");
}

#[test]
fn made_of_others() {
    let long = "longer than fifteen bytes";
    assert_eq!(EcoString::from('\u{1f331}'), "\u{1f331}");
    assert_eq!(EcoString::from(String::from(long)), long);
    assert_eq!(EcoString::from(&String::from(long)), long);
    assert_eq!([Cow::Borrowed(long), Cow::Owned(long.into())].map(EcoString::from), [long; 2]);
    assert_eq!(long.parse::<EcoString>().as_deref(), Ok(long));
    assert_eq!((const { EcoString::new() }, EcoString::INLINE_LIMIT), (EcoString::default(), 15));
    assert_eq!(["a", "", long].into_iter().collect::<EcoString>(), "a".to_string() + long);
    assert_eq!(long.chars().collect::<EcoString>(), long);
    let pieces = ["Hello, ".into(), EcoString::new(), "world".into()];
    assert_eq!(pieces.into_iter().collect::<EcoString>(), "Hello, world");
    assert_eq!(EcoBytes::from(EcoString::from(long)), *long.as_bytes());
    assert_eq!(EcoString::try_from(EcoBytes::from(long.as_bytes())).as_deref(), Ok(long));
    let no_text = EcoString::try_from(EcoBytes::from(b"ab\xff")).unwrap_err();
    assert_eq!(no_text.valid_up_to(), 2);
    assert_eq!(String::from(EcoString::from(long)), long);
    assert_eq!(String::from(&EcoString::from(long)), long);
    let mut string = EcoString::from("a");
    string.extend(['b', '\u{e9}']);
    string.extend(["", "cd"]);
    assert_eq!(string, "ab\u{e9}cd");
    string += "!";
    string += EcoString::from("?");
    assert_eq!(string + "." + EcoString::from(","), "ab\u{e9}cd!?.,");
}

#[test]
fn cases_and_repetition() {
    let string = EcoString::from("Stra\u{df}e \u{3a3}A\u{3a3}");
    assert_eq!(string.to_uppercase(), "STRASSE \u{3a3}A\u{3a3}");
    assert_eq!(string.to_lowercase(), "stra\u{df}e \u{3c3}a\u{3c2}");
    assert_eq!(string.to_ascii_uppercase(), "STRA\u{df}E \u{3a3}A\u{3a3}");
    assert_eq!(string.to_ascii_lowercase(), "stra\u{df}e \u{3a3}a\u{3a3}");
    assert_eq!(string, "Stra\u{df}e \u{3a3}A\u{3a3}");
    assert!(EcoString::from("ABC").to_ascii_lowercase().is_inline());
    assert!(!spilled("ABC").to_ascii_lowercase().is_inline());
    assert!(spilled("ABC").to_lowercase().is_inline() && spilled("abc").to_uppercase().is_inline());
    assert!(spilled("a-b").replace("-", "").is_inline());
    for (text, count) in [("ab", 0), ("ab", 1), ("ab", 7), ("ab", 8), ("", 9), ("abc", 700)] {
        assert_eq!(EcoString::from(text).repeat(count), text.repeat(count));
        assert_eq!(EcoString::from(text).repeat(count).is_inline(), text.len() * count <= 15);
    }
}

#[test]
fn read_as_a_str() {
    let string = EcoString::from("a\u{e9}b");
    assert_eq!(&string[1..3], "\u{e9}");
    assert_eq!(string.find('b'), Some(3));
    assert_eq!(AsRef::<str>::as_ref(&string), "a\u{e9}b");
    assert_eq!(AsRef::<[u8]>::as_ref(&string), "a\u{e9}b".as_bytes());
    assert_eq!(AsRef::<OsStr>::as_ref(&string), OsStr::new("a\u{e9}b"));
    assert_eq!(AsRef::<Path>::as_ref(&string), Path::new("a\u{e9}b"));
    assert_eq!(Borrow::<str>::borrow(&string), "a\u{e9}b");
    assert_eq!(format!("{string}|{string:>5}|{string:?}"), "a\u{e9}b|  a\u{e9}b|\"a\u{e9}b\"");
    assert_eq!(eco_format!("{}-{:03}", "x", 7), "x-007");
    assert_eq!(12.5.to_eco_string() + "x".to_eco_string(), "12.5x");
    let mut written = EcoString::new();
    write!(written, "{} and {:?}", 1, 'c').unwrap();
    written.write_char('!').unwrap();
    assert_eq!(written, "1 and 'c'!");
}

/// A value that prints a letter, and then answers an error.
struct Broken;

impl std::fmt::Display for Broken {
    fn fmt(&self, f: &mut std::fmt::Formatter<'_>) -> std::fmt::Result {
        f.write_str("a")?;
        Err(std::fmt::Error)
    }
}

#[test]
fn an_error_of_what_is_printed() {
    assert_eq!(EcoString::try_format(Broken), None);
    let panic = catch_unwind(|| eco_format!("{Broken}")).unwrap_err();
    let said = panic.downcast_ref::<String>().unwrap();
    assert_eq!(said, "a formatting trait implementation returned an error: Error");
}

#[test]
fn compared_and_hashed_as_strs() {
    let texts = ["", "a", "aa", "ab", "b", "fifteen bytes..", "fifteen bytes...", "\u{ffff}", "\u{10000}"];
    for left in texts {
        for right in texts {
            let owned = [left, right].map(String::from);
            for (one, other) in [
                (EcoString::from(left), EcoString::from(right)),
                (spilled(left), EcoString::from(right)),
                (spilled(left), spilled(right)),
            ] {
                assert_eq!(one == other, left == right);
                assert_eq!(one.cmp(&other), left.cmp(right));
                assert_eq!(one.partial_cmp(&other), left.partial_cmp(right));
                assert_eq!(one == right, left == right);
                assert_eq!(one == *right, left == right);
                assert_eq!(one == owned[1], left == right);
                assert_eq!(left == other, left == right);
                assert_eq!(*left == other, left == right);
                assert_eq!(owned[0] == other, left == right);
                assert_eq!((hash(&one), one.is_empty(), one.len()), (hash(left), left.is_empty(), left.len()));
            }
        }
    }
    let map = HashMap::from([(EcoString::from("key"), 1)]);
    assert_eq!((map.get("key"), map.get(&spilled("key")), map.get("other")), (Some(&1), Some(&1), None));
    assert_eq!(BTreeMap::from([(spilled("key"), 2)]).get("key"), Some(&2));
}

/// A block of room for 15 bytes is told from what stands in the value.
#[test]
fn a_small_block_is_not_inline() {
    let len = 16;
    let mut small = EcoString::from("x".repeat(len));
    let shared = small.clone();
    small.truncate(15);
    for _ in 0..2 {
        assert_eq!((small.capacity(), small.is_inline()), (15, false));
        assert!(!small.clone().is_inline());
        small.clear();
    }
    small.shrink_to_fit();
    assert_eq!((small.capacity(), small.is_inline()), (15, true));
    assert_eq!(shared.len(), 16);
}
