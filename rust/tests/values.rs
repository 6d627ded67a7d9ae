//! Nested values, beside values that are worked out by hand.

use ecow::value::MAX_DEPTH;
use ecow::{EcoString, Error, Kind, Value};
use std::panic::{AssertUnwindSafe, catch_unwind};

#[test]
fn each_kind_reads_as_itself_alone() {
    let all = [
        (Value::new(), Kind::Nothing, "null"),
        (true.into(), Kind::Truth, "true"),
        (i64::MIN.into(), Kind::Number, "-9223372036854775808"),
        ((-2.0).into(), Kind::Real, "-2.0"),
        ("text".into(), Kind::Text, "\"text\""),
        (Value::new_list(), Kind::List, "[]"),
        (Value::new_fields(), Kind::Fields, "{}"),
    ];
    for (index, (value, kind, debug)) in all.iter().enumerate() {
        assert_eq!((value.kind(), format!("{value:?}").as_str()), (*kind, *debug));
        let only = |is: Kind| if *kind == is { None } else { Some(Error::Kind) };
        assert_eq!(value.truth().err(), only(Kind::Truth));
        assert_eq!(value.number().err(), only(Kind::Number));
        assert_eq!(value.real().err(), only(Kind::Real));
        assert_eq!(value.text().err(), only(Kind::Text));
        let counts = (value.items().count(), value.fields().count());
        assert_eq!((value.len(), value.is_empty(), counts), (0, true, (0, 0)));
        let mut edited = value.clone();
        assert_eq!(edited.pop().err(), Some(only(Kind::List).unwrap_or(Error::Index)));
        assert_eq!(edited.truncate(0).err(), only(Kind::List));
        assert_eq!(edited.remove_field("a").err(), Some(only(Kind::Fields).unwrap_or(Error::Index)));
        assert_eq!(edited.field_name(0).err(), Some(only(Kind::Fields).unwrap_or(Error::Index)));
        assert_eq!(edited, *value);
        assert_eq!(edited.push(1).err(), only(Kind::List));
        assert_eq!(edited.set_field("a", 1).err(), only(Kind::Fields));
        assert_eq!(edited.push_field("a", 1).err(), only(Kind::Fields));
        for (other, (another, ..)) in all.iter().enumerate() {
            assert_eq!(value == another, index == other);
        }
    }
    assert_eq!((all[1].0.truth(), all[2].0.number()), (Ok(true), Ok(i64::MIN)));
    assert_eq!(all[3].0.real(), Ok(-2.0));
    assert_eq!(all[4].0.text().as_deref(), Ok("text"));
    assert_eq!(Value::default(), Value::new());
    assert_eq!((Value::from([1]).is_empty(), format!("{:#?}", Value::from([1])).as_str()), (false, "[\n    1,\n]"));
    assert_ne!(Value::from(1), Value::from(1.0));
    assert_eq!(Value::from(f64::NAN), Value::from(-f64::NAN));
    assert_eq!(Value::from(String::from("ab")), Value::from(&EcoString::from("ab")));
}

#[test]
fn a_text_is_shared() {
    let text = EcoString::from("a text of more than fifteen bytes");
    let value = Value::from(&text);
    assert_eq!(value.text().unwrap().as_ptr(), text.as_ptr());
    assert_eq!(Value::from(&value).text().unwrap().as_ptr(), text.as_ptr());
    let list = Value::from([value, text.clone().into()]);
    assert_eq!(list.get(1).unwrap().text().unwrap().as_ptr(), text.as_ptr());
    // What two values share is compared once, however often it stands in them.
    let both = |part: Value| Value::from([part.clone(), Value::from_iter([("a", part)])]);
    let part = (0..60).fold(list, |part, _| both(part));
    assert_eq!(both(part.clone()), both(part));
    // Texts of values are compared many bytes at a time: each byte counts.
    for len in (0..140).chain([260]) {
        let text = "x".repeat(len);
        assert_eq!(Value::from(&text[..]), Value::from(&text[..]));
        for at in 0..len {
            let other = [&text[..at], "y", &text[at + 1..]].concat();
            assert_ne!(Value::from(&text[..]), Value::from(other), "{at} of {len}");
        }
    }
}

#[test]
fn lists_are_edited() {
    let mut list = Value::new_list();
    list.push(1).unwrap();
    list.push("b").unwrap();
    list.insert(1, true).unwrap();
    list.insert(3, list.clone()).unwrap();
    assert_eq!(format!("{list:?}"), r#"[1, true, "b", [1, true, "b"]]"#);
    let shared = list.clone();
    list.set(0, Value::new()).unwrap();
    assert_eq!(list.remove(1), Ok(true.into()));
    assert_eq!(list.pop().unwrap().len(), 3);
    assert_eq!(format!("{list:?}"), r#"[null, "b"]"#);
    assert_eq!(list.get(2), Err(Error::Index));
    assert_eq!(list.set(2, 1), Err(Error::Index));
    assert_eq!(list.remove(2), Err(Error::Index));
    assert_eq!(list.insert(3, 1), Err(Error::Index));
    list.truncate(5).unwrap();
    list.truncate(1).unwrap();
    assert_eq!(list, Value::from(vec![Value::new()]));
    assert_eq!(format!("{shared:?}"), r#"[1, true, "b", [1, true, "b"]]"#);
    let numbers: Value = (0..3000).map(Value::from).collect();
    assert!(numbers.items().rev().map(|item| item.number().unwrap()).eq((0..3000).rev()));
    assert_eq!(numbers.items().len(), 3000);
}

#[test]
fn fields_are_edited() {
    let long = "a name of more than fifteen bytes";
    let mut fields: Value = [("b", 1.into()), (long, 2.into()), ("b", 3.into())].into_iter().collect();
    assert_eq!(format!("{fields:?}"), format!("{{\"b\": 3, {long:?}: 2}}"));
    let shared = fields.clone();
    fields.set_field("", "no name").unwrap();
    fields.set_field(long, Value::new_list()).unwrap();
    assert_eq!((fields.len(), fields.get(1)), (3, Ok(Value::new_list())));
    assert_eq!(fields.field_name(1).as_deref(), Ok(long));
    assert_eq!(fields.field_name(1).unwrap().as_ptr(), fields.field_name(1).unwrap().as_ptr());
    assert_eq!(fields.field_name(3).err(), Some(Error::Index));
    assert_eq!(fields.get_field("c"), Err(Error::Index));
    assert_eq!(fields.get_field("").unwrap().text().as_deref(), Ok("no name"));
    fields.push_field("b", 4).unwrap();
    assert_eq!((fields.len(), fields.get_field("b"), fields.get(3)), (4, Ok(3.into()), Ok(4.into())));
    assert_eq!(fields.remove_field("b"), Ok(3.into()));
    assert_eq!(fields.remove_field("b"), Ok(4.into()));
    let names: Vec<_> = fields.fields().map(|(name, value)| (name, value.kind())).collect();
    assert_eq!(names, [(long.into(), Kind::List), ("".into(), Kind::Text)]);
    assert_eq!((shared.len(), shared.get_field(long)), (2, Ok(2.into())));
    let swapped: Value = [(long, 2.into()), ("b", 3.into())].into_iter().collect();
    assert_ne!(shared, swapped);
}

/// `{"a": [1, {"b": 2}], "c": 3}`
/// Checks fields against a plain list of their names and numbers.
fn assert_fields(fields: &Value, model: &[(String, i64)]) {
    assert_eq!(fields.len(), model.len());
    for (index, (name, number)) in model.iter().enumerate() {
        assert_eq!(fields.field_name(index).unwrap().as_str(), name);
        assert_eq!(fields.get_field(name).unwrap(), Value::from(*number));
    }
    let pairs = model.iter().map(|(name, number)| (name.as_str(), *number));
    assert!(fields.fields().eq(pairs.map(|(name, number)| (EcoString::from(name), Value::from(number)))));
}

#[test]
fn removed_names_leave_the_others_in_order() {
    for count in [5, 15, 16, 17, 30, 200, 1500] {
        let mut fields = Value::new_fields();
        let mut model = Vec::new();
        for number in 0..count {
            fields.set_field(&format!("name {number}"), number).unwrap();
            model.push((format!("name {number}"), number));
        }
        let (shared, all) = (fields.clone(), model.clone());
        // From the middle, the beginning and the end, and some new ones between.
        for round in 0..count {
            let place = [model.len() / 2, 0, model.len() - 1][round as usize % 3];
            let (name, number) = model.remove(place);
            assert_eq!(fields.remove_field(&name).unwrap(), Value::from(number));
            assert!(fields.get_field(&name).is_err());
            if round % 4 == 0 {
                fields.set_field(&name, -number).unwrap();
                model.push((name, -number));
            }
            if round % 500 == 0 || count < 40 {
                assert_fields(&fields, &model);
            }
        }
        assert_fields(&fields, &model);
        assert_fields(&shared, &all);
    }
}

#[test]
fn a_name_that_comes_again_is_found_after_the_first_is_removed() {
    let mut fields = Value::new_fields();
    for number in 0..40_i64 {
        fields.push_field(&format!("name {}", number % 20), number).unwrap();
    }
    for number in 0..20_i64 {
        let name = format!("name {number}");
        assert_eq!(fields.remove_field(&name).unwrap(), Value::from(number));
        assert_eq!(fields.get_field(&name).unwrap(), Value::from(number + 20));
    }
    assert_eq!(fields.len(), 20);
}

fn tree() -> Value {
    let inner: Value = [("b", 2.into())].into_iter().collect();
    [("a", [1.into(), inner].into_iter().collect()), ("c", 3.into())].into_iter().collect()
}

#[test]
fn paths() {
    let mut value = tree();
    let shared = value.clone();
    let path = ["a".into(), 1.into(), "b".into()];
    assert_eq!(value.get_path(&[]), Ok(tree()));
    assert_eq!(value.get_path(&path), Ok(2.into()));
    assert_eq!(value.get_path(&[1.into()]), Ok(3.into()));
    value.set_path(&path, "new").unwrap();
    assert_eq!(format!("{value:?}"), r#"{"a": [1, {"b": "new"}], "c": 3}"#);
    value.set_path(&["a".into(), 1.into(), "d".into()], 4).unwrap();
    value.set_path(&[1.into()], 5).unwrap();
    assert_eq!(format!("{value:?}"), r#"{"a": [1, {"b": "new", "d": 4}], "c": 5}"#);
    let taken = value.update_path(&path[..2], |inner| inner.remove_field("b"));
    assert_eq!(taken.unwrap().text().as_deref(), Ok("new"));
    value.update_path(&path[..1], |list| list.insert(0, 0)).unwrap();
    assert_eq!(format!("{value:?}"), r#"{"a": [0, 1, {"d": 4}], "c": 5}"#);
    value.set_path(&[], 7).unwrap();
    assert_eq!((value, shared), (7.into(), tree()));
}

#[test]
fn a_path_that_leads_nowhere_changes_nothing() {
    let ways: [(&[ecow::value::Step], Error); 7] = [
        (&["x".into(), 0.into()], Error::Index),
        (&["a".into(), 2.into(), "b".into()], Error::Index),
        (&["a".into(), "b".into(), "b".into()], Error::Kind),
        (&["a".into(), 1.into(), "x".into(), "b".into()], Error::Index),
        (&["a".into(), 0.into(), 0.into()], Error::Kind),
        (&["a".into(), 1.into(), 1.into()], Error::Index),
        (&[2.into()], Error::Index),
    ];
    for (path, error) in ways {
        let mut value = tree();
        assert_eq!(value.get_path(path), Err(error));
        assert_eq!(value.set_path(path, 1), Err(error));
        assert_eq!(value.update_path(path, |_| Ok(())), Err(error));
        assert_eq!(value, tree());
    }
    let mut value = tree();
    let path = ["a".into(), 1.into()];
    assert_eq!(value.update_path(&path, |inner| inner.number()), Err(Error::Kind));
    let panic = catch_unwind(AssertUnwindSafe(|| value.update_path(&path, |_| -> Result<(), Error> { panic!() })));
    assert!(panic.is_err());
    assert_eq!(value, tree());
}

#[test]
fn equal_values_print_the_same() {
    let mut state = 1u64;
    let mut draw = |below: usize| {
        state = state.wrapping_mul(6_364_136_223_846_793_005).wrapping_add(1);
        (state >> 33) as usize % below
    };
    let mut equal = 0;
    for _ in 0..40 {
        let simple = || [Value::new(), true.into(), 1.into(), 1.0.into(), f64::NAN.into(), "1".into(), [[1]].into()];
        let (mut left, mut right) = (Vec::from(simple()), Vec::from(simple()));
        for _ in 0..30 {
            let parts: Vec<_> = (0..draw(18)).map(|_| draw(left.len())).filter(|&at| left[at].depth() < 5).collect();
            // Sometimes one part differs, or the names do.
            let (named, other, names) = (draw(2) == 0, draw(50), if draw(9) == 0 { 'b' } else { 'a' });
            let made = |all: &[Value], other: usize, names: char| -> Value {
                let parts = parts.iter().map(|&part| all[if part == other { 0 } else { part }].clone());
                if named { (names..).map(String::from).zip(parts).collect() } else { parts.collect() }
            };
            left.push(made(&left, usize::MAX, 'a'));
            right.push(made(&right, other, names));
        }
        let printed = |all: &[Value]| all.iter().map(|value| format!("{value:?}")).collect::<Vec<_>>();
        for (one, text) in left.iter().zip(printed(&left)) {
            for (other, another) in right.iter().zip(printed(&right)) {
                assert_eq!(one == other, text == another, "{text} and {another}");
                equal += usize::from(one == other);
            }
        }
    }
    assert!(equal > 1000);
    assert_eq!(Value::from([[[0.0]]]), Value::from([[[-0.0]]]));
}

#[test]
fn a_pair_of_parts_that_occurs_often_is_compared_once() {
    let lists = |below: Value| Value::from([&below, &below]);
    let fields = |below: Value| [("a", below.clone()), ("b", below)].into_iter().collect();
    // Between the two stand parts that occur on this level alone.
    let apart = |below: Value| {
        let others = (0..300).map(|number| Value::from([[number]])).collect();
        Value::from([&below, &others, &below])
    };
    let kinds: [fn(Value) -> Value; 3] = [lists, fields, apart];
    for (kind, around) in kinds.into_iter().enumerate() {
        for levels in [1, 2, 28, 60] {
            // Each level has the one below it twice, so 7 occurs 2^levels times.
            let made = || (0..levels).fold(Value::from(7), |below, _| around(below));
            let (value, mut other) = (made(), made());
            assert_eq!((value == other, other == value), (true, true), "{kind}, {levels} levels");
            // The first 7 of all, or the last one, becomes an 8.
            for index in [0, value.len() - 1] {
                let path = vec![index.into(); levels];
                assert_eq!(other.set_path(&path, 8), Ok(()));
                assert_eq!((value == other, other == value), (false, false), "{kind}, {levels} levels, {index}");
                assert_eq!(other.set_path(&path, 7), Ok(()));
                assert!(value == other, "{kind}, {levels} levels, {index}");
            }
        }
    }
    // A list that holds one list 100,000 times, which has 100,000 numbers.
    let row = || (0..100_000).map(Value::from).collect();
    let rows = |row: Value| (0..100_000).map(|_| row.clone()).collect::<Value>();
    assert!(rows(row()) == rows(row()));
}

/// A value that nests so deep.
fn nested(levels: usize) -> Value {
    (0..levels).fold(Value::from(7), |inner, _| [inner].into())
}

#[test]
fn no_value_nests_too_deep() {
    let (deepest, mut lower) = (nested(512), nested(511));
    assert_eq!((MAX_DEPTH, deepest.depth(), lower.depth(), Value::from(1).depth()), (512, 512, 511, 0));
    let mut list = Value::from([1, 2]);
    let mut fields = Value::new_fields();
    assert_eq!(fields.set_field("a", 1), Ok(()));
    for _ in 0..2 {
        assert_eq!(list.push(&deepest), Err(Error::Depth));
        assert_eq!(list.set(1, &deepest), Err(Error::Depth));
        assert_eq!(list.insert(2, &deepest), Err(Error::Depth));
        assert_eq!(list.set_path(&[1.into()], &deepest), Err(Error::Depth));
        assert_eq!(fields.set_field("a", &deepest), Err(Error::Depth));
        assert_eq!(fields.push_field("a", &deepest), Err(Error::Depth));
        assert_eq!(fields.set_path(&["b".into()], &deepest), Err(Error::Depth));
        assert_eq!((lower.set_path(&[0.into(); 2], nested(511)), &lower), (Err(Error::Depth), &nested(511)));
        assert!(catch_unwind(AssertUnwindSafe(|| Value::from([deepest.clone()]))).is_err());
        assert_eq!((list.depth(), fields.depth(), &list), (1, 1, &Value::from(vec![1, 2])));
    }
    // A value is one deeper than its deepest part, also where one was taken out.
    assert_eq!((list.push(&lower), list.depth()), (Ok(()), 512));
    assert_eq!(fields.set_field("a", &list), Err(Error::Depth));
    assert_eq!((list.pop().as_ref(), list.depth()), (Ok(&lower), 1));
    assert_eq!((fields.set_field("a", &list), fields.depth()), (Ok(()), 2));
    assert_eq!((fields.set_path(&["a".into(), 0.into()], nested(510)), fields.depth()), (Ok(()), 512));
    assert_eq!((fields.set_path(&["a".into(), 0.into()], 1), fields.depth()), (Ok(()), 2));
    assert_eq!(lower.update_path(&[0.into()], |inner| inner.push(1)), Ok(()));
    // What is changed until it is too deep is lost.
    let deepen = |inner: &mut Value| {
        *inner = nested(511);
        Ok(())
    };
    assert_eq!(lower.update_path(&[0.into(), 0.into()], deepen), Err(Error::Depth));
    assert_eq!(lower, [Value::from([Value::new(), 1.into()])].into());
    let work = move || {
        assert_eq!(deepest, nested(512));
        drop(deepest);
    };
    std::thread::Builder::new().stack_size(512 << 10).spawn(work).unwrap().join().unwrap();
}
