//! Bytes, beside values that are worked out by hand or by slices.

use ecow::{EcoBytes, EcoVec, Error};
use std::borrow::{Borrow, Cow};
use std::collections::HashMap;
use std::hash::{BuildHasher, BuildHasherDefault, DefaultHasher, Hash};
use std::io::Write;
use std::panic::catch_unwind;

fn hash(value: impl Hash) -> u64 {
    BuildHasherDefault::<DefaultHasher>::default().hash_one(value)
}

#[test]
fn refused() {
    for len in [0, 3, 15, 16, 1025] {
        let all = vec![5; len];
        let shared = EcoBytes::from(all.as_slice());
        let mut bytes = shared.clone();
        assert_eq!(bytes.try_set(len, 1), Err(Error::Index));
        assert_eq!(bytes.try_remove(len), Err(Error::Index));
        assert_eq!(bytes.try_insert(len + 1, 1), Err(Error::Index));
        assert_eq!(bytes.try_insert_slice(len + 1, b"x"), Err(Error::Index));
        assert_eq!(bytes.try_insert_slice(len + 1, b""), Err(Error::Index));
        assert_eq!(bytes.try_replace_range(len.., b"").err(), None);
        assert_eq!(bytes.try_replace_range(len + 1.., b""), Err(Error::Index));
        assert_eq!(bytes.try_replace_range(..=len, b""), Err(Error::Index));
        assert_eq!(bytes.try_reserve(usize::MAX), Err(Error::Capacity));
        assert_eq!(bytes.try_reserve(1 << 62), Err(Error::Memory));
        assert_eq!((&bytes, &shared), (&EcoBytes::from(all.as_slice()), &bytes));
        let panics = |edit: fn(&mut EcoBytes, usize)| {
            let mut bytes = shared.clone();
            catch_unwind(move || edit(&mut bytes, len)).is_err()
        };
        assert!(panics(|bytes, len| bytes.set(len, 1)));
        assert!(panics(|bytes, len| _ = bytes.remove(len)));
        assert!(panics(|bytes, len| bytes.insert(len + 1, 1)));
        assert!(panics(|bytes, len| bytes.insert_slice(len + 1, b"")));
        assert!(panics(|bytes, len| bytes.replace_range(len + 1.., b"")));
        assert!(panics(|bytes, _| bytes.reserve(usize::MAX)));
        assert!(!panics(|bytes, len| bytes.insert(len, 1)));
    }
    assert_eq!(EcoBytes::from(b"ab").try_repeat(usize::MAX), Err(Error::Capacity));
}

#[test]
fn made_of_others_read_and_compared() {
    let all: Vec<u8> = (0..20).collect();
    assert_eq!(EcoBytes::from(all.clone()), EcoBytes::from(&all));
    assert_eq!([Cow::Borrowed(&all[..]), Cow::Owned(all.clone())].map(EcoBytes::from), [&all[..]; 2]);
    assert_eq!(all.iter().copied().collect::<EcoBytes>(), all);
    assert_eq!(EcoBytes::default(), []);
    assert_eq!(Vec::from(EcoBytes::from(&all)), all);
    assert_eq!(Vec::from(&EcoBytes::from(&all)), all);
    let bytes = EcoBytes::from(&all);
    assert_eq!(EcoBytes::from(&bytes).as_ptr(), bytes.as_ptr());
    assert_eq!((bytes[3], &bytes[18..]), (3, &[18, 19][..]));
    assert_eq!((&bytes).into_iter().map(|byte| u32::from(*byte)).sum::<u32>(), 190);
    assert_eq!(AsRef::<[u8]>::as_ref(&bytes), all);
    assert_eq!(Borrow::<[u8]>::borrow(&bytes), all);
    assert_eq!(format!("{:?}", EcoBytes::from(b"\x01\xff")), "[1, 255]");
    let arrays: [&[u8]; 6] = [&[], &[0], &[0, 0], &[1], &[255; 15], &[255; 16]];
    for left in arrays {
        for right in arrays {
            let (one, mut other) = (EcoBytes::from(left), EcoBytes::from(right));
            other.reserve(16);
            assert_eq!(one == other, left == right);
            assert_eq!(one == right, left == right);
            assert_eq!(one == *right, left == right);
            assert_eq!(one == right.to_vec(), left == right);
            assert_eq!(*left == other, left == right);
            assert_eq!(left.to_vec() == other, left == right);
            assert_eq!(one.cmp(&other), left.cmp(right));
            assert_eq!(hash(&one), hash(left));
            assert_eq!(hash(&other), hash(right));
        }
    }
    let (mut written, mut bytes_written) = (EcoBytes::from(b"wr"), EcoVec::<u8>::new());
    assert_eq!(written.write(b"itten, and more than fits").unwrap(), 25);
    assert_eq!(bytes_written.write(b"more than fits").unwrap(), 14);
    assert!(written.flush().is_ok() && bytes_written.flush().is_ok());
    assert_eq!((&written[..9], &written[9..]), (&b"written, "[..], &b"and more than fits"[..]));
    assert_eq!(bytes_written, b"more than fits");
    let two = EcoBytes::from([1, 2]);
    assert_eq!([1, 2], two);
    assert_eq!(two, [1, 2]);
    assert_eq!(two, &[1, 2]);
    assert_eq!(HashMap::from([(bytes, 1)]).get(&all[..]), Some(&1));
}
