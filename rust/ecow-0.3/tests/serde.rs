//! Values as serde writes and reads them, in a format of text and in one of bytes.

use ecow::{EcoBytes, EcoString, EcoVec, eco_vec};
use serde::Serialize;
use serde::de::DeserializeOwned;
use std::fmt::Debug;

/// Writes and reads a value in both formats. The expected bytes are those of a slice, of `str` or of bytes.
fn passes<T: Serialize + DeserializeOwned + PartialEq + Debug>(value: T, json: &str, bytes: &[u8]) {
    assert_eq!(serde_json::to_string(&value).unwrap(), json);
    assert_eq!(serde_json::from_str::<T>(json).unwrap(), value);
    assert_eq!(bincode::serialize(&value).unwrap(), bytes);
    assert_eq!(bincode::deserialize::<T>(bytes).unwrap(), value);
}

#[test]
fn values_pass_through_both_formats() {
    passes(eco_vec![1u8, 2], "[1,2]", &[2, 0, 0, 0, 0, 0, 0, 0, 1, 2]);
    passes(EcoVec::<u16>::new(), "[]", &[0; 8]);
    let one = 1u64.to_le_bytes();
    passes(eco_vec![eco_vec![EcoString::from("a")]], r#"[["a"]]"#, &[&one[..], &one, &one, b"a"].concat());
    passes(EcoString::from("h\u{e9}"), "\"h\u{e9}\"", &[3, 0, 0, 0, 0, 0, 0, 0, b'h', 0xc3, 0xa9]);
    passes(EcoBytes::from(b"\x00\xff"), "[0,255]", &[2, 0, 0, 0, 0, 0, 0, 0, 0, 255]);
    for len in [0, 15, 16, 3000] {
        let text = EcoString::from("x".repeat(len));
        let length = (len as u64).to_le_bytes();
        passes(text.clone(), &format!("\"{text}\""), &[&length[..], text.as_bytes()].concat());
    }
}

#[test]
fn other_input_is_refused() {
    let said = |error: serde_json::Error| error.to_string();
    let expected = |what: &str| format!("invalid type: integer `7`, expected {what} at line 1 column 1");
    assert_eq!(said(serde_json::from_str::<EcoVec<u8>>("7").unwrap_err()), expected("a sequence"));
    assert_eq!(said(serde_json::from_str::<EcoString>("7").unwrap_err()), expected("a string"));
    assert_eq!(said(serde_json::from_str::<EcoBytes>("7").unwrap_err()), expected("bytes"));
    assert_eq!(serde_json::from_str::<EcoBytes>("\"ab\"").unwrap(), b"ab");
    assert!(serde_json::from_str::<EcoVec<u8>>("[1, 256]").is_err());
    assert!(bincode::deserialize::<EcoString>(&[1, 0, 0, 0, 0, 0, 0, 0, 0xff]).is_err());
    // The input doesn't have so many items.
    assert!(bincode::deserialize::<EcoVec<u64>>(&(1u64 << 62).to_le_bytes()).is_err());
    let text = serde::de::value::BytesDeserializer::<serde::de::value::Error>::new(b"a\xff");
    let error = <EcoString as serde::Deserialize>::deserialize(text).unwrap_err();
    assert_eq!(error.to_string(), "invalid value: byte array, expected a string");
}
