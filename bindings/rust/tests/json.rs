//! Items as JSON. Expected values are worked out by hand from RFC 8949, section 6.1, and docs/JSON.md.

use semphluk::{bytes_to_json, bytes_to_json_strict, convert, hex_to_json, hex_to_json_strict};
use semphluk::{json_fault, Error, Form, JsonFault, LossKind};

#[test]
fn written() {
    let rows: [(&[u8], &str); 9] = [
        (b"\xa2\x01\x02\x20\x03", r#"{"1": 2, "-1": 3}"#),
        (
            b"\x1b\xff\xff\xff\xff\xff\xff\xff\xff",
            "18446744073709551615",
        ),
        (
            b"\xc2\x49\x01\x00\x00\x00\x00\x00\x00\x00\x00",
            "18446744073709551616",
        ),
        (
            b"\x83\xf9\x7e\x00\xf9\x7c\x00\xf9\xfc\x00",
            "[null, null, null]",
        ),
        (b"\x84\xf4\xf5\xf6\xf7", "[false, true, null, null]"),
        (
            b"\x82\xf9\x3e\x00\xfb\x40\x00\x00\x00\x00\x00\x00\x00",
            "[1.5, 2.0]",
        ),
        (b"\x82\x43\x01\x02\x03\xd7\x41\x01", r#"["AQID", "01"]"#),
        (
            b"\xa1\x61a\x82\x01\xa1\x61b\xc1\x18\x00",
            r#"{"a": [1, {"b": 0}]}"#,
        ),
        (b"\x7f\x61\n\x62\xc3\xbc\xff", "\"\\n\u{fc}\""),
    ];
    for (bytes, json) in rows {
        let hex: String = bytes.iter().map(|byte| format!("{byte:02x}")).collect();
        assert_eq!(bytes_to_json(bytes).as_deref(), Ok(json));
        assert_eq!(hex_to_json(&hex).as_deref(), Ok(json));
        let line = format!("{json}\n").into_bytes();
        assert_eq!(convert(Form::Bytes, Form::Json, bytes), Ok(line));
    }
}

#[test]
fn from_text() {
    let line = |json: &str| Ok(format!("{json}\n").into_bytes());
    let edn = br#"{1: 1(h'00ff'), -1: 1.5_3}"#;
    let json = r#"{"1": "AP8", "-1": 1.5}"#;
    assert_eq!(convert(Form::Edn, Form::Json, edn), line(json));
    let notation = b"{1: [_ 1, 2]}";
    assert_eq!(
        convert(Form::Diag, Form::Json, notation),
        line(r#"{"1": [1, 2]}"#)
    );
    let document = r#"{"a": [1.5, null, "\n", 1e300]}"#;
    for form in [Form::Json, Form::JsonStrict] {
        assert_eq!(convert(form, form, document.as_bytes()), line(document));
    }
}

#[test]
fn keys_that_become_the_same() {
    let rows: [(Form, &[u8], usize, usize); 5] = [
        (Form::Bytes, b"\xa2\x01\x00\x61\x31\x00", 1, 3),
        (
            Form::Bytes,
            b"\x82\x00\xa3\x02\x00\x01\x00\x18\x01\x00",
            5,
            7,
        ),
        (Form::Hex, b"a2 01 00 # one\n 61 31 00", 1, 3),
        (Form::Diag, b"[0,{1:0,\"1\":0}]", 3, 5),
        (Form::Edn, b"{\"a\": 0, \"\\u0061\": 0}", 1, 4),
    ];
    for (from, input, first, second) in rows {
        assert_eq!(convert(from, Form::Json, input), Err(Error::SameKeys));
        let fault = JsonFault::SameKeys { first, second };
        assert_eq!(
            json_fault(from, Form::Json, input),
            Some(fault),
            "{input:x?}"
        );
    }
    let text = Error::SameKeys.to_string();
    assert_eq!(text, "two keys of a map become the same in JSON");
}

#[test]
fn what_json_does_not_keep() {
    let rows: [(&str, usize, LossKind); 5] = [
        ("c100", 0, LossKind::Tag),
        ("82f97e00c100", 1, LossKind::NotFinite),
        ("82f6f7", 2, LossKind::Simple),
        ("a1616182014100", 5, LossKind::Bytes),
        ("a26161000100", 4, LossKind::Key),
    ];
    for (hex, place, kind) in rows {
        assert_eq!(hex_to_json_strict(hex), Err(Error::NotKept), "{hex}");
        let fault = json_fault(Form::Hex, Form::JsonStrict, hex.as_bytes());
        assert_eq!(fault, Some(JsonFault::NotKept { place, kind }), "{hex}");
        assert_eq!(json_fault(Form::Hex, Form::Json, hex.as_bytes()), None);
        let bytes = semphluk::hex_to_bytes(hex).unwrap();
        assert_eq!(bytes_to_json_strict(&bytes), Err(Error::NotKept), "{hex}");
        assert!(bytes_to_json(&bytes).is_ok(), "{hex}");
    }
    assert_eq!(LossKind::Key.to_string(), "a key that is no text");
}

#[test]
fn no_item() {
    for to in [Form::Json, Form::JsonStrict] {
        assert_eq!(convert(Form::Bytes, to, b"\x82\x01"), Err(Error::CutShort));
        assert_eq!(json_fault(Form::Bytes, to, b"\x82\x01"), None);
        assert_eq!(convert(to, Form::Bytes, b"[1"), Err(Error::Notation));
        assert_eq!(Error::Notation.place(to, b"[1"), Some(2));
    }
}
