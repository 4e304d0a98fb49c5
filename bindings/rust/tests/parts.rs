//! Heads, parts and values, and the form of an input. Expected values are worked out by hand from RFC 8949.

use semphluk::{bytes_to_edn, edn_to_bytes, head, named, part, parts, paths, recognize, value};
use semphluk::{Error, HeadKind, Input, Part, Value};

const EDN: &str = r#"{"k": [1, {2: "hi"}], -1: 1(3), "e": [], "b": 24(<<[5]>>), "a  b": 1.5}"#;

#[test]
fn heads() {
    for (bytes, kind, indefinite, argument, number, length) in [
        (&b"\x19\x03\xe8"[..], HeadKind::Unsigned, false, 1000, 0.0, 3),
        (b"\x38\x63", HeadKind::Negative, false, 99, 0.0, 2),
        (b"\x43", HeadKind::Bytes, false, 3, 0.0, 1),
        (b"\x7f", HeadKind::Text, true, 0, 0.0, 1),
        (b"\x9f\xff", HeadKind::Array, true, 0, 0.0, 1),
        (b"\xa2", HeadKind::Map, false, 2, 0.0, 1),
        (b"\xd9\xd9\xf7", HeadKind::Tag, false, 55799, 0.0, 3),
        (b"\xf5", HeadKind::Simple, false, 21, 0.0, 1),
        (b"\xf9\x3e\x00", HeadKind::Float, false, 0x3e00, 1.5, 3),
        (b"\xff", HeadKind::Break, false, 0, 0.0, 1),
    ] {
        let (found, taken) = head(bytes).unwrap();
        assert_eq!((found.kind, found.indefinite), (kind, indefinite), "{bytes:x?}");
        assert_eq!((found.argument, found.number, taken), (argument, number, length));
    }
    assert_eq!(head(b""), Err(Error::CutShort));
    assert_eq!(head(b"\x1c"), Err(Error::Head));
}

#[test]
fn some_parts() {
    let item = edn_to_bytes(EDN).unwrap();
    for (path, edn) in [
        ("", &*bytes_to_edn(&item).unwrap()),
        ("k", r#"[1, {2: "hi"}]"#),
        ("k/1/2", r#""hi""#),
        ("k/*/2", r#""hi""#),
        ("-1", "1(3)"),
        ("b/0", "5"),
        (r#""a  b""#, "1.5"),
    ] {
        assert_eq!(bytes_to_edn(part(&item, path).unwrap()).unwrap(), edn, "{path}");
    }
    assert_eq!(part(&item, "x"), Err(Error::NoPart));
    assert_eq!(part(&item[..5], "k"), Err(Error::CutShort));
    assert_eq!(part(b"\x01\x01", ""), Err(Error::Remaining));
}

#[test]
fn several_parts() {
    let map = b"\xa2\x61a\x01\x61b\x82\x02\x03";
    let both = [Part { key: 1..3, item: 3..4 }, Part { key: 4..6, item: 6..9 }];
    assert_eq!(parts(map, "*").unwrap(), both);
    let inner = [Part { key: 7..7, item: 7..8 }, Part { key: 8..8, item: 8..9 }];
    assert_eq!(parts(map, "b/*").unwrap(), inner);
    assert_eq!(parts(map, "c").unwrap(), []);
    assert_eq!(parts(b"\x81", "*"), Err(Error::CutShort));
    let many = [&[0x98, 100][..], &[1; 100]].concat();
    assert_eq!(parts(&many, "*").unwrap().len(), 100);
}

#[test]
fn values() {
    for (edn, found) in [
        ("18446744073709551615", Value::Integer(u64::MAX.into())),
        ("-18446744073709551616", Value::Integer(-1 - i128::from(u64::MAX))),
        ("1.5", Value::Float(1.5)),
        ("1(1.5)", Value::Float(1.5)),
        (r#""hi""#, Value::Text("hi".into())),
        (r#"(_ "a", "bc")"#, Value::Text("abc".into())),
        ("h'00ff'", Value::Bytes(b"\x00\xff"[..].into())),
        ("(_ h'01', h'02')", Value::Bytes(b"\x01\x02"[..].into())),
        ("true", Value::Bool(true)),
        ("false", Value::Bool(false)),
        ("null", Value::Null),
        ("undefined", Value::Null),
        ("[1]", Value::Part(b"\x81\x01")),
        ("simple(99)", Value::Part(b"\xf8\x63")),
    ] {
        let item = edn_to_bytes(&format!("[{edn}]")).unwrap();
        assert_eq!(value(&item, "0").unwrap(), found, "{edn}");
    }
    assert_eq!(value(b"\xa0", "k"), Err(Error::NoPart));
}

#[test]
fn all_paths() {
    let item = edn_to_bytes(EDN).unwrap();
    let found = paths(&item).unwrap();
    let wanted = ["k/0", "k/1/2", "-1", "e", "b/@/0", r#""a  b""#];
    assert_eq!(found.iter().map(|one| &*one.0).collect::<Vec<_>>(), wanted);
    for (path, edn) in found {
        assert_eq!(bytes_to_edn(part(&item, &path).unwrap()).unwrap(), edn);
    }
    assert_eq!(paths(b"\x81"), Err(Error::CutShort));
}

#[test]
fn names_in_edn() {
    assert_eq!(named(b"\xa1\x01\x04", None).unwrap(), "{1: 4}");
    assert_eq!(named(b"\xa0", Some("what")), Err(Error::NoType));
    assert_eq!(named(b"\x81", None), Err(Error::CutShort));
}

#[test]
fn forms_of_inputs() {
    for (input, form, bytes) in [
        (&b"0x82 01 02"[..], Input::Hex, &b"\x82\x01\x02"[..]),
        (b"[1, 2] 3", Input::Edn, b"\x82\x01\x02\x03"),
        (b"ggEC", Input::Base64, b"\x82\x01\x02"),
        (b"\x82\x01\x02\xf5", Input::Bytes, b"\x82\x01\x02\xf5"),
    ] {
        assert_eq!(recognize(input).unwrap(), (form, bytes.to_vec()));
    }
    assert_eq!(recognize(b"what is it?"), Err(Error::NotRecognized));
}
