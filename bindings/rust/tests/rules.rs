//! Each kind of violation with its place, and items encoded again. Expected values are worked out by hand from docs/RULES.md.

use semphluk::{violation, reencode, reencode_fault};
use semphluk::{Violation, ViolationKind, Error, ReencodeFault, Rules};

fn assert_kept(bytes: &[u8], rules: Rules) {
    assert_eq!(violation(bytes, rules), Ok(None), "{bytes:x?} by {rules:?}");
}

fn assert_violation(bytes: &[u8], rules: Rules, place: usize, kind: ViolationKind) {
    let found = Violation { place, kind };
    let expected = Ok(Some(found));
    assert_eq!(violation(bytes, rules), expected, "{bytes:x?} by {rules:?}");
}

#[test]
fn kept() {
    assert_kept(b"", Rules::Rfc8949);
    assert_kept(b"\x18\x01\xbf\xff", Rules::Rfc8949);
    assert_kept(b"\xa2\x01\x80\x01\x80", Rules::Rfc8949);
    assert_kept(b"\xa2\x0a\x01\x18\x64\x02", Rules::Core);
    assert_kept(b"\xf9\x3e\x00\xf6", Rules::Dcbor);
}

#[test]
fn no_item() {
    let kind = ViolationKind::NoItem;
    assert_violation(b"\x01\x82\x01", Rules::Rfc8949, 3, kind(Error::CutShort));
    assert_violation(b"\x82\x01\x1c", Rules::Core, 2, kind(Error::Head));
    assert_violation(b"\x81\x61\xff", Rules::Valid, 1, kind(Error::Utf8));
}

#[test]
fn heads() {
    assert_violation(b"\x81\xf8\x18", Rules::Rfc8949, 1, ViolationKind::LongSimple);
    assert_violation(b"\x01\x18\x17", Rules::Preferred, 1, ViolationKind::LongHead);
    assert_violation(b"\x01\x63\xe2\x84\xab", Rules::Dcbor, 1, ViolationKind::NotNfc);
    assert_violation(b"\xf4\xf7", Rules::Dcbor, 1, ViolationKind::OtherSimple);
    assert_violation(
        b"\x01\x9f\xff",
        Rules::LengthFirst,
        1,
        ViolationKind::Indefinite,
    );
    assert_violation(b"\x81\xc1\x00", Rules::Ctap2, 1, ViolationKind::Tag);
    assert_violation(
        b"\x81\x81\x81\x81\x80",
        Rules::Ctap2,
        4,
        ViolationKind::TooDeep,
    );
}

#[test]
fn numbers() {
    assert_violation(
        b"\xfa\x3f\xc0\x00\x00",
        Rules::Core,
        0,
        ViolationKind::LongFloat,
    );
    assert_violation(
        b"\x81\xf9\x40\x00",
        Rules::Dcbor,
        1,
        ViolationKind::IntegerFloat,
    );
    assert_violation(b"\xf9\x7e\x01", Rules::Dcbor, 0, ViolationKind::OtherNan);
    let big = b"\x00\xc2\x49\x00\x01\x00\x00\x00\x00\x00\x00\x00";
    assert_violation(big, Rules::Preferred, 1, ViolationKind::LeadingZero);
    assert_violation(
        b"\xc3\x41\x01",
        Rules::Preferred,
        0,
        ViolationKind::SmallBigNumber,
    );
}

#[test]
fn keys() {
    let order = ViolationKind::KeyOrder { previous: 1 };
    assert_violation(b"\xa2\x18\x64\x01\x0a\x02", Rules::Core, 4, order);
    assert_violation(b"\xa2\x18\x64\x01\x20\x02", Rules::LengthFirst, 4, order);
    let twice = ViolationKind::KeyTwice { first: 1 };
    assert_violation(b"\xa2\x01\x80\x01\x80", Rules::Core, 3, twice);
    assert_violation(b"\xa3\x01\x80\x00\x80\x01\x80", Rules::Valid, 5, twice);
    assert_violation(b"\xa2\x01\x26\x18\x01\x27", Rules::Valid, 3, twice);
}

#[test]
fn texts() {
    let found = violation(b"\xa2\x01\x80\x01\x80", Rules::Core).unwrap();
    assert_eq!(found.unwrap().to_string(), "a key that stands twice");
    let found = violation(b"\x82\x01", Rules::Core).unwrap();
    assert_eq!(found.unwrap().to_string(), "the item is cut short");
}

#[test]
fn encoded_again() {
    let again = |bytes: &[u8], rules| reencode(bytes, rules).unwrap();
    assert_eq!(again(b"", Rules::Core), b"");
    let map = b"\xbf\x18\x02\x80\x01\x9f\xff\xff";
    assert_eq!(again(map, Rules::Core), b"\xa2\x01\x80\x02\x80");
    let keys = b"\xa2\x18\x64\x02\x20\x01";
    assert_eq!(again(keys, Rules::Core), keys);
    let shorter_first = b"\xa2\x20\x01\x18\x64\x02";
    assert_eq!(again(keys, Rules::LengthFirst), shorter_first);
    let many = [b"\x9f".as_slice(), &[1; 300], b"\xff"].concat();
    let counted = [b"\x99\x01\x2c".as_slice(), &[1; 300]].concat();
    assert_eq!(again(&many, Rules::Core), counted);
    assert_eq!(
        again(b"\xf9\x40\x00\xf9\x80\x00", Rules::Dcbor),
        b"\x02\x00"
    );
    assert_eq!(again(b"\xc2\x41\x05", Rules::Core), b"\x05");
}

#[test]
fn not_encodable() {
    let refused = Err(Error::NotEncodable);
    assert_eq!(reencode(b"\x82\x01", Rules::Core), refused);
    assert_eq!(reencode(b"\x18\x01\xc1\x00", Rules::Ctap2), refused);
    let twice = b"\xa2\x01\x80\x18\x01\x80";
    assert_eq!(reencode(twice, Rules::Core), refused);
    assert_eq!(reencode(twice, Rules::Preferred), refused);
    let text = Error::NotEncodable.to_string();
    assert_eq!(text, "no encoding of the items keeps the rules");
}

#[test]
fn why_not_encodable() {
    let twice = |first| ViolationKind::KeyTwice { first };
    let violation = |place, kind| Some(ReencodeFault::Violation(Violation { place, kind }));
    let cut = ViolationKind::NoItem(Error::CutShort);
    let nested = b"\x81\xa3\x01\x80\x02\x80\x18\x01\x80";
    let written = Some(ReencodeFault::Written);
    let rows: [(Rules, &[u8], Option<ReencodeFault>); 7] = [
        (Rules::Core, b"\xa2\x02\x80\x01\x80", None),
        (
            Rules::Core,
            b"\xa2\x01\x80\x18\x01\x80",
            violation(3, twice(1)),
        ),
        (Rules::Core, nested, violation(6, twice(2))),
        (Rules::Valid, b"\xa2\x01\x80\x01\x80", violation(3, twice(1))),
        (
            Rules::Ctap2,
            b"\x18\x01\xc1\x00",
            violation(2, ViolationKind::Tag),
        ),
        (Rules::Core, b"\x01\x82\x01", violation(3, cut)),
        (Rules::Dcbor, b"\x7f\x61e\x62\xcc\x81\xff", written),
    ];
    for (rules, bytes, fault) in rows {
        assert_eq!(
            reencode_fault(bytes, rules),
            Ok(fault),
            "{bytes:x?} by {rules:?}"
        );
        let is_encoded = reencode(bytes, rules).is_ok();
        assert_eq!(is_encoded, fault.is_none(), "{bytes:x?} by {rules:?}");
    }
}
