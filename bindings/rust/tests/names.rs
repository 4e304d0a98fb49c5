//! Names of parts, from RFC 9052, table 3 and section 4.2, and RFC 9053, table 18.

use semphluk::{name_at, Error};

const SIGN1: &[u8] = b"\xd2\x84\x43\xa1\x01\x26\xa0\x40\x40";
const KEY: &[u8] = b"\xa2\x01\x04\x20\x41\x00";

fn assert_name(bytes: &[u8], path: &str, kind: Option<&str>, name: Option<&str>) {
    let found = name_at(bytes, path, kind);
    assert_eq!(found.as_ref().map(|it| it.as_deref()), Ok(name), "{path}");
}

#[test]
fn names() {
    assert_name(SIGN1, "", None, Some("COSE_Sign1"));
    assert_name(SIGN1, "0", None, Some("protected"));
    assert_name(SIGN1, "0/@/1", None, Some("alg"));
    assert_name(SIGN1, "3", None, Some("signature"));
    assert_name(SIGN1, "*", None, None);
    assert_name(KEY, "1", None, None);
    assert_name(KEY, "", Some("COSE_Key"), Some("COSE_Key"));
    assert_name(KEY, "-1", Some("COSE_Key"), Some("k"));
}

#[test]
fn errors() {
    assert_eq!(name_at(SIGN1, "4", None), Err(Error::NoPart));
    assert_eq!(name_at(SIGN1, "0/1", None), Err(Error::NoPart));
    assert_eq!(name_at(SIGN1, "0", Some("COSE_Kex")), Err(Error::NoType));
    assert_eq!(name_at(b"\x82\x01", "0", None), Err(Error::CutShort));
    assert_eq!(name_at(b"\x01\x02", "", None), Err(Error::Remaining));
}
