//! Items that are checked by CDDL.

use semphluk::{CddlError, Error, Misfit, Schema};

const CDDL: &str = "record = {
  at: time,
  event: \"open\" / \"close\",
}
name = tstr .regexp \"[a-z]+\"
";

const FITS: &[u8] = b"\xa2\x62at\xc1\x00\x65event\x64open";
const MISFIT: &[u8] = b"\xa2\x62at\xc1\x00\x65event\x66opened";

fn schema(rule: Option<&str>) -> Schema {
    Schema::new(CDDL, rule).unwrap()
}

fn misfit(schema: &Schema, bytes: &[u8]) -> Misfit {
    schema.check(bytes).unwrap().unwrap()
}

#[test]
fn misfits() {
    let schema = schema(None);
    assert_eq!(schema.check(FITS), Ok(None));
    assert_eq!(schema.check(b""), Ok(None));
    let found = misfit(&schema, &[FITS, MISFIT].concat());
    assert_eq!((found.place, found.item, found.line), (29, 17, Some(3)));
    assert_eq!(found.path, "event");
    assert_eq!(found.expected, "\"open\" / \"close\"");
    assert_eq!(found.found, "\"opened\"");
    assert_eq!(found.rule.as_deref(), Some("event"));
    let message = "expected \"open\" / \"close\" for event (line 3), found \"opened\"; at event";
    assert_eq!(found.message, message);
    assert_eq!(found.to_string(), format!("byte 29: {message}"));
    let found = misfit(&schema, b"\x01");
    assert_eq!((found.place, found.path.as_str(), found.expected.as_str()), (0, "", "a map"));
}

#[test]
fn rules() {
    let schema = schema(Some("name"));
    assert_eq!(schema.check(b"\x62hi"), Ok(None));
    assert_eq!(misfit(&schema, b"\x62Hi").found, "\"Hi\"");
}

fn assert_error(cddl: &str, rule: Option<&str>, text: &str, place: Option<(usize, usize)>) {
    let CddlError { line, column, .. } = Schema::new(cddl, rule).unwrap_err();
    assert_eq!(line.zip(column), place, "{cddl}");
    assert_eq!(Schema::new(cddl, rule).unwrap_err().to_string(), text);
}

#[test]
fn errors_of_cddl() {
    let text = "2:6: no rule uit is there; uint is one";
    assert_error("a = {\n  b: uit\n}", None, text, Some((2, 6)));
    assert_error("a = uint", Some("b"), "no rule b is there", None);
    assert_error("", None, "no rule is there", None);
}

#[test]
fn errors_of_items() {
    let schema = Schema::new("a = any", None).unwrap();
    assert_eq!(schema.check(b"\x01\x82\x01"), Err(Error::CutShort));
    assert_eq!(schema.check(b"\x01\x1f"), Err(Error::Head));
    assert_eq!(schema.check(b"\x61\xff"), Err(Error::Utf8));
}
