//! The lines of a page, by the definitions of its lines, and files of names.

use semphluk::{convert, names_fault, page, Error, Form, PageStyle};

/// The lines of the item 1.
const LINE: &str = "<span class=\"l\"><a class=\"o\" id=\"x0\" href=\"#x0\">0000</a>\
    <span class=\"h\"><b class=\"n\">01</b></span>\
    <span class=\"t\"><span class=\"n\" data-s=\"0\" data-e=\"1\">1</span></span>\n</span>";

/// A file of names, and an item that it names.
const NAMES: &str = "[Thing]\ntag = 1000\nmap = { 1 = \"one\" }\n";
const THING: &[u8] = b"\xd9\x03\xe8\xa1\x01\x02";

fn plain(bytes: &[u8]) -> String {
    page(bytes, PageStyle::default()).unwrap()
}

#[test]
fn lines() {
    assert_eq!(plain(b"\x01"), LINE);
    assert_eq!(plain(b""), "");
    for (form, one) in [
        (Form::Bytes, &b"\x01"[..]),
        (Form::Hex, b"01"),
        (Form::Edn, b"1"),
        (Form::Html, b"1 # one"),
    ] {
        assert_eq!(convert(form, Form::Html, one).unwrap(), LINE.as_bytes());
    }
    assert_eq!(convert(Form::Html, Form::Bytes, b"1").unwrap(), b"\x01");
    assert!(plain(b"\x63<&>").contains("&lt;&amp;&gt;"));
    assert!(plain(b"\x01\x82\x01").contains("truncated: "));
    assert!(plain(b"\x82\x01\x1f").contains("malformed: "));
}

#[test]
fn styles() {
    let named = PageStyle {
        names: NAMES,
        ..PageStyle::default()
    };
    let lines = page(THING, named).unwrap();
    assert!(lines.contains("/Thing/") && lines.contains("/one/"));
    assert!(!plain(THING).contains("/Thing/"));
    let bare = PageStyle {
        notes: false,
        ..named
    };
    assert!(!page(THING, bare).unwrap().contains("/Thing/"));
    let embedded = PageStyle {
        embedded: true,
        ..PageStyle::default()
    };
    assert!(plain(b"\x43\x82\x01\x02").contains("h'820102'"));
    assert!(page(b"\x43\x82\x01\x02", embedded)
        .unwrap()
        .contains("&lt;&lt;"));
}

#[test]
fn errors() {
    let of = |kind, names| {
        let style = PageStyle {
            kind,
            names,
            ..PageStyle::default()
        };
        page(b"\xa0", style)
    };
    assert_eq!(of(Some("what"), ""), Err(Error::NoType));
    assert_eq!(of(Some("Thing"), ""), Err(Error::NoType));
    assert_eq!(of(None, "no TOML"), Err(Error::WrongNames));
    assert!(of(Some("Thing"), NAMES).is_ok());
    assert_eq!(
        convert(Form::Bytes, Form::Html, b"\x81"),
        Err(Error::CutShort)
    );
}

#[test]
fn files_of_names() {
    assert_eq!(names_fault(""), Ok(None));
    assert_eq!(names_fault(NAMES), Ok(None));
    let fault = names_fault("[A]\ntag = 1000\n[B]\ntag = 1000\n").unwrap();
    assert_eq!(
        fault.as_deref(),
        Some("line 4: another type of the file has this tag")
    );
    assert!(names_fault("no TOML")
        .unwrap()
        .unwrap()
        .starts_with("line 1: "));
}
