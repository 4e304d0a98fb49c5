//! Expected values are worked out by hand from RFC 7049 and the documents in docs/.

use semphluk::{convert, extent, Error, Extent, Form};
use std::thread;

/// The forms that keep all of an item.
const FORMS: [Form; 6] = [
    Form::Bytes,
    Form::Hex,
    Form::Diag,
    Form::Pretty,
    Form::Edn,
    Form::EdnPretty,
];

/// A tag over a text in each form, in the order of `FORMS`.
const URI: [&[u8]; 6] = [
    b"\xd8\x20\x73https://example.com",
    b"\
d8 20                                        # uri, tag(32)
   73                                        #   text(19)
      68747470733a2f2f6578616d706c652e636f6d #     \"https://example.com\"
                                             #   valid URL (checked against URL Standard, not RFC 3986)
",
    b"32_0(\"https://example.com\")\n",
    b"32_0(\"https://example.com\")\n",
    b"32(\"https://example.com\")\n",
    b"32(\"https://example.com\")\n",
];

fn assert_all_pairs(forms: [&[u8]; 6]) {
    for (from, input) in FORMS.into_iter().zip(forms) {
        for (to, expected) in FORMS.into_iter().zip(forms) {
            // EDN leaves the width of a tag open, and then the other notation states none.
            let is_open = matches!(from, Form::Edn | Form::EdnPretty) && forms == URI;
            let expected = match to {
                Form::Diag | Form::Pretty if is_open => forms[4],
                _ => expected,
            };
            let output = convert(from, to, input).unwrap();
            assert!(output == expected, "from {from:?} to {to:?}");
        }
    }
}

#[test]
fn each_pair_of_forms() {
    assert_all_pairs(URI);
}

#[test]
fn named_conversions() {
    let item = [0x81, 0x01];
    let dump = "81    # array(1)\n   01 #   unsigned(1)\n";
    assert_eq!(semphluk::bytes_to_hex(&item).as_deref(), Ok(dump));
    assert_eq!(semphluk::bytes_to_diag(&item).as_deref(), Ok("[1]"));
    assert_eq!(semphluk::bytes_to_diag_pretty(&item).as_deref(), Ok("[1]"));
    assert_eq!(semphluk::hex_to_bytes(dump).as_deref(), Ok(&item[..]));
    assert_eq!(semphluk::hex_to_diag(dump).as_deref(), Ok("[1]"));
    assert_eq!(semphluk::hex_to_diag_pretty(dump).as_deref(), Ok("[1]"));
    assert_eq!(semphluk::diag_to_bytes("[1]").as_deref(), Ok(&item[..]));
    assert_eq!(semphluk::diag_to_hex("[1]").as_deref(), Ok(dump));
}

#[test]
fn edn() {
    let rows: [(&str, &[u8], &str); 6] = [
        ("1.5", b"\xf9\x3e\x00", "1.5"),
        ("1.5_2", b"\xfa\x3f\xc0\x00\x00", "1.5_2"),
        ("\"\\n\\u00fc\"", b"\x63\n\xc3\xbc", "\"\\n\u{fc}\""),
        ("[_0 1_1]", b"\x98\x01\x19\x00\x01", "[_0 1_1]"),
        (
            "{\"a\": [1, null]}",
            b"\xa1\x61a\x82\x01\xf6",
            "{\"a\": [1, null]}",
        ),
        ("'\u{fc}' // bytes", b"\x42\xc3\xbc", "h'c3bc'"),
    ];
    for (given, item, line) in rows {
        let hex: String = item.iter().map(|byte| format!("{byte:02x}")).collect();
        assert_eq!(
            semphluk::edn_to_bytes(given).as_deref(),
            Ok(item),
            "{given}"
        );
        assert_eq!(semphluk::bytes_to_edn(item).as_deref(), Ok(line));
        assert_eq!(semphluk::bytes_to_edn_pretty(item).as_deref(), Ok(line));
        assert_eq!(semphluk::hex_to_edn(&hex).as_deref(), Ok(line));
        assert_eq!(semphluk::hex_to_edn_pretty(&hex).as_deref(), Ok(line));
        assert_eq!(semphluk::edn_to_hex(line), semphluk::bytes_to_hex(item));
    }
    let date = "1(0 /1970-01-01T00:00:00Z/)";
    assert_eq!(semphluk::bytes_to_edn(b"\xc1\x00").as_deref(), Ok("1(0)"));
    assert_eq!(
        semphluk::bytes_to_edn_pretty(b"\xc1\x00").as_deref(),
        Ok(date)
    );
}

#[test]
fn explanations() {
    let blank =
        "a blank has to follow: [_1 ] is an empty array, and [_ 1] one of indefinite length";
    let rows: [(Form, &[u8], &str); 4] = [
        (Form::Edn, b"{\"a\" 1}", "a colon has to follow the key"),
        (Form::EdnPretty, b"[_1]", blank),
        (Form::Edn, b"\xff", "a text is not UTF-8"),
        (
            Form::Bytes,
            b"\x82\x01",
            "truncated: the array at byte 0 has 2 items, 1 is there",
        ),
    ];
    for (from, input, text) in rows {
        let error = convert(from, Form::Bytes, input).unwrap_err();
        assert_eq!(error.explain(from, input), text);
    }
    assert_eq!(
        Error::Head.explain(Form::Bytes, b"\x01"),
        "no item can have this head"
    );
}

#[test]
fn paths_of_errors() {
    let deep = [b"\x81".repeat(127), b"\x1f".to_vec()].concat();
    let path = ["0"; 127].join("/");
    let rows: [(Form, &[u8], Option<&str>); 9] = [
        (Form::Bytes, b"", Some("/")),
        (Form::Bytes, b"\x82\x01", Some("1")),
        (Form::Bytes, b"\xa1\x61k\x82\x01\x1f", Some("k/1")),
        (Form::Bytes, b"\x81\x02\x03", None),
        (Form::Bytes, &deep, Some(&path)),
        (Form::Hex, b"82 01 # one\n 1c # 28", Some("1")),
        (Form::Hex, b"82 0g", None),
        (Form::Diag, b"[1, 2.5]", None),
        (Form::Edn, b"{\"a\" 1}", None),
    ];
    for (from, input, path) in rows {
        let error = convert(from, Form::Bytes, input).unwrap_err();
        assert_eq!(error.path(from, input).as_deref(), path, "{input:x?}");
        assert_eq!(Error::Memory.path(from, input), None, "{input:x?}");
    }
}

#[test]
fn each_error() {
    let deep = [b"\x81".repeat(128), vec![1]].concat();
    let rows: [(Form, &[u8], Error); 20] = [
        (Form::Bytes, b"", Error::CutShort),
        (Form::Bytes, b"\x82\x01", Error::CutShort),
        (Form::Bytes, b"\x1c", Error::Head),
        (Form::Bytes, b"\x61\xff", Error::Utf8),
        (Form::Hex, b"\xff", Error::Utf8),
        (Form::Diag, b"\xff", Error::Utf8),
        (Form::Bytes, &deep, Error::TooDeep),
        (Form::Bytes, &b"\x81".repeat(200000), Error::TooDeep),
        (Form::Hex, &b"81".repeat(200000), Error::TooDeep),
        (Form::Diag, &b"[".repeat(200000), Error::TooDeep),
        (Form::Pretty, &b"{".repeat(200000), Error::TooDeep),
        (Form::Bytes, b"\x01\x02", Error::Remaining),
        (Form::Hex, b"0", Error::OddHex),
        (Form::Hex, b"0g", Error::BadHex),
        (Form::Diag, b"1.5", Error::Notation),
        (Form::Diag, b"300_0", Error::PastWidth),
        (Form::Edn, b"", Error::Notation),
        (Form::Edn, b"1 2", Error::Notation),
        (Form::EdnPretty, b"300_0", Error::Notation),
        (Form::Edn, b"\xff", Error::Utf8),
    ];
    for (from, input, error) in rows {
        for to in FORMS.into_iter().chain([Form::Json, Form::JsonStrict]) {
            let begin = &input[..input.len().min(20)];
            assert_eq!(
                convert(from, to, input),
                Err(error),
                "{begin:x?} from {from:?} to {to:?}"
            );
        }
    }
}

#[test]
fn extents() {
    let openings = b"\x81".repeat(200000);
    let rows: [(&[u8], Extent); 9] = [
        (b"", Extent::Cut),
        (b"\x01", Extent::Item(1)),
        (b"\x01\x02", Extent::Item(1)),
        (b"\x82\x01\x02\x03", Extent::Item(3)),
        (b"\x82\x01", Extent::Cut),
        (
            b"\x82\x01\x1c\x00",
            Extent::Fault {
                error: Error::Head,
                end: 3,
            },
        ),
        (
            b"\x81\x62\xff\x00\x00",
            Extent::Fault {
                error: Error::Utf8,
                end: 4,
            },
        ),
        (
            &openings,
            Extent::Fault {
                error: Error::TooDeep,
                end: 129,
            },
        ),
        (b"\x9f\x01\xff\xff", Extent::Item(3)),
    ];
    for (bytes, expected) in rows {
        assert_eq!(
            extent(bytes),
            expected,
            "{:x?}",
            &bytes[..bytes.len().min(20)]
        );
    }
}

#[test]
fn places_of_errors() {
    let rows: [(Form, &[u8], Error, Option<usize>); 17] = [
        (Form::Bytes, b"", Error::CutShort, Some(0)),
        (Form::Bytes, b"\x82\x01", Error::CutShort, Some(2)),
        (Form::Bytes, b"\x82\x01\x1c\x00", Error::Head, Some(2)),
        (Form::Bytes, b"\x81\x62\xff\x00\x00", Error::Utf8, Some(3)),
        (Form::Bytes, b"\x81\x02\x03\x04", Error::Remaining, Some(2)),
        (Form::Hex, b"82 01 # two", Error::CutShort, Some(11)),
        (Form::Hex, b"82 01 # one\n 1c # 28", Error::Head, Some(13)),
        (Form::Hex, b"82 01 0#\n2 03 04", Error::Remaining, Some(11)),
        (Form::Hex, b"82 0g", Error::BadHex, Some(4)),
        (Form::Hex, b"82 01 0 # half", Error::OddHex, Some(6)),
        (Form::Hex, b"82 # \xff", Error::Utf8, Some(5)),
        (Form::Pretty, b"[\"\xc3\xbc\", \xff]", Error::Utf8, Some(7)),
        (Form::Diag, b"[1, 2.5]", Error::Notation, Some(5)),
        (Form::Diag, b"[1, 2", Error::Notation, Some(5)),
        (Form::Diag, b"[300_0]", Error::PastWidth, Some(6)),
        (Form::Edn, b"{\"a\" 1}", Error::Notation, Some(5)),
        (
            Form::EdnPretty,
            b"[\"\xc3\xbc\", \xff]",
            Error::Utf8,
            Some(7),
        ),
    ];
    for (from, input, error, place) in rows {
        assert_eq!(convert(from, Form::Bytes, input), Err(error), "{input:x?}");
        assert_eq!(error.place(from, input), place, "{input:x?}");
        assert_eq!(Error::Memory.place(from, input), None, "{input:x?}");
    }
    assert_eq!(Error::Head.place(Form::Bytes, b"\x01"), None);
}

#[test]
fn texts_of_errors() {
    let rows = [
        (Error::Memory, "out of memory"),
        (Error::CutShort, "the item is cut short"),
        (Error::Head, "no item can have this head"),
        (Error::Utf8, "a text is not UTF-8"),
        (Error::TooDeep, "nested deeper than 128 levels"),
        (Error::Remaining, "bytes remain after the item"),
        (Error::OddHex, "an odd number of hex digits"),
        (Error::BadHex, "not a hex digit"),
        (Error::Notation, "not diagnostic notation"),
        (Error::PastWidth, "a number does not fit its width"),
    ];
    for (error, text) in rows {
        assert_eq!(error.to_string(), text);
        let error: Box<dyn std::error::Error + Send + Sync> = error.into();
        assert_eq!(error.to_string(), text);
    }
}

#[test]
fn an_output_far_longer_than_its_input() {
    // 120 arrays, one in the other: each has a line of its own, three blanks deeper than the one around it.
    let dump = semphluk::bytes_to_hex(&[b"\x81".repeat(119), vec![0x80]].concat()).unwrap();
    let lines: Vec<_> = dump.lines().collect();
    assert_eq!(lines.len(), 120);
    assert!(
        lines[119].starts_with(&format!("{}80 #", " ".repeat(357))),
        "{}",
        lines[119]
    );
}

#[test]
fn a_megabyte_of_each_form() {
    let count = 500000;
    let head = [&[0x9a][..], &u32::to_be_bytes(count)].concat();
    let count = count as usize;
    assert_all_pairs([
        &[&head[..], &b"\x01".repeat(count)].concat(),
        &[
            format!("9a {count:08x} # array({count})\n").as_bytes(),
            &b"   01       #   unsigned(1)\n".repeat(count),
        ]
        .concat(),
        &[b"[", &b"1,".repeat(count - 1)[..], b"1]\n"].concat(),
        &[b"[\n", &b"    1,\n".repeat(count)[..], b"]\n"].concat(),
        &[b"[", &b"1, ".repeat(count - 1)[..], b"1]\n"].concat(),
        &[b"[\n", &b"    1,\n".repeat(count)[..], b"]\n"].concat(),
    ]);
}

#[test]
fn four_threads_at_once() {
    thread::scope(|scope| {
        for _ in 0..4 {
            scope.spawn(|| (0..2000).for_each(|_| assert_all_pairs(URI)));
        }
    });
}

#[test]
fn version() {
    assert_eq!(semphluk::library_version(), (0, 1, 0));
}
