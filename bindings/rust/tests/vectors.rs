//! The rows of the vectors whose call is one of the crate's: `crates/vectors/data`, as `docs/VECTORS.md` has their
//! form.

use semphluk::{convert, edn_to_bytes, extent, reencode, violation, Error, Extent, Form, Misfit, Rules, Schema};
use std::fs;
use std::path::PathBuf;

struct Row {
    place: String,
    call: String,
    argument: String,
    input: Vec<u8>,
    wanted: Vec<u8>,
}

fn bytes_of(digits: &str) -> Vec<u8> {
    let digits: Vec<u8> = digits.bytes().filter(|byte| !b" \n".contains(byte)).collect();
    let value = |pair: &[u8]| u8::from_str_radix(std::str::from_utf8(pair).unwrap(), 16).unwrap();
    digits.chunks(2).map(value).collect()
}

fn hex_of(bytes: &[u8]) -> String {
    bytes.iter().map(|byte| format!("{byte:02x}")).collect()
}

impl Row {
    fn begun(place: String, line: &str) -> Row {
        let (head, input) = line.split_once("  ").unwrap_or((line, ""));
        let (call, argument) = head.split_once(' ').unwrap_or((head, ""));
        Row {
            place,
            call: call.to_string(),
            argument: argument.to_string(),
            input: input.as_bytes().to_vec(),
            wanted: Vec::new(),
        }
    }

    fn bytes(&self) -> Vec<u8> {
        bytes_of(std::str::from_utf8(&self.input).unwrap())
    }

    fn wanted(&self) -> &str {
        std::str::from_utf8(&self.wanted).unwrap()
    }
}

/// The rows of these calls.
fn rows(calls: &[&str]) -> Vec<Row> {
    let data = PathBuf::from(env!("CARGO_MANIFEST_DIR")).join("../../crates/vectors/data");
    let mut files: Vec<PathBuf> = fs::read_dir(data).unwrap().map(|entry| entry.unwrap().path()).collect();
    files.sort();
    let mut rows: Vec<Row> = Vec::new();
    for file in files {
        let name = file.file_name().unwrap().to_string_lossy().into_owned();
        // Whether a line of the input, or of the result, came before.
        let mut lines = (false, false);
        for (number, line) in fs::read_to_string(&file).unwrap().split('\n').enumerate() {
            if line.is_empty() || line.starts_with('#') {
                continue;
            }
            if line.starts_with(|first: char| first.is_ascii_lowercase()) {
                rows.push(Row::begun(format!("{name}:{}", number + 1), line));
                lines = (line.contains("  "), false);
                continue;
            }
            let row = rows.last_mut().unwrap();
            let (mark, rest) = line.split_once(' ').unwrap_or((line, ""));
            let (text, begun) = match mark {
                "|" | "$" => (&mut row.input, &mut lines.0),
                "=" | "%" => (&mut row.wanted, &mut lines.1),
                _ => panic!("{}: {line}", row.place),
            };
            if "|=".contains(mark) {
                if *begun {
                    text.push(b'\n');
                }
                text.extend_from_slice(rest.as_bytes());
            } else {
                text.extend(bytes_of(rest));
            }
            *begun = true;
        }
    }
    rows.retain(|row| calls.contains(&row.call.as_str()));
    assert!(!rows.is_empty(), "{calls:?}");
    rows
}

/// The form that a call reads, and the one that it writes.
fn forms(call: &str) -> (Form, Form) {
    match call {
        "bytes_to_diag" => (Form::Bytes, Form::Diag),
        "bytes_to_diag_pretty" => (Form::Bytes, Form::Pretty),
        "bytes_to_hex" => (Form::Bytes, Form::Hex),
        "bytes_to_edn" => (Form::Bytes, Form::Edn),
        "bytes_to_edn_pretty" => (Form::Bytes, Form::EdnPretty),
        "diag_to_bytes" => (Form::Diag, Form::Bytes),
        "diag_to_hex" => (Form::Diag, Form::Hex),
        "hex_to_bytes" => (Form::Hex, Form::Bytes),
        "hex_to_diag" => (Form::Hex, Form::Diag),
        "hex_to_diag_pretty" => (Form::Hex, Form::Pretty),
        _ => panic!("{call}"),
    }
}

/// What a conversion gives, as the rows write it.
fn converted(row: &Row) -> String {
    let (from, to) = forms(&row.call);
    let input = if from == Form::Bytes { row.bytes() } else { row.input.clone() };
    match convert(from, to, &input) {
        Ok(output) if to == Form::Bytes => hex_of(&output),
        Ok(output) => {
            let text = String::from_utf8(output).unwrap();
            text.strip_suffix('\n').unwrap().to_string()
        }
        Err(error) => format!("{error:?}"),
    }
}

#[test]
fn conversions() {
    let calls = [
        "bytes_to_diag",
        "bytes_to_diag_pretty",
        "bytes_to_hex",
        "bytes_to_edn",
        "bytes_to_edn_pretty",
        "diag_to_bytes",
        "diag_to_hex",
        "hex_to_bytes",
        "hex_to_diag",
        "hex_to_diag_pretty",
    ];
    for row in rows(&calls) {
        if row.argument.is_empty() {
            assert_eq!(converted(&row), row.wanted(), "{}", row.place);
        }
    }
}

#[test]
fn how_bytes_begin() {
    for row in rows(&["extent"]) {
        let found = match extent(&row.bytes()) {
            Extent::Item(len) => format!("item {len}"),
            Extent::Cut => "truncated".to_string(),
            Extent::Fault { error, end } => format!("malformed {error:?} {end}"),
        };
        assert_eq!(found, row.wanted(), "{}", row.place);
    }
}

/// The set of rules of a name.
fn rules_of(name: &str) -> Option<Rules> {
    Some(match name {
        "rfc8949" => Rules::Rfc8949,
        "valid" => Rules::Valid,
        "preferred" => Rules::Preferred,
        "core" => Rules::Core,
        "length-first" => Rules::LengthFirst,
        "ctap2" => Rules::Ctap2,
        "dcbor" => Rules::Dcbor,
        _ => return None,
    })
}

#[test]
fn rules() {
    for row in rows(&["violation_of"]) {
        let Some(rules) = rules_of(&row.argument) else { continue };
        let found = match violation(&row.bytes(), rules).unwrap() {
            None => "kept".to_string(),
            Some(violation) => format!("{} ", violation.place),
        };
        assert!(row.wanted().starts_with(&found), "{}: {found}", row.place);
    }
}

#[test]
fn encoded_again() {
    for row in rows(&["reencode"]) {
        let Some(rules) = rules_of(&row.argument) else { continue };
        let is_encoding = row.wanted().bytes().all(|byte| byte.is_ascii_hexdigit());
        match reencode(&row.bytes(), rules) {
            Ok(bytes) => assert_eq!(hex_of(&bytes), row.wanted(), "{}", row.place),
            Err(error) => {
                assert_eq!(error, Error::NotEncodable, "{}", row.place);
                assert!(!is_encoding, "{}", row.place);
            }
        }
    }
}

/// The bytes of an item: EDN, or `hex` and digits.
fn item_of(line: &str) -> Vec<u8> {
    match line.strip_prefix("hex ") {
        Some(digits) => bytes_of(digits),
        None => edn_to_bytes(line).unwrap(),
    }
}

/// What a row says of an item.
fn said(call: &str, misfit: Option<Misfit>) -> String {
    let Some(misfit) = misfit else {
        return "fits".to_string();
    };
    if call == "cddl_fits" {
        return format!("misfit {}", misfit.place);
    }
    let found = format!("found {}", misfit.found);
    let (head, rest) = misfit.message.split_once(&found).unwrap();
    let rest = rest.replacen("; ", "\n", 1);
    format!("{} {head}{found}{rest}", misfit.place).replace("(line ", "(:")
}

/// What is said of each item of a row of CDDL, or of the text.
fn checked(row: &Row) -> String {
    let input = std::str::from_utf8(&row.input).unwrap();
    let (cddl, items) = match row.call.as_str() {
        "cddl_fault" => (input, None),
        _ => input.rsplit_once("\n\n").map(|(cddl, items)| (cddl, Some(items))).unwrap(),
    };
    let rule = Some(row.argument.as_str()).filter(|rule| !rule.is_empty());
    let schema = match Schema::new(cddl, rule) {
        Ok(schema) => schema,
        Err(error) => {
            let place = format!("{}:{}", error.line.unwrap_or(1), error.column.unwrap_or(1));
            let text = error.to_string();
            return format!("{place} {}", text.strip_prefix(&format!("{place}: ")).unwrap_or(&text));
        }
    };
    let Some(items) = items else {
        return "none".to_string();
    };
    let lines = items.lines().map(|line| said(&row.call, schema.check(&item_of(line)).unwrap()));
    lines.collect::<Vec<_>>().join("\n")
}

#[test]
fn cddl() {
    for row in rows(&["cddl_fits", "cddl_message", "cddl_fault"]) {
        assert_eq!(checked(&row), row.wanted(), "{}", row.place);
    }
}
