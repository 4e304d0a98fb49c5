//! Makes calls of `cbor_inspect` and `cbor_places`, and checks that each gives the right result, or
//! the error for no memory.

use crate::tally::{Tally, is_answered};
use cbor_diag::Error;
use cbor_edn::EdnStyle;
use cbor_inside::Inside;
use cbor_inspect::{End, Form, Picture, Show, Step, Stream, Style, lost_at, show_items, steps_of};
use cbor_places::{Around, ByteNumbers, Leaves, Piece, lines_at};
use std::alloc::Global;
use std::io::{self, Print};
use std::process::Abort;

/// What is written of one item, or of its part.
#[derive(Clone, Copy)]
struct Case<'a> {
    form: Form,
    embedded: bool,
    path: &'a str,
    input: &'a [u8],
    output: &'a [u8],
}

const SIGNED: &[u8] = b"\x43\xa1\x01\x26";

const MAP: &[u8] = b"\xa2\x01\xc1\x1a\x65\x53\xf1\x00\x02\xf9\x3e\x00";

const PRETTY: &[u8] = b"{1: 1(1700000000 /2023-11-14T22:13:20Z/), 2: 1.5}\n";

const HIDDEN: &[u8] = b"\x63a\x0ab";

/// Bytes right below tag 24, and items in bytes right below tag 63.
const WITHIN: &[u8] = b"\x82\xd8\x18\x43\xa1\x01\x26\xd8\x3f\x43\x01\xf9\x00";

const SHOWN: &[u8] = b"[24(<<{1: -7}>>), 63(h'01f900')]\n";

const PAIRS: &[u8] = b"\xa2\x01\x82\x81\x07\x80\x02\x81\x82\x08\x09";

fn row<'a>(form: Form, embedded: bool, input: &'a [u8], output: &'a [u8]) -> Case<'a> {
    Case {
        form,
        embedded,
        path: "",
        input,
        output,
    }
}

fn part<'a>(path: &'a str, input: &'a [u8], output: &'a [u8]) -> Case<'a> {
    Case {
        form: Form::Diag,
        embedded: false,
        path,
        input,
        output,
    }
}

fn cases() -> [Case<'static>; 16] {
    [
        row(Form::Bytes, false, SIGNED, SIGNED),
        row(Form::Digits, false, SIGNED, b"43a10126\n"),
        row(Form::Diag, false, SIGNED, b"h'a10126'\n"),
        row(Form::Diag, true, SIGNED, b"<<{1: -7}>>\n"),
        row(Form::Pretty, true, SIGNED, b"<<{1: -7}>>\n"),
        row(Form::Pretty, false, MAP, PRETTY),
        row(Form::Pretty, true, MAP, PRETTY),
        row(Form::Diag, false, HIDDEN, b"\"a\\nb\"\n"),
        row(Form::Hex, false, b"\x20", b"20 # negative(-1)\n"),
        row(Form::Pretty, false, WITHIN, SHOWN),
        part("@/1", SIGNED, b"-7\n"),
        part("2", MAP, b"1.5\n"),
        part("a", b"\xa1\x61a\x03", b"3\n"),
        part("@1/@0", b"\x44\x00\x42\x05\xff", b"5\n"),
        part("*", b"\x82\x01\x61\x61", b"1\n\"a\"\n"),
        part("*/*/0", PAIRS, b"7\n8\n"),
    ]
}

/// What is written as the case asks, of the parts that these steps lead to.
fn show_of<'a>(case: &Case, steps: &'a [Step]) -> Show<'a> {
    Show {
        style: Style {
            form: case.form,
            embedded: case.embedded,
            notes: true,
            widths: false,
            columns: 80,
        },
        names: None,
        steps,
        one: false,
        marks: None,
    }
}

/// What was written, if that is all; if memory ran out, nothing may be.
fn written(end: End, out: Vec<u8>) -> Result<Vec<u8>, Error> {
    match end {
        End::Done => Ok(out),
        End::Memory if out.is_empty() => Err(Error::Memory),
        _ => Err(Error::Remaining),
    }
}

/// What is written of an item.
fn shown(alloc: Global, case: &Case) -> Result<Vec<u8>, Error> {
    let steps = steps_of(alloc, case.path)?;
    let show = show_of(case, &steps);
    let mut out = Vec::new(alloc);
    let end = show_items(&show, case.input, &mut out).end;
    written(end, out)
}

/// The same for an item that comes in two pieces. The first alone writes nothing. If memory
/// runs out there, the item is written once the second is there.
fn streamed(alloc: Global, case: &Case) -> Result<Vec<u8>, Error> {
    let steps = steps_of(alloc, case.path)?;
    let show = show_of(case, &steps);
    let (first, second) = case.input.split_at(case.input.len().saturating_sub(1));
    let mut out = Vec::new(alloc);
    let mut stream = Stream::new(Vec::from_slice(alloc, first)?);
    let cut = stream.show(&show, &mut out);
    stream.push(alloc, second)?;
    let end = stream.show(&show, &mut out);
    if cut == End::Memory && end == End::Done && out.as_slice() == case.output {
        return Err(Error::Memory);
    }
    written(end, out)
}

/// How many steps lead to the farthest item where paths lead nowhere: a map, a number and a map.
fn lost(alloc: Global) -> Result<Vec<u8>, Error> {
    let item = b"\x82\x01\x43\xa1\x01\x26";
    let mut out = Vec::new(alloc);
    for path in ["1/@/5", "1/@0/*/1", "*/@/5"] {
        let steps = steps_of(alloc, path)?;
        let count = lost_at(alloc, item, &steps, Picture::plain())?.steps;
        out.push(u8::try_from(count).unwrap_or(u8::MAX))?;
    }
    Ok(out)
}

const PLACED: &[u8] = b"\
at \"a/\"/1, in the array of 2 at byte 4, of which 1 is there
path: \"a/\"/0
head: 01 # 1
item: byte 5 (0x5)
";

/// What is said of a place in an item, and its lines.
fn placed(alloc: Global) -> Result<Vec<u8>, Error> {
    let piece = Piece {
        begins: 0,
        bytes: b"\xa1\x62a/\x82\x01\x1f",
    };
    let around = Around::of_end(alloc, piece)?;
    let mut out = around.words(&ByteNumbers, false)?;
    out.push('\n')?;
    out.push_str(&lines_at(alloc, (0, piece), 5, Inside::TAGGED)?)?;
    Ok(out.into_bytes())
}

/// The lines of paths.
fn lined(alloc: Global) -> Result<Vec<u8>, Error> {
    let items = Piece {
        bytes: MAP,
        begins: 0,
    };
    let mut leaves = Leaves::new(alloc, items, EdnStyle::LINE, Inside::TAGGED).with_places(true);
    let mut out = String::new(alloc);
    leaves.push_block(&mut out)?;
    Ok(out.into_bytes())
}

const LINED: &[u8] = b"0x2  1  1(1700000000)\n0x9  2  1.5\n";

/// Makes each call twice.
pub fn run(rt: &(impl Abort + Print), alloc: Global, tally: &mut Tally) -> io::Result<()> {
    for case in cases() {
        for _ in 0..2 {
            let found = shown(alloc, &case);
            tally.call(rt, "show_items", is_answered(rt, found, case.output))?;
            let found = streamed(alloc, &case);
            tally.call(rt, "Stream::show", is_answered(rt, found, case.output))?;
        }
    }
    for _ in 0..2 {
        tally.call(rt, "lost_at", is_answered(rt, lost(alloc), b"\x02\x03\x02"))?;
        tally.call(rt, "lines_at", is_answered(rt, placed(alloc), PLACED))?;
        tally.call(rt, "Leaves", is_answered(rt, lined(alloc), LINED))?;
    }
    Ok(())
}
