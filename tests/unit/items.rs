//! Tests items built in memory. No input gives most of these items. The tests check whether they
//! are well-formed, and how they are written if their widths are left open.

use cbor_diag::{ByteString, DataItem, FloatWidth, IntegerWidth, Result, Tag, TextString};
use std::alloc::Global;
use std::process::Abort;

/// Numbers and counts, their widths, and whether they fit.
const NUMBERS: [(u64, IntegerWidth, bool); 10] = [
    (23, IntegerWidth::Zero, true),
    (24, IntegerWidth::Zero, false),
    (255, IntegerWidth::Eight, true),
    (256, IntegerWidth::Eight, false),
    (0xffff, IntegerWidth::Sixteen, true),
    (0x1_0000, IntegerWidth::Sixteen, false),
    (0xffff_ffff, IntegerWidth::ThirtyTwo, true),
    (0x1_0000_0000, IntegerWidth::ThirtyTwo, false),
    (u64::MAX, IntegerWidth::SixtyFour, true),
    (u64::MAX, IntegerWidth::Unknown, true),
];

/// The same of the bits of floats.
const FLOATS: [(u64, FloatWidth, bool); 6] = [
    (0xffff, FloatWidth::Sixteen, true),
    (0x1_0000, FloatWidth::Sixteen, false),
    (0xffff_ffff, FloatWidth::ThirtyTwo, true),
    (0x1_0000_0000, FloatWidth::ThirtyTwo, false),
    (u64::MAX, FloatWidth::SixtyFour, true),
    (u64::MAX, FloatWidth::Unknown, true),
];

const ZERO: IntegerWidth = IntegerWidth::Zero;

fn number(value: u64, bitwidth: IntegerWidth) -> DataItem {
    DataItem::Integer { value, bitwidth }
}

fn in_array(alloc: Global, item: DataItem) -> Result<DataItem> {
    let content = vec![in alloc; item]?;
    let bitwidth = Some(ZERO);
    Ok(DataItem::Array { content, bitwidth })
}

fn tagged(alloc: Global, tag: u64, bitwidth: IntegerWidth) -> Result<DataItem> {
    let value = Box::new(alloc, number(0, ZERO))?;
    let tag = Tag(tag);
    Ok(DataItem::Tag {
        tag,
        bitwidth,
        value,
    })
}

/// Bytes of this many zeros, a text chunk of as many letters, an array and a map of as many items.
fn of_length(alloc: Global, count: usize, bitwidth: IntegerWidth) -> Result<[DataItem; 4]> {
    let content = vec![in alloc; 0u8; count]?;
    let bytes = DataItem::ByteString(ByteString { content, bitwidth });
    let content = "a".repeat(alloc, count)?;
    let chunk = vec![in alloc; TextString { content, bitwidth }]?;
    let bitwidth = Some(bitwidth);
    let mut content = Vec::new(alloc);
    let mut pairs = Vec::new(alloc);
    for _ in 0..count {
        content.push(number(0, ZERO))?;
        pairs.push((number(0, ZERO), number(0, ZERO)))?;
    }
    let array = DataItem::Array { content, bitwidth };
    let content = pairs;
    let map = DataItem::Map { content, bitwidth };
    Ok([bytes, DataItem::IndefiniteTextString(chunk), array, map])
}

fn check(rt: &impl Abort, item: Result<DataItem>, expected: bool) -> Result<()> {
    let item = item?;
    assert!(rt; item.is_well_formed() == expected, "{item:?}");
    Ok(())
}

#[test]
fn items_are_well_formed_where_numbers_fit(rt: HostRuntime) -> Result<()> {
    let alloc = rt.alloc();
    for (value, bitwidth, fits) in NUMBERS {
        check(&rt, Ok(number(value, bitwidth)), fits)?;
        let item = in_array(alloc, DataItem::Negative { value, bitwidth });
        check(&rt, item, fits)?;
        check(&rt, tagged(alloc, value, bitwidth), fits)?;
        if value <= 0x1_0000 {
            for item in of_length(alloc, value as usize, bitwidth)? {
                check(&rt, in_array(alloc, item), fits)?;
            }
        }
    }
    for (bits, bitwidth, fits) in FLOATS {
        check(&rt, Ok(DataItem::Float { bits, bitwidth }), fits)?;
    }
    Ok(())
}

/// A number in as many arrays.
fn nested(alloc: Global, count: u8) -> Result<DataItem> {
    let mut item = number(0, ZERO);
    for _ in 0..count {
        item = in_array(alloc, item)?;
    }
    Ok(item)
}

// A length counts bytes: these eight letters have 24.
#[test]
fn items_are_well_formed_up_to_128_levels(rt: HostRuntime) -> Result<()> {
    check(&rt, nested(rt.alloc(), 127), true)?;
    check(&rt, nested(rt.alloc(), 128), false)?;
    let (content, bitwidth) = ("水".repeat(rt.alloc(), 8)?, ZERO);
    let text = TextString { content, bitwidth };
    check(&rt, Ok(DataItem::TextString(text)), false)
}

/// The bytes and the texts of an item on one line.
fn written(alloc: Global, item: &DataItem) -> Result<String> {
    if !item.is_well_formed() {
        return Ok(String::from_str(alloc, "not well formed")?);
    }
    let mut bytes = Vec::from_slice(alloc, b"\xff")?;
    item.push_bytes(&mut bytes)?;
    let mut text = hex::encode(alloc, &bytes)?;
    item.push_diag(alloc, &mut text)?;
    item.push_diag_pretty(alloc, &mut text)?;
    Ok(text)
}

// The shortest width has an open one, but a float of an open width is a double.
#[test]
fn open_widths_are_written(rt: HostRuntime) -> Result<()> {
    let text = written(rt.alloc(), &number(23, IntegerWidth::Unknown))?;
    assert!(rt; text.as_str() == "ff172323", "{text}");
    let (bits, bitwidth) = (0x3c00, FloatWidth::Unknown);
    let text = written(rt.alloc(), &DataItem::Float { bits, bitwidth })?;
    let expected = "fffb0000000000003c00float'0000000000003c00'float'0000000000003c00'";
    assert!(rt; text.as_str() == expected, "{text}");
    Ok(())
}
