//! Runs the test rows about rules of an encoding, and returns each result as text. The calls:
//!
//! - `violation RULES`, `violation_in RULES` and `violation_of RULES` give the first violation.
//! - `violations` gives a line for each set that is violated.
//!
//! RULES is the name of a set, such as `core`, or names of single rules, such as `shortest_heads`.
//! Single rules are added to the set before them, or to the grammar of RFC 8949. `rules_of` reads
//! RULES, also for `reencode.rs`.

use crate::row::Row;
use crate::subjects::lines::{lines_or, push_line};
use cbor_floats::EncodedFloat;
use cbor_reencode::violation_of;
use cbor_rules::{
    KeyOrder, RULES, RuleSet, Rules, Violation, ViolationKind, violation, violation_in,
};
use std::alloc::{AllocError, Global};

/// What the call of a row gives; none if it is no call of this subject.
pub fn answer(alloc: Global, row: &Row) -> Result<Option<String>, AllocError> {
    let Some(rules) = rules_of(row.argument) else {
        return Ok(None);
    };
    let found = match row.call {
        "violation" => found_text(alloc, violation(&row.bytes, rules)),
        "violation_in" => found_text(alloc, violation_in(alloc, &row.bytes, rules)?),
        "violation_of" => found_text(alloc, violation_of(alloc, &row.bytes, rules)?),
        "violations" => violations(alloc, &row.bytes),
        _ => return Ok(None),
    };
    Ok(Some(found?))
}

/// The rules of these words; none if one of the words is no rule.
pub fn rules_of(words: &str) -> Option<Rules> {
    let mut rules = Rules::RFC_8949;
    for word in words.split_whitespace() {
        match word {
            "rfc8949" => rules = Rules::RFC_8949,
            "shortest_heads" => rules.shortest_heads = true,
            "shortest_floats" => rules.shortest_floats = true,
            "definite_lengths" => rules.definite_lengths = true,
            "big_numbers" => rules.big_numbers = true,
            "nfc" => rules.nfc = true,
            "distinct_keys" => rules.distinct_keys = true,
            "keys_by_bytes" => rules.key_order = KeyOrder::Bytes,
            "keys_by_length" => rules.key_order = KeyOrder::Length,
            "keys_by_major_type" => rules.key_order = KeyOrder::MajorType,
            word => rules = RuleSet::named(word)?.rules,
        }
    }
    Some(rules)
}

/// The sets of rules that bytes break, and where and how they break each.
fn violations(alloc: Global, bytes: &[u8]) -> Result<String, AllocError> {
    let mut text = String::new(alloc);
    for name in RULES.iter() {
        let rules = rules_of(name).unwrap_or(Rules::RFC_8949);
        if let Some(found) = violation_of(alloc, bytes, rules)? {
            let words = violation_text(alloc, found)?;
            push_line(&mut text, &format!(in alloc; "{name} {words}")?)?;
        }
    }
    lines_or(text, "kept")
}

/// The place of a violation and what is wrong there, or `kept`.
fn found_text(alloc: Global, found: Option<Violation>) -> Result<String, AllocError> {
    match found {
        Some(found) => violation_text(alloc, found),
        None => String::from_str(alloc, "kept"),
    }
}

/// The place of a violation and what is wrong there.
pub fn violation_text(alloc: Global, found: Violation) -> Result<String, AllocError> {
    let Violation { place, kind } = found;
    match kind {
        ViolationKind::LongFloat { float, shortest } => {
            let (long, short) = (bits(alloc, float)?, bits(alloc, shortest)?);
            format!(in alloc; "{place} LongFloat {long} {short}")
        }
        ViolationKind::OtherNan { float } => {
            format!(in alloc; "{place} OtherNan {}", bits(alloc, float)?)
        }
        ViolationKind::IntegerFloat { negative, size, .. } => {
            let sign = if negative { "-" } else { "" };
            format!(in alloc; "{place} IntegerFloat {sign}{size}")
        }
        ViolationKind::LongHead { number, width } => {
            format!(in alloc; "{place} LongHead {number} {width:?}")
        }
        ViolationKind::KeyOrder { previous } => format!(in alloc; "{place} KeyOrder {previous}"),
        ViolationKind::KeyTwice { first } => format!(in alloc; "{place} KeyTwice {first}"),
        ViolationKind::NoItem(error) => format!(in alloc; "{place} NoItem {error:?}"),
        ViolationKind::OtherSimple(value) => format!(in alloc; "{place} OtherSimple {value}"),
        kind => format!(in alloc; "{place} {kind:?}"),
    }
}

/// The bits of a float, in as many hex digits as it has.
fn bits(alloc: Global, float: EncodedFloat) -> Result<String, AllocError> {
    match float {
        EncodedFloat::Half(bits) => format!(in alloc; "{bits:04x}"),
        EncodedFloat::Single(bits) => format!(in alloc; "{bits:08x}"),
        EncodedFloat::Double(bits) => format!(in alloc; "{bits:016x}"),
    }
}
