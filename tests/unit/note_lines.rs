//! Makes trees of dump lines by hand, and tests which of them `cbor_notes` lays out and which do
//! not fit (docs/NOTES.md). `refused_notes.rs` uses the trees, too.

use cbor_notes::{Line, merge};
use std::alloc::{AllocError, Global};
use std::test::Fail;

/// A line, with a note below it.
pub fn with_note(alloc: Global, hex: &str, comment: &str) -> Result<Line, AllocError> {
    let hex = String::from_str(alloc, hex)?;
    let mut line = Line::new(alloc, hex, String::from_str(alloc, comment)?);
    let note = String::from_str(alloc, "note")?;
    let note = Line::new(alloc, String::new(alloc), note);
    line.sublines.push(note)?;
    Ok(line)
}

/// The text of a tree, or that it does not fit.
pub fn merged(alloc: Global, tree: &Line) -> Result<String, AllocError> {
    if tree.fits() {
        merge(alloc, tree)
    } else {
        String::from_str(alloc, "does not fit")
    }
}

/// How many bytes the text of `count` levels has, of one line each, the last with this hex; 12 if
/// they do not fit.
fn len_of(alloc: Global, count: usize, hex: &str) -> Result<usize, AllocError> {
    let hex = String::from_str(alloc, hex)?;
    let mut tree = Line::new(alloc, hex, String::new(alloc));
    for _ in 1..count {
        let hex = String::from_str(alloc, "81")?;
        let mut above = Line::new(alloc, hex, String::new(alloc));
        above.sublines.push(tree)?;
        tree = above;
    }
    Ok(merged(alloc, &tree)?.len())
}

// 64 digits and 65; digits that are not ASCII; 140 levels, whose width is 3 * 139 + 2, and in which
// each line is two blanks longer than the one before it.
#[test]
fn what_fits_is_laid_out(rt: HostRuntime) -> Result<(), Fail> {
    let digits = "0123456789abcdef".repeat(rt.alloc(), 4)?;
    let more = "0".repeat(rt.alloc(), 65)?;
    for (count, hex, want) in [
        (1, digits.as_str(), 64 + 4),
        (2, digits.as_str(), 2 * (67 + 4) + 2),
        (1, more.as_str(), 12),
        (2, more.as_str(), 12),
        (1, "é", 12),
        (2, "é", 12),
        (140, "00", 140 * (419 + 4) + 139 * 140),
        (141, "00", 12),
    ] {
        assert!(rt;
            len_of(rt.alloc(), count, hex)? == want,
            "{count} levels of {hex}"
        );
    }
    Ok(())
}
