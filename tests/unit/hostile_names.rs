//! Tests the size limit of files of names: a file of that size is read, and a longer one is an
//! error.

use cbor_names::{Names, with_file};
use std::alloc::AllocError;

#[test]
fn a_file_is_too_long(rt: HostRuntime) -> Result<(), AllocError> {
    let alloc = rt.alloc();
    let mut text = String::new(alloc);
    for _ in 0..8192 {
        text.push_str("# names\n")?;
    }
    assert!(rt; with_file(alloc, Names::new(alloc), &text).is_ok());
    text.push_str("#")?;
    let mut said = String::new(alloc);
    if let Err(error) = with_file(alloc, Names::new(alloc), &text) {
        said = format!(in alloc; "{error}")?;
    }
    assert!(rt; said.as_str() == "line 1: a file of names has at most 65,536 bytes");
    Ok(())
}
