//! Dumps a file that holds one CBOR item: its bytes in hex, a line for each head, with comments.

use std::error::Error;
use std::{env, fs};

fn main() -> Result<(), Box<dyn Error>> {
    let path = env::args_os().nth(1).ok_or("usage: dump FILE")?;
    let item = fs::read(path)?;
    print!("{}", semphluk::bytes_to_hex(&item)?);
    Ok(())
}
