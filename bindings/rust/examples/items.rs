//! Shows the CBOR items of standard input in diagnostic notation, each as soon as its last byte has come.

use semphluk::{bytes_to_diag, Extent, Scanner};
use std::error::Error;
use std::io::{self, Read};

fn main() -> Result<(), Box<dyn Error>> {
    let mut input = io::stdin().lock();
    let mut piece = [0; 4096];
    let mut scanner = Scanner::new();
    // The bytes of the next item that have come, and how many came before it.
    let mut item = Vec::new();
    let mut before = 0;
    loop {
        let count = input.read(&mut piece)?;
        if count == 0 {
            break;
        }
        let mut rest = &piece[..count];
        while !rest.is_empty() {
            match scanner.feed(rest) {
                Extent::Cut => {
                    item.extend_from_slice(rest);
                    rest = &[];
                }
                Extent::Item(length) => {
                    let (last, after) = rest.split_at(length - item.len());
                    item.extend_from_slice(last);
                    println!("{}", bytes_to_diag(&item)?);
                    before += length;
                    item.clear();
                    scanner = Scanner::new();
                    rest = after;
                }
                Extent::Fault { error, end } => {
                    return Err(format!("byte {}: {error}", before + end - 1).into());
                }
            }
        }
    }
    if item.is_empty() {
        Ok(())
    } else {
        Err(format!("byte {}: the item is cut short", before + item.len()).into())
    }
}
