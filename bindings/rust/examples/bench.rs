//! Times many small conversions: `bench FILE SIZE ROUNDS`. `FILE` has items of `SIZE` bytes each. Each round converts
//! all of them to diagnostic notation. It prints the least nanoseconds of a conversion.

use std::error::Error;
use std::hint::black_box;
use std::time::Instant;
use std::{env, fs};

fn main() -> Result<(), Box<dyn Error>> {
    let arguments: Vec<String> = env::args().skip(1).collect();
    let [file, size, rounds] = &arguments[..] else {
        return Err("usage: bench FILE SIZE ROUNDS".into());
    };
    let items = fs::read(file)?;
    let size: usize = size.parse()?;
    let mut least = f64::INFINITY;
    for _ in 0..rounds.parse::<u32>()? {
        let begin = Instant::now();
        for item in items.chunks_exact(size) {
            black_box(semphluk::bytes_to_diag(item)?);
        }
        let count = items.len() / size;
        least = least.min(begin.elapsed().as_nanos() as f64 / count as f64);
    }
    println!("{least:.1}");
    Ok(())
}
