// The covered reads of `bench/parts` in plain Rust: a look-up in a `HashMap` from files to their bytes, and a copy of
// 64 bytes.
use std::collections::HashMap;
use std::env;
use std::hint::black_box;
use std::time::Instant;

const ROUNDS: u64 = 100_000;
const PART: usize = 4_096;

#[derive(PartialEq, Eq, Hash)]
struct Fid {
    fileset: u32,
    anode: u32,
    unique: u32,
}

fn file(anode: u32) -> Fid {
    Fid {
        fileset: 65_537,
        anode,
        unique: 1,
    }
}

fn main() {
    let tokens: u32 = env::args().nth(1).unwrap().parse().unwrap();
    let mut files = HashMap::new();
    for i in 0..tokens {
        let bytes = files.entry(file(i / 3)).or_insert_with(|| vec![0u8; 3 * PART]);
        bytes[PART..PART + 8].copy_from_slice(b"12345678");
    }
    let mut out = [0u8; 64];
    let mut sum = 0u64;
    let start = Instant::now();
    for i in 0..ROUNDS {
        if let Some(bytes) = files.get(black_box(&file((i % 3) as u32))) {
            out.copy_from_slice(&bytes[PART - 32..PART + 32]);
        }
        sum += u64::from(black_box(&out)[32]);
    }
    let took = start.elapsed().as_nanos() as f64 / ROUNDS as f64;
    println!("{sum} {took:.1}");
}
