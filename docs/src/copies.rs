//! Measures two copies of so many bytes: a call that takes a link by value and
//! hands it back makes at least these. `copies 4913` prints the nanoseconds.

use std::env;
use std::hint::black_box;
use std::time::{Duration, Instant};

/// Times that a stretch is measured; the lowest counts.
const ROUNDS: usize = 2000;
/// Pairs of copies in a stretch.
const PAIRS: usize = 64;

/// The time of a stretch: there and back, and again.
fn stretch(here: &mut [u8], there: &mut [u8]) -> Duration {
    let begin = Instant::now();
    for _ in 0..PAIRS {
        black_box(&mut *there).copy_from_slice(black_box(&*here));
        black_box(&mut *here).copy_from_slice(black_box(&*there));
    }
    begin.elapsed()
}

fn main() {
    let Some(size) = env::args().nth(1).and_then(|word| word.parse().ok()) else {
        eprintln!("copies: give the number of bytes");
        std::process::exit(2);
    };
    let (mut here, mut there) = (vec![1u8; size], vec![0u8; size]);
    let lowest = (0..ROUNDS).map(|_| stretch(&mut here, &mut there)).min();
    let nanoseconds = lowest.unwrap_or_default().as_nanos() as f64;
    println!("{:.1}", nanoseconds / PAIRS as f64);
}
