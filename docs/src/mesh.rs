//! Measures the check of streams over the mesh in plain Rust. It reads a word,
//! F and the streams' numbers from standard input, checks the streams many
//! times and prints the lowest time of a check, less the clock's own, and the
//! sum of all answers.

use std::hint::black_box;
use std::io::{self, Read};
use std::time::{Duration, Instant};

const REPEATS: usize = 20_000;
const READINGS: usize = 100_000;

/// What the links carry: for each board the links to the north, west, east and
/// south of it.
type Loads = [[u16; 4]; 64];

/// Walks the way of a stream, along the row first, and adds its share.
fn add(loads: &mut Loads, source: usize, destination: usize, share: u16) {
    let mut at = source;
    while at % 8 > destination % 8 {
        loads[at][1] += share;
        at -= 1;
    }
    while at % 8 < destination % 8 {
        loads[at][2] += share;
        at += 1;
    }
    while at > destination {
        loads[at][0] += share;
        at -= 8;
    }
    while at < destination {
        loads[at][3] += share;
        at += 8;
    }
}

/// 0 where the streams are admitted, or else the refusal.
pub fn admit(slots: usize, streams: &[[usize; 3]]) -> u8 {
    if streams.len() > 64 {
        return 25;
    }
    if !(1..=64).contains(&slots) {
        return 3;
    }
    let fits = |&[source, destination, share]: &[usize; 3]| {
        (1..=slots).contains(&share)
            && source < 64
            && destination < 64
            && source != destination
    };
    if !streams.iter().all(fits) {
        return 4;
    }
    let mut loads: Loads = [[0; 4]; 64];
    for &[source, destination, share] in streams {
        add(&mut loads, source, destination, share as u16);
    }
    let over = loads.iter().flatten().any(|&load| usize::from(load) > slots);
    if over {
        25
    } else {
        0
    }
}

/// What it costs to read the clock twice: the lowest of many.
fn cost() -> Duration {
    (0..READINGS)
        .map(|_| {
            let begin = Instant::now();
            begin.elapsed()
        })
        .min()
        .unwrap_or_default()
}

fn main() {
    let mut text = String::new();
    io::stdin().read_to_string(&mut text).expect("standard input");
    let numbers: Vec<usize> = text
        .split(' ')
        .skip(1)
        .map(|field| field.parse().expect("a number"))
        .collect();
    let (slots, rest) = numbers.split_first().expect("F");
    let mut streams: Vec<[usize; 3]> = rest
        .chunks_exact(3)
        .map(|three| [three[0], three[1], three[2]])
        .collect();
    let mut lowest = Duration::MAX;
    let mut sum = 0u64;
    for round in 0..REPEATS {
        streams[0][2] = 1 + round % 2;
        let begin = Instant::now();
        let answer = admit(black_box(*slots), black_box(&streams));
        lowest = lowest.min(begin.elapsed());
        sum += u64::from(answer);
    }
    println!("check {} ns", lowest.saturating_sub(cost()).as_nanos());
    println!("answers {sum}");
}

#[cfg(test)]
mod tests {
    use super::admit;

    #[test]
    fn refusals_in_order() {
        assert_eq!(admit(0, &[[5, 5, 0]; 65]), 25);
        assert_eq!(admit(0, &[[5, 5, 1]]), 3);
        assert_eq!(admit(65, &[]), 3);
        assert_eq!(admit(2, &[[0, 1, 2], [0, 1, 1], [5, 5, 1]]), 4);
        assert_eq!(admit(1, &[]), 0);
    }

    #[test]
    fn row_first_and_directed() {
        assert_eq!(admit(2, &[[0, 9, 2], [1, 9, 1]]), 25);
        assert_eq!(admit(2, &[[0, 9, 2], [8, 9, 1]]), 0);
        assert_eq!(admit(2, &[[0, 1, 2], [1, 0, 2]]), 0);
        assert_eq!(admit(64, &[[0, 1, 64]; 5]), 25);
    }
}
