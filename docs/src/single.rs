//! Measures single calls, and requests in bursts of 16. It reads a call file
//! from standard input, plays it from memory many times over and times each
//! stretch of calls of one kind. The lowest time of each stretch counts, less
//! the clock's own.

#[allow(dead_code)]
mod scheduler;

use scheduler::{Ask, Link, Plan, MOST_ASKED};
use std::hint::black_box;
use std::io::{self, Read};
use std::time::{Duration, Instant};

/// Times that the file is played, unless the command line says otherwise.
const REPEATS: usize = 200;
/// Shorter stretches are played but not counted: the clock would take too much of the time.
const SHORTEST: usize = 8;

#[derive(Clone, Copy, PartialEq, Eq)]
enum Kind {
    Request,
    Credit,
    Tick,
}

/// Calls of one kind that follow each other. A call is its four bytes after
/// the kind, as a number.
struct Stretch {
    kind: Kind,
    calls: Vec<u32>,
    lowest: Duration,
    /// The same with requests in bursts.
    lowest_in_bursts: Duration,
}

/// Makes a request; its answer as a number.
fn request(link: &mut Link, call: u32) -> u64 {
    link.request(call).map_or_else(u64::from, u64::from)
}

/// Sends a credit; its answer as a number.
fn credit(link: &mut Link, call: u32) -> u64 {
    let [flow, low, high, _] = call.to_le_bytes();
    let position = u16::from_le_bytes([low, high]);
    match link.credit(flow.into(), position.into()) {
        Ok(()) => 1,
        Err(number) => number.into(),
    }
}

/// Makes a tick; its answer as a number.
fn tick(link: &mut Link) -> u64 {
    link.tick().map_or(16, u64::from)
}

/// Makes a burst of at most 16 requests; the sum of its answers as numbers.
fn burst(link: &mut Link, calls: &[u32]) -> u64 {
    let mut records = [Ask {
        word: 0,
        result: 0,
        position: 0,
    }; MOST_ASKED];
    for (record, &call) in records.iter_mut().zip(calls) {
        record.word = call;
    }
    let records = &mut records[..calls.len()];
    link.burst(records);
    let number = |ask: &Ask| match ask.result {
        0 => u64::from(ask.word & !0x3FF) + u64::from(ask.position),
        refusal => refusal.into(),
    };
    records.iter().map(number).sum()
}

impl Stretch {
    /// Makes the calls and adds up their answers. Every answer is used within
    /// the time, or the compiler could leave out what makes it.
    #[inline]
    fn play(&self, link: &mut Link) -> u64 {
        let calls = self.calls.iter();
        match self.kind {
            Kind::Request => calls.map(|&call| request(link, call)).sum(),
            Kind::Credit => calls.map(|&call| credit(link, call)).sum(),
            Kind::Tick => calls.map(|_| tick(link)).sum(),
        }
    }

    /// The same with requests in bursts.
    #[inline]
    fn play_in_bursts(&self, link: &mut Link) -> u64 {
        match self.kind {
            Kind::Request => {
                let bursts = self.calls.chunks(MOST_ASKED);
                bursts.map(|calls| burst(link, calls)).sum()
            }
            Kind::Credit | Kind::Tick => self.play(link),
        }
    }
}

/// Splits the records into stretches of one kind.
fn split_stretches(records: &[u8]) -> Option<Vec<Stretch>> {
    let mut stretches: Vec<Stretch> = Vec::new();
    for record in records.chunks_exact(5) {
        let kind = match record[0] {
            1 => Kind::Request,
            2 => Kind::Credit,
            3 => Kind::Tick,
            _ => return None,
        };
        if stretches.last().is_none_or(|stretch| stretch.kind != kind) {
            stretches.push(Stretch {
                kind,
                calls: Vec::new(),
                lowest: Duration::MAX,
                lowest_in_bursts: Duration::MAX,
            });
        }
        let call = u32::from_le_bytes(record[1..].try_into().ok()?);
        stretches.last_mut()?.calls.push(call);
    }
    Some(stretches)
}

/// Plays every stretch on a fresh link and keeps its lowest time; the sum of all
/// answers.
fn time_stretches(plan: &Plan, stretches: &mut [Stretch]) -> u64 {
    let mut link = Link::fresh(plan);
    let mut sum = 0;
    for stretch in stretches {
        let begin = Instant::now();
        sum += stretch.play(&mut link);
        stretch.lowest = stretch.lowest.min(begin.elapsed());
    }
    sum
}

/// The same with requests in bursts.
fn time_in_bursts(plan: &Plan, stretches: &mut [Stretch]) -> u64 {
    let mut link = Link::fresh(plan);
    let mut sum = 0;
    for stretch in stretches {
        let begin = Instant::now();
        sum += stretch.play_in_bursts(&mut link);
        stretch.lowest_in_bursts = stretch.lowest_in_bursts.min(begin.elapsed());
    }
    sum
}

/// Plays the whole file with the clock read only at its ends.
fn time_file(plan: &Plan, stretches: &[Stretch]) -> Duration {
    let mut link = Link::fresh(plan);
    let begin = Instant::now();
    let answers = stretches.iter().map(|stretch| stretch.play(&mut link));
    black_box(answers.sum::<u64>());
    begin.elapsed()
}

/// What it costs to read the clock twice.
fn time_clock() -> Duration {
    (0..100_000)
        .map(|_| Instant::now().elapsed())
        .min()
        .unwrap_or_default()
}

/// Prints the nanoseconds of one call of a kind.
fn report(
    name: &str,
    kind: Kind,
    stretches: &[Stretch],
    lowest: fn(&Stretch) -> Duration,
    clock: Duration,
) {
    let (mut calls, mut counted, mut spent) = (0, 0, Duration::ZERO);
    for stretch in stretches.iter().filter(|stretch| stretch.kind == kind) {
        calls += stretch.calls.len();
        if stretch.calls.len() >= SHORTEST {
            counted += stretch.calls.len();
            spent += lowest(stretch).saturating_sub(clock);
        }
    }
    if counted == 0 {
        println!("{name:8}      - ns  (no stretch of {SHORTEST} calls)");
        return;
    }
    let each = spent.as_nanos() as f64 / counted as f64;
    println!("{name:8} {each:6.1} ns  ({counted} of {calls} counted)");
}

fn main() -> io::Result<()> {
    let repeats = std::env::args()
        .nth(1)
        .and_then(|count| count.parse().ok())
        .unwrap_or(REPEATS);
    let mut bytes = Vec::new();
    io::stdin().read_to_end(&mut bytes)?;
    let read = || {
        let length = usize::from(u16::from_le_bytes([*bytes.first()?, *bytes.get(1)?]));
        let plan = Plan::read(bytes.get(..length)?).ok()?;
        Some((plan, split_stretches(&bytes[length..])?))
    };
    let Some((plan, mut stretches)) = read() else {
        eprintln!("standard input is not a call file");
        std::process::exit(2);
    };
    let clock = time_clock();
    let (mut whole, mut sum, mut in_bursts) = (Duration::MAX, 0, 0);
    for _ in 0..repeats {
        sum = time_stretches(&plan, &mut stretches);
        in_bursts = time_in_bursts(&plan, &mut stretches);
        whole = whole.min(time_file(&plan, &stretches));
    }
    let (slots, frames, flows) = (plan.slots, plan.frames, plan.entries.len());
    println!("F = {slots}, W = {frames}, n = {flows}, lowest of {repeats}");
    let singly = |stretch: &Stretch| stretch.lowest;
    report("request", Kind::Request, &stretches, singly, clock);
    report(
        "burst",
        Kind::Request,
        &stretches,
        |s| s.lowest_in_bursts,
        clock,
    );
    report("credit", Kind::Credit, &stretches, singly, clock);
    report("tick", Kind::Tick, &stretches, singly, clock);
    let calls: usize = stretches.iter().map(|stretch| stretch.calls.len()).sum();
    let each = whole.as_nanos() as f64 / calls.max(1) as f64;
    println!(
        "{:8} {each:6.1} ns  ({calls} calls without the clock)",
        "any"
    );
    println!("answers {sum}");
    println!("in bursts {in_bursts}");
    Ok(())
}
