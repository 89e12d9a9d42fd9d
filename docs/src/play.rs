//! Plays a call file: reads a plan and 5-byte call records from standard input
//! and writes one line for each to standard output. Records have three kinds;
//! `allcalls.rs` has lends, resets and bursts too.

#[allow(dead_code)]
mod scheduler;

use scheduler::{refusal, Ask, Link, Plan};
use std::io::{self, ErrorKind, Read, Write};

/// Bytes in one call record.
const RECORD: usize = 5;
/// Bytes asked for at a time.
const CHUNK: usize = 1 << 18;
/// Bytes that one line takes up while it is written; no line is longer.
const LINE: usize = 8;

/// A finished line of the listing: its bytes and how many of them count.
#[derive(Clone, Copy)]
struct Line {
    bytes: [u8; LINE],
    length: usize,
}

impl Line {
    fn new(text: &str) -> Line {
        let mut bytes = [0; LINE];
        bytes[..text.len()].copy_from_slice(text.as_bytes());
        Line {
            bytes,
            length: text.len(),
        }
    }
}

/// Every line that a call can give, made once.
struct Lines {
    granted: Vec<Line>,
    credited: Line,
    flow: Vec<Line>,
    idle: Line,
    lent: Vec<Line>,
    reset: Line,
    refused: Vec<Line>,
}

impl Lines {
    fn new() -> Lines {
        let numbered = |letter: char, count: usize| {
            let line = |number| Line::new(&format!("{letter} {number}\n"));
            (0..count).map(line).collect()
        };
        Lines {
            granted: numbered('G', scheduler::MOST_POSITIONS),
            credited: Line::new("C\n"),
            flow: numbered('T', scheduler::MOST_FLOWS),
            idle: Line::new("T -\n"),
            lent: numbered('L', scheduler::MOST_FLOWS),
            reset: Line::new("Z\n"),
            refused: numbered('R', usize::from(refusal::NUMBER) + 1),
        }
    }

    /// Makes the call of one record and picks the line that answers it. Where
    /// `ALL` is true, kind 4 is a lend and kind 5 a reset.
    #[inline]
    fn answer<const ALL: bool>(&self, link: &mut Link, record: &[u8; RECORD]) -> Line {
        let answer = match *record {
            [1, a, b, c, d] => link
                .request(u32::from_le_bytes([a, b, c, d]))
                .map(|word| self.granted[(word & 0xFF) as usize]),
            [2, flow, low, high, 0] => link
                .credit(flow.into(), u16::from_le_bytes([low, high]).into())
                .map(|()| self.credited),
            [3, 0, 0, 0, 0] => Ok(link
                .tick()
                .map_or(self.idle, |flow| self.flow[usize::from(flow)])),
            [4, low, high, 0, 0] if ALL => link
                .lend(u16::from_le_bytes([low, high]))
                .map(|flow| self.lent[usize::from(flow)]),
            [5, 0, 0, 0, 0] if ALL => link.reset().map(|()| self.reset),
            _ => Err(refusal::RECORD),
        };
        answer.unwrap_or_else(|number| self.refused[usize::from(number)])
    }
}

/// Reads the plan at the head of the input.
fn read_plan(input: &mut impl Read) -> io::Result<Result<Plan, u8>> {
    let mut bytes = Vec::new();
    input.take(2).read_to_end(&mut bytes)?;
    let &[low, high] = &bytes[..] else {
        return Ok(Err(refusal::PLAN_LENGTH));
    };
    let length = u16::from_le_bytes([low, high]);
    if !(12..=76).contains(&length) {
        return Ok(Err(refusal::PLAN_LENGTH));
    }
    input.take(u64::from(length) - 2).read_to_end(&mut bytes)?;
    Ok(Plan::read(&bytes))
}

/// Plays the records after the plan, chunk by chunk.
fn play_calls(link: &mut Link, input: &mut impl Read, output: &mut impl Write) -> io::Result<()> {
    let lines = Lines::new();
    let mut chunk = vec![0; CHUNK];
    let mut listing = vec![0; (CHUNK / RECORD + 1) * LINE];
    // Bytes of a record whose rest has not come yet.
    let mut begun = 0;
    loop {
        let length = match input.read(&mut chunk[begun..]) {
            Ok(0) => break,
            Ok(count) => begun + count,
            Err(error) if error.kind() == ErrorKind::Interrupted => continue,
            Err(error) => return Err(error),
        };
        let mut end = 0;
        let records = chunk[..length].chunks_exact(RECORD);
        begun = records.remainder().len();
        for record in records {
            let record = record.try_into().expect("a record has five bytes");
            let line = lines.answer::<false>(link, record);
            listing[end..end + LINE].copy_from_slice(&line.bytes);
            end += line.length;
        }
        output.write_all(&listing[..end])?;
        chunk.copy_within(length - begun..length, 0);
    }
    if begun > 0 {
        writeln!(output, "R {}", refusal::RECORD)?;
    }
    Ok(())
}

/// Most records of a burst in a call file.
const MOST_RECORDS: u8 = 20;

/// The records of a burst's words before the call.
fn unfilled(words: &[u8]) -> Vec<Ask> {
    let ask = |word: &[u8]| Ask {
        word: u32::from_le_bytes(word.try_into().expect("a word has four bytes")),
        result: u8::MAX,
        position: u8::MAX,
    };
    words.chunks_exact(4).map(ask).collect()
}

/// Plays all records after the plan, bursts with their words among them.
fn play_bursts(link: &mut Link, mut bytes: &[u8], output: &mut impl Write) -> io::Result<()> {
    let lines = Lines::new();
    while let Some((record, rest)) = bytes.split_first_chunk() {
        let &[6, count @ 0..=MOST_RECORDS, 0, 0, 0] = record else {
            let line = lines.answer::<true>(link, record);
            output.write_all(&line.bytes[..line.length])?;
            bytes = rest;
            continue;
        };
        let Some((words, rest)) = rest.split_at_checked(4 * usize::from(count)) else {
            break;
        };
        let mut records = unfilled(words);
        link.burst(&mut records);
        for ask in &records {
            writeln!(output, "B {} {}", ask.result, ask.position)?;
        }
        bytes = rest;
    }
    if !bytes.is_empty() {
        writeln!(output, "R {}", refusal::RECORD)?;
    }
    Ok(())
}

/// Plays the records after the plan; where `ALL` is true, also lends, resets and bursts.
fn play_rest<const ALL: bool>(
    link: &mut Link,
    input: &mut impl Read,
    output: &mut impl Write,
) -> io::Result<()> {
    if !ALL {
        return play_calls(link, input, output);
    }
    let mut bytes = Vec::new();
    input.read_to_end(&mut bytes)?;
    play_bursts(link, &bytes, output)
}

/// Plays standard input.
pub fn play<const ALL: bool>() -> io::Result<()> {
    let mut input = io::stdin().lock();
    let mut output = io::stdout().lock();
    match read_plan(&mut input)? {
        Err(number) => writeln!(output, "P {number}")?,
        Ok(plan) => {
            writeln!(output, "P 0")?;
            play_rest::<ALL>(&mut Link::fresh(&plan), &mut input, &mut output)?;
        }
    }
    output.flush()
}

fn main() -> io::Result<()> {
    play::<false>()
}
