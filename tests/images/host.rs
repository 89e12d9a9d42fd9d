//! host.c's commands, made by the wrapper for Rust. A call on bytes that are no image has the refusal that they are turned away with.
#[path = "../../bindings/rust/nazgolv.rs"]
mod nazgolv;

use nazgolv::{Link, Refusal};
use std::io::{Read, Write};

/// What is left of standard input.
struct Commands(Vec<u8>, usize);

impl Commands {
    fn take(&mut self, length: usize) -> &[u8] {
        self.1 += length;
        &self.0[self.1 - length..self.1]
    }

    fn number(&mut self, length: usize) -> u64 {
        self.take(length).iter().rev().fold(0, |sum, &byte| sum << 8 | byte as u64)
    }

    fn bytes(&mut self) -> Vec<u8> {
        let length = self.number(4) as usize;
        self.take(length).to_vec()
    }
}

fn refused(refusal: Refusal) -> u64 {
    (refusal.number() as u64) << 32
}

fn call(letter: u8, commands: &mut Commands, buffer: &mut [u8]) -> Result<u64, Refusal> {
    let numbers = match letter {
        b'r' => vec![commands.number(4)],
        b'c' => vec![commands.number(8), commands.number(8)],
        b'l' => vec![commands.number(2)],
        b's' => vec![commands.number(1), commands.number(8), commands.number(8)],
        _ => vec![],
    };
    if letter == b'k' {
        return Ok(Link::from_image(buffer).map_or_else(|refusal| refusal.number() as u64, |_| 0));
    }
    if letter == b'f' {
        let link = Link::fresh(&commands.bytes())?;
        buffer[..link.image().len()].copy_from_slice(link.image());
        return Ok(0);
    }
    let mut link = Link::from_image(buffer)?;
    let result = match letter {
        b'r' => link.request(numbers[0] as u32).map(|position| numbers[0] & !1023 | position as u64),
        b'c' => link.credit(numbers[0] as usize, numbers[1] as usize).map(|()| 0),
        b't' => link.tick().map(|flow| flow.unwrap_or(16) as u64),
        b'l' => link.lend(numbers[0] as u16).map(u64::from),
        b'z' => link.reset().map(|()| 0),
        b's' => Ok(see(&link, numbers[0], numbers[1] as usize, numbers[2] as usize)),
        _ => panic!("an unknown command"),
    };
    buffer.copy_from_slice(link.image());
    result
}

/// The result of a play, and its second buffer, in which there has to be room.
fn play(commands: &mut Commands, buffer: &mut [u8]) -> Vec<u8> {
    let (records, mut out) = (commands.bytes(), commands.bytes());
    let played = Link::from_image(buffer).and_then(|mut link| {
        let results = link.play(&records)?;
        buffer.copy_from_slice(link.image());
        let numbers = results.into_iter().map(|result| result.map_or_else(refused, u64::from));
        out.splice(..8 * numbers.len(), numbers.flat_map(u64::to_le_bytes));
        Ok(0)
    });
    let mut written = played.unwrap_or_else(refused).to_le_bytes().to_vec();
    written.extend((out.len() as u32).to_le_bytes());
    written.extend(out);
    written
}

fn see(link: &Link, which: u64, flow: usize, position: usize) -> u64 {
    let seen = match which {
        0 => Some(link.current()),
        11 => link.number(flow),
        12 => link.owner(position).or(Some(16)),
        13 => link.held(flow, position),
        _ => panic!("it can't be seen"),
    };
    seen.unwrap_or(u32::MAX) as u64
}

fn main() -> std::io::Result<()> {
    let mut commands = Commands(Vec::new(), 0);
    std::io::stdin().read_to_end(&mut commands.0)?;
    let (mut buffer, mut written) = (Vec::new(), Vec::new());
    while commands.1 < commands.0.len() {
        match commands.number(1) as u8 {
            b'b' => buffer = commands.bytes(),
            b'g' => {
                written.extend((buffer.len() as u32).to_le_bytes());
                written.extend(&buffer);
            }
            b'p' => written.extend(play(&mut commands, &mut buffer)),
            letter => {
                let result = call(letter, &mut commands, &mut buffer);
                written.extend(result.unwrap_or_else(refused).to_le_bytes());
            }
        }
    }
    std::io::stdout().write_all(&written)
}
