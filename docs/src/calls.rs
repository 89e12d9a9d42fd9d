//! Makes call files for measuring. The same arguments give the same file.
//!
//! A round goes like this: some flows ask until they are refused, or a burst's
//! words are asked, the credits that are due come in, and a few slots go by.
//! The scheduler runs along, so that a credit is sent only for a slot that was
//! granted.

#[allow(dead_code)]
mod scheduler;

use scheduler::{Entry, Link, Plan, Word, MOST_ASKED, MOST_FLOWS, MOST_FRAMES, MOST_SLOTS};
use std::cmp::Reverse;
use std::collections::BinaryHeap;
use std::io::{self, BufWriter, Write};

const USAGE: &str = "calls dense|small|ticks|granted|mixed COUNT \
    [--slots F] [--frames W] [--flows n] [--seed S] [--stride N]";

/// A small generator of random numbers (splitmix64).
struct Random(u64);

impl Random {
    fn next(&mut self) -> u64 {
        self.0 = self.0.wrapping_add(0x9E37_79B9_7F4A_7C15);
        let mut mixed = self.0;
        mixed = (mixed ^ mixed >> 30).wrapping_mul(0xBF58_476D_1CE4_E5B9);
        mixed = (mixed ^ mixed >> 27).wrapping_mul(0x94D0_49BB_1331_11EB);
        mixed ^ mixed >> 31
    }

    /// A number below `bound`, which isn't 0.
    fn below(&mut self, bound: usize) -> usize {
        ((u128::from(self.next()) * bound as u128) >> 64) as usize
    }

    /// True once in `times`.
    fn once_in(&mut self, times: usize) -> bool {
        self.below(times) == 0
    }
}

/// Which words a round has.
#[derive(Clone, Copy, PartialEq, Eq)]
enum Words {
    /// Those of some flows, each until it is refused.
    UntilRefused,
    /// As many as a burst handles, of flows that get a slot.
    Granted,
    /// The same of any flows, one in four with another destination.
    Mixed,
}

/// What the command line asks for.
struct Order {
    words: Words,
    count: usize,
    slots: usize,
    frames: usize,
    flows: usize,
    seed: u64,
    /// Most slots that go by in one round.
    stride: usize,
    /// Most flows that ask in one round.
    askers: usize,
}

impl Order {
    fn read(mut words: impl Iterator<Item = String>) -> Option<Order> {
        let kind = words.next()?;
        let count = words.next()?.parse().ok()?;
        let (mut slots, mut frames) = match kind.as_str() {
            "dense" | "ticks" | "granted" | "mixed" => (64, 4),
            "small" => (3, 8),
            _ => return None,
        };
        let (mut flows, mut seed, mut stride) = (None, 1, None);
        while let Some(option) = words.next() {
            let value = words.next()?;
            match option.as_str() {
                "--slots" => slots = value.parse().ok()?,
                "--frames" => frames = value.parse().ok()?,
                "--flows" => flows = Some(value.parse().ok()?),
                "--seed" => seed = value.parse().ok()?,
                "--stride" => stride = Some(value.parse().ok()?),
                _ => return None,
            }
        }
        let flows = flows.unwrap_or(slots.min(MOST_FLOWS));
        if slots > MOST_SLOTS || frames > MOST_FRAMES || !(1..=MOST_FLOWS).contains(&flows) {
            return None;
        }
        let sparse = kind == "ticks";
        let usual = if sparse { 8 * slots } else { slots.div_ceil(2) };
        Some(Order {
            words: match kind.as_str() {
                "granted" => Words::Granted,
                "mixed" => Words::Mixed,
                _ => Words::UntilRefused,
            },
            count,
            slots,
            frames,
            flows,
            seed,
            stride: stride.unwrap_or(usual).max(1),
            askers: if sparse { 1 } else { flows.div_ceil(2) },
        })
    }

    /// A plan whose shares fill the frame. Some flows have cells for more than
    /// they can book in a window, others run out of them.
    fn plan(&self, random: &mut Random) -> Vec<u8> {
        let mut shares = vec![1; self.flows];
        for _ in self.flows..self.slots {
            shares[random.below(self.flows)] += 1;
        }
        let cells = |i: usize| (shares[i] * self.frames * (2 + i % 4)).div_ceil(4).min(255);
        let buffer: usize = (0..self.flows).map(cells).sum();
        let length = scheduler::HEADER + scheduler::ENTRY * self.flows;
        let header = [
            length,
            self.flows,
            scheduler::HEADER,
            self.slots,
            self.frames,
            buffer,
        ];
        let fields = header.into_iter().flat_map(|n| (n as u16).to_le_bytes());
        let entries = (0..self.flows).flat_map(|i| {
            let (source, destination) = (i as u8, 32 + i as u8);
            [shares[i] as u8, cells(i) as u8, source, destination]
        });
        fields.chain(entries).collect()
    }
}

/// How many calls of each sort the file has.
#[derive(Default)]
struct Tally {
    granted: usize,
    refused: usize,
    credited: usize,
    turned_back: usize,
    ticks: usize,
}

impl Tally {
    fn total(&self) -> usize {
        self.granted + self.refused + self.credited + self.turned_back + self.ticks
    }
}

/// A credit that will be sent: the slot at which, the slot that it is dated,
/// and the flow.
type Due = Reverse<(usize, usize, usize)>;

/// The file as it grows, with the link that answers its calls.
struct Maker<W: Write> {
    output: W,
    random: Random,
    link: Link,
    entries: Vec<Entry>,
    slots: usize,
    positions: usize,
    left: usize,
    /// Ticks so far, which is the number of the current slot.
    now: usize,
    quantum: Vec<u16>,
    due: BinaryHeap<Due>,
    tally: Tally,
}

impl<W: Write> Maker<W> {
    fn new(order: &Order, plan: Plan, random: Random, output: W) -> Maker<W> {
        Maker {
            output,
            random,
            link: Link::fresh(&plan),
            slots: plan.slots,
            positions: plan.slots * plan.frames,
            left: order.count,
            now: 0,
            quantum: vec![0; plan.entries.len()],
            due: BinaryHeap::new(),
            tally: Tally::default(),
            entries: plan.entries,
        }
    }

    /// Writes a record; false if the file is complete without it.
    fn write(&mut self, record: [u8; 5]) -> io::Result<bool> {
        if self.left == 0 {
            return Ok(false);
        }
        self.left -= 1;
        self.output.write_all(&record)?;
        Ok(true)
    }

    /// A flow's next word. Its tile has come: the departure is the current
    /// position.
    fn word(&self, flow: usize) -> u32 {
        let word = Word {
            destination: self.entries[flow].destination,
            flow: flow as u8,
            quantum: self.quantum[flow],
            departure: (self.now % self.positions) as u16,
        };
        word.join()
    }

    /// One flow asks once; whether it is granted a slot.
    fn ask(&mut self, flow: usize) -> io::Result<bool> {
        self.ask_with(flow, self.word(flow))
    }

    fn ask_with(&mut self, flow: usize, word: u32) -> io::Result<bool> {
        let [a, b, c, d] = word.to_le_bytes();
        if !self.write([1, a, b, c, d])? {
            return Ok(false);
        }
        let Ok(granted) = self.link.request(word) else {
            self.tally.refused += 1;
            return Ok(false);
        };
        self.tally.granted += 1;
        self.quantum[flow] = (self.quantum[flow] + 1) % 1024;
        self.expect_credit(flow, Word::split(granted).departure.into());
        Ok(true)
    }

    /// The words of a burst of flows that get a slot, if they are soon found.
    fn ask_granted(&mut self) -> io::Result<()> {
        let mut asked = 0;
        for _ in 0..16 * MOST_ASKED {
            let flow = self.random.below(self.entries.len());
            let granted = self.link.clone().request(self.word(flow)).is_ok();
            if asked < MOST_ASKED && granted {
                self.ask(flow)?;
                asked += 1;
            }
        }
        Ok(())
    }

    /// The words of a burst of any flows; one in four goes astray.
    fn ask_mixed(&mut self) -> io::Result<()> {
        for _ in 0..MOST_ASKED {
            let flow = self.random.below(self.entries.len());
            let astray = u32::from(self.random.once_in(4)) << 26;
            self.ask_with(flow, self.word(flow) ^ astray)?;
        }
        Ok(())
    }

    /// The requests of a round.
    fn ask_round(&mut self, order: &Order) -> io::Result<()> {
        match order.words {
            Words::Granted => self.ask_granted(),
            Words::Mixed => self.ask_mixed(),
            Words::UntilRefused => {
                for _ in 0..=self.random.below(order.askers) {
                    let flow = self.random.below(order.flows);
                    while self.ask(flow)? {}
                }
                Ok(())
            }
        }
    }

    /// A granted quantum stays in the next board for up to a frame after its
    /// slot. The credit is known up to a frame ahead; one in eight comes late.
    fn expect_credit(&mut self, flow: usize, position: usize) {
        let next = self.now + 1;
        let ahead = (position + self.positions - next % self.positions) % self.positions;
        let date = next + ahead + 1 + self.random.below(self.slots);
        let sent = if self.random.once_in(8) {
            date + self.random.below(self.slots)
        } else {
            date - 1 - self.random.below(self.slots)
        };
        self.due.push(Reverse((sent, date, flow)));
    }

    /// Sends the credits that are due, and now and then a wild one.
    fn send_credits(&mut self) -> io::Result<()> {
        while let Some(&Reverse((sent, date, flow))) = self.due.peek() {
            if sent > self.now || self.left == 0 {
                break;
            }
            self.due.pop();
            self.send_credit(flow, date.max(self.now + 1) % self.positions)?;
            if self.random.once_in(64) {
                let flow = self.random.below(self.entries.len());
                let position = self.random.below(self.positions);
                self.send_credit(flow, position)?;
            }
        }
        Ok(())
    }

    fn send_credit(&mut self, flow: usize, position: usize) -> io::Result<()> {
        let [low, high] = (position as u16).to_le_bytes();
        if self.write([2, flow as u8, low, high, 0])? {
            match self.link.credit(flow, position) {
                Ok(()) => self.tally.credited += 1,
                Err(_) => self.tally.turned_back += 1,
            }
        }
        Ok(())
    }

    fn tick(&mut self) -> io::Result<()> {
        if self.write([3, 0, 0, 0, 0])? {
            self.link.tick();
            self.now += 1;
            self.tally.ticks += 1;
        }
        Ok(())
    }

    /// Rounds until the file has all of its calls.
    fn make(mut self, order: &Order) -> io::Result<Tally> {
        while self.left > 0 {
            self.ask_round(order)?;
            self.send_credits()?;
            for _ in 0..=self.random.below(order.stride) {
                self.tick()?;
            }
        }
        self.output.flush()?;
        Ok(self.tally)
    }
}

/// Writes the file to standard output and its mix to standard error.
fn main() -> io::Result<()> {
    let Some(order) = Order::read(std::env::args().skip(1)) else {
        eprintln!("{USAGE}");
        std::process::exit(2);
    };
    let mut random = Random(order.seed);
    let bytes = order.plan(&mut random);
    let plan = Plan::read(&bytes).unwrap_or_else(|number| {
        eprintln!("these sizes give a plan that is refused with {number}");
        std::process::exit(2);
    });
    let mut output = BufWriter::new(io::stdout().lock());
    output.write_all(&bytes)?;
    let tally = Maker::new(&order, plan, random, output).make(&order)?;
    let percent = |count: usize| 100.0 * count as f64 / tally.total().max(1) as f64;
    eprintln!("calls            {:>9}", tally.total());
    eprintln!("requests granted {:8.1}%", percent(tally.granted));
    eprintln!("requests refused {:8.1}%", percent(tally.refused));
    eprintln!("credits taken    {:8.1}%", percent(tally.credited));
    eprintln!("credits refused  {:8.1}%", percent(tally.turned_back));
    eprintln!("ticks            {:8.1}%", percent(tally.ticks));
    Ok(())
}
