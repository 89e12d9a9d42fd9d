//! A plan in bytes: the tests of rule 2.3, with nothing allocated.

/// Most flows in a plan.
pub const MOST_FLOWS: usize = 16;
/// Most frames in the window.
pub const MOST_FRAMES: usize = 8;
/// Most positions in the window.
pub const MOST_POSITIONS: usize = 256;
/// Bytes of the header, and of an entry.
pub const HEADER: usize = 12;
pub const ENTRY: usize = 4;

/// Stands for the ends of an entry that the plan doesn't have.
const NO_ENDS: u16 = u16::MAX;

#[derive(Clone, Copy, Default)]
pub struct Entry {
    pub share: u8,
    pub cells: u8,
    pub source: u8,
    pub destination: u8,
}

/// An accepted plan.
#[derive(Clone, Copy)]
pub struct Plan {
    pub count: usize,
    pub slots: usize,
    pub frames: usize,
    pub entries: [Entry; MOST_FLOWS],
}

/// The number of two bytes at a place.
pub fn field(bytes: &[u8], at: usize) -> usize {
    usize::from(u16::from_le_bytes([bytes[at], bytes[at + 1]]))
}

/// One where something is so, else none.
fn one_if(so: bool) -> u16 {
    u16::from(so)
}

impl Entry {
    fn good(&self, slots: usize) -> bool {
        (1..=slots).contains(&usize::from(self.share))
            && self.cells >= 1
            && self.source < 64
            && self.destination < 64
            && self.source != self.destination
    }
}

impl Plan {
    pub fn positions(&self) -> usize {
        self.slots * self.frames
    }

    pub fn entries(&self) -> &[Entry] {
        &self.entries[..self.count]
    }

    /// Reads a plan, or gives the number of the first test that it fails.
    pub fn read(bytes: &[u8]) -> Result<Plan, u8> {
        if bytes.len() < HEADER || field(bytes, 0) != bytes.len() {
            return Err(1);
        }
        let count = field(bytes, 2);
        let good = (1..=MOST_FLOWS).contains(&count)
            && field(bytes, 4) == HEADER
            && bytes.len() == HEADER + ENTRY * count;
        if !good {
            return Err(2);
        }
        let (slots, frames) = (field(bytes, 6), field(bytes, 8));
        let buffer = field(bytes, 10);
        let good = (1..=64).contains(&slots)
            && (2..=MOST_FRAMES).contains(&frames)
            && (1..=4095).contains(&buffer)
            && slots * frames <= MOST_POSITIONS;
        if !good {
            return Err(3);
        }
        let mut plan = Plan {
            count,
            slots,
            frames,
            entries: [Entry::default(); MOST_FLOWS],
        };
        plan.take_entries(&bytes[HEADER..])?;
        plan.test_together(buffer)?;
        Ok(plan)
    }

    fn take_entries(&mut self, bytes: &[u8]) -> Result<(), u8> {
        let mut good = true;
        for (entry, bytes) in self.entries.iter_mut().zip(bytes.chunks_exact(ENTRY)) {
            *entry = Entry {
                share: bytes[0],
                cells: bytes[1],
                source: bytes[2],
                destination: bytes[3],
            };
            good &= entry.good(self.slots);
        }
        good.then_some(()).ok_or(4)
    }

    /// The tests that look at all entries together.
    fn test_together(&self, buffer: usize) -> Result<(), u8> {
        let mut ends = [NO_ENDS; MOST_FLOWS];
        let (mut shares, mut cells) = (0, 0);
        for (ends, entry) in ends.iter_mut().zip(self.entries()) {
            *ends = u16::from(entry.source) << 8 | u16::from(entry.destination);
            shares += usize::from(entry.share);
            cells += usize::from(entry.cells);
        }
        // Each is the same as itself, and as no other.
        let same = |one: u16| ends.iter().map(|&other| one_if(one == other)).sum::<u16>();
        let pairs: u16 = ends[..self.count].iter().map(|&one| same(one)).sum();
        if usize::from(pairs) != self.count {
            return Err(5);
        }
        if shares > self.slots {
            return Err(6);
        }
        if cells > buffer {
            return Err(7);
        }
        Ok(())
    }
}
