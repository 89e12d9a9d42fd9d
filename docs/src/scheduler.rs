//! The plan, the look-ahead word and the booking table of one output link.
//!
//! Safe Rust with no dependencies, laid out for speed. Frames and places are
//! kept in the window's order, with the head frame first, so that no search
//! has to go round. The free slots of a frame are the bits of one word, and
//! the earliest is found by counting trailing zeros. What a flow holds is one
//! byte for each place, so that a booking or a credit changes one straight row
//! of bytes, which the compiler makes vector instructions of.

/// Most slots in a frame.
pub const MOST_SLOTS: usize = 64;
/// Most positions in the window.
pub const MOST_POSITIONS: usize = 256;
/// Most frames in the window.
pub const MOST_FRAMES: usize = 8;
/// Most flows in a plan.
pub const MOST_FLOWS: usize = 16;
/// Bytes in the plan's header.
pub const HEADER: usize = 12;
/// Bytes in one entry of the plan.
pub const ENTRY: usize = 4;

/// Most records that a burst handles.
pub const MOST_ASKED: usize = 16;

/// Owner of a position that nobody has booked.
const NOBODY: u8 = MOST_FLOWS as u8;

/// The numbers with which a plan or a call is refused.
pub mod refusal {
    pub const PLAN_LENGTH: u8 = 1;
    pub const PLAN_COUNTS: u8 = 2;
    pub const PLAN_FRAME: u8 = 3;
    pub const PLAN_ENTRIES: u8 = 4;
    pub const PLAN_PAIRS: u8 = 5;
    pub const PLAN_SHARES: u8 = 6;
    pub const PLAN_CELLS: u8 = 7;
    pub const FLOW: u8 = 8;
    pub const DESTINATION: u8 = 9;
    pub const DEPARTURE: u8 = 10;
    pub const SHARE_SPENT: u8 = 11;
    pub const NO_POSITION: u8 = 12;
    pub const POSITION: u8 = 13;
    pub const POSITION_PAST: u8 = 14;
    pub const NOTHING_HELD: u8 = 15;
    pub const RECORD: u8 = 16;
    pub const SLOT_TAKEN: u8 = 17;
    pub const NO_FLOW: u8 = 18;
    pub const NOT_COME: u8 = 20;
    pub const NOT_QUIET: u8 = 23;
    pub const NUMBER: u8 = 24;
}

/// One flow of the plan.
#[derive(Clone, Copy, Debug, PartialEq, Eq)]
pub struct Entry {
    pub share: u8,
    pub cells: u8,
    pub source: u8,
    pub destination: u8,
}

impl Entry {
    /// Reads four bytes; `slots` is the frame's length, the largest share.
    fn read(bytes: &[u8], slots: usize) -> Result<Entry, u8> {
        let &[share, cells, source, destination] = bytes else {
            return Err(refusal::PLAN_ENTRIES);
        };
        let good = (1..=slots).contains(&usize::from(share))
            && cells >= 1
            && source < 64
            && destination < 64
            && source != destination;
        let entry = Entry {
            share,
            cells,
            source,
            destination,
        };
        good.then_some(entry).ok_or(refusal::PLAN_ENTRIES)
    }
}

/// An accepted plan.
#[derive(Clone, Debug, PartialEq, Eq)]
pub struct Plan {
    /// Slots in a frame.
    pub slots: usize,
    /// Frames in the window.
    pub frames: usize,
    /// Quanta that the next board's buffer takes.
    pub buffer: usize,
    /// The flows, in the order of their numbers.
    pub entries: Vec<Entry>,
}

impl Plan {
    /// Reads a plan, or gives the number of the first test that it fails.
    pub fn read(bytes: &[u8]) -> Result<Plan, u8> {
        let field = |i: usize| usize::from(u16::from_le_bytes([bytes[2 * i], bytes[2 * i + 1]]));
        if bytes.len() < HEADER || field(0) != bytes.len() {
            return Err(refusal::PLAN_LENGTH);
        }
        let count = field(1);
        let counts = (1..=MOST_FLOWS).contains(&count)
            && field(2) == HEADER
            && bytes.len() == HEADER + ENTRY * count;
        if !counts {
            return Err(refusal::PLAN_COUNTS);
        }
        let (slots, frames, buffer) = (field(3), field(4), field(5));
        let frame = (1..=MOST_SLOTS).contains(&slots)
            && (2..=MOST_FRAMES).contains(&frames)
            && (1..=4095).contains(&buffer)
            && slots * frames <= MOST_POSITIONS;
        if !frame {
            return Err(refusal::PLAN_FRAME);
        }
        let entries: Vec<Entry> = bytes[HEADER..]
            .chunks_exact(ENTRY)
            .map(|entry| Entry::read(entry, slots))
            .collect::<Result<_, _>>()?;
        let plan = Plan {
            slots,
            frames,
            buffer,
            entries,
        };
        plan.check_sums()?;
        Ok(plan)
    }

    /// The tests that look at all entries together.
    fn check_sums(&self) -> Result<(), u8> {
        let ends = |entry: &Entry| (entry.source, entry.destination);
        let twice = |(i, entry)| self.entries[..i].iter().any(|e| ends(e) == ends(entry));
        if self.entries.iter().enumerate().any(twice) {
            return Err(refusal::PLAN_PAIRS);
        }
        let sum = |field: fn(&Entry) -> u8| -> usize {
            self.entries.iter().map(|e| usize::from(field(e))).sum()
        };
        if sum(|entry| entry.share) > self.slots {
            return Err(refusal::PLAN_SHARES);
        }
        if sum(|entry| entry.cells) > self.buffer {
            return Err(refusal::PLAN_CELLS);
        }
        Ok(())
    }
}

/// A look-ahead word taken apart.
#[derive(Clone, Copy, Debug, PartialEq, Eq)]
pub struct Word {
    pub destination: u8,
    pub flow: u8,
    pub quantum: u16,
    pub departure: u16,
}

impl Word {
    /// Takes the 32 bits apart.
    #[inline]
    pub fn split(bits: u32) -> Word {
        Word {
            destination: (bits >> 26) as u8,
            flow: (bits >> 20 & 0x3F) as u8,
            quantum: (bits >> 10 & 0x3FF) as u16,
            departure: (bits & 0x3FF) as u16,
        }
    }

    /// Puts the fields together again; each must fit its width.
    #[inline]
    pub fn join(self) -> u32 {
        u32::from(self.destination) << 26
            | u32::from(self.flow) << 20
            | u32::from(self.quantum) << 10
            | u32::from(self.departure)
    }
}

/// A record of a burst: a word, and what its request comes to.
#[derive(Clone, Copy, Debug, PartialEq, Eq)]
pub struct Ask {
    pub word: u32,
    /// 0, or the number of the refusal.
    pub result: u8,
    /// The position granted, or 0.
    pub position: u8,
}

/// Places that are looked at or changed together.
const BLOCK: usize = 32;

/// The cells that one flow holds at each place of the window. A place counts
/// from the first position of the head frame. The last block in use may reach
/// past the window; there it holds what the last place does.
#[derive(Clone, Debug)]
struct Holdings {
    /// Blocks in use.
    used: usize,
    blocks: [[u8; BLOCK]; MOST_POSITIONS / BLOCK],
}

/// For each lane of a block, 1 from the given lane on and 0 before it.
#[inline]
fn lanes_from(first: usize) -> &'static [u8; BLOCK] {
    const STEPS: [[u8; BLOCK]; 2] = [[0; BLOCK], [1; BLOCK]];
    STEPS.as_flattened()[BLOCK - first..]
        .first_chunk()
        .expect("the lane lies in the block")
}

impl Holdings {
    fn none(places: usize) -> Holdings {
        Holdings {
            used: places.div_ceil(BLOCK),
            blocks: [[0; BLOCK]; MOST_POSITIONS / BLOCK],
        }
    }

    /// The last place, from the given one on, with exactly this many cells.
    #[inline]
    fn last_with(&self, cells: u8, from: usize) -> Option<usize> {
        let blocks = &self.blocks[from / BLOCK..self.used];
        let has =
            |block: &[u8; BLOCK]| block.iter().fold(false, |any, &held| any | (held == cells));
        let block = blocks.iter().rposition(has)?;
        let lane = blocks[block].iter().rposition(|&held| held == cells)?;
        let place = (from / BLOCK + block) * BLOCK + lane;
        (place >= from).then_some(place)
    }

    /// The least that is held from a place on.
    #[inline]
    fn least(&self, from: usize) -> u8 {
        let [first, rest @ ..] = &self.blocks[from / BLOCK..self.used] else {
            return 0;
        };
        let mut least = *first;
        for (held, step) in least.iter_mut().zip(lanes_from(from % BLOCK)) {
            // Lanes before the place don't count.
            *held |= step.wrapping_sub(1);
        }
        for block in rest {
            for (least, held) in least.iter_mut().zip(block) {
                *least = (*least).min(*held);
            }
        }
        least.into_iter().fold(u8::MAX, u8::min)
    }

    /// Whether something is held at some place from this one on.
    fn some(&self, from: usize) -> bool {
        let row = &self.blocks.as_flattened()[from..self.used * BLOCK];
        row.iter().any(|&held| held > 0)
    }

    /// One cell more from a place on.
    #[inline]
    fn raise(&mut self, from: usize) {
        if let [first, rest @ ..] = &mut self.blocks[from / BLOCK..self.used] {
            for (held, step) in first.iter_mut().zip(lanes_from(from % BLOCK)) {
                *held += step;
            }
            for block in rest {
                block.iter_mut().for_each(|held| *held += 1);
            }
        }
    }

    /// One cell fewer from a place on.
    #[inline]
    fn lower(&mut self, from: usize) {
        if let [first, rest @ ..] = &mut self.blocks[from / BLOCK..self.used] {
            for (held, step) in first.iter_mut().zip(lanes_from(from % BLOCK)) {
                *held -= step;
            }
            for block in rest {
                block.iter_mut().for_each(|held| *held -= 1);
            }
        }
    }

    /// Drops the head frame of a window with this many places. The new frame
    /// at the end holds what the last place did.
    #[inline]
    fn drop_head(&mut self, slots: usize, places: usize) {
        let row = &mut self.blocks.as_flattened_mut()[..places];
        let last = row[places - 1];
        row.copy_within(slots.., 0);
        row[places - slots..].fill(last);
    }
}

/// What the link keeps for one flow.
#[derive(Clone, Debug)]
struct Flow {
    destination: u8,
    share: u8,
    cells: u8,
    /// Slots of the share that are left in the injection frame.
    left: u8,
    /// The quantum number of the next word.
    number: u16,
    /// The injection frame; the head frame is 0.
    frame: usize,
    held: Holdings,
}

/// The window with its bookings, without the flows' own numbers.
#[derive(Clone, Debug)]
struct Table {
    /// Slots in a frame.
    slots: usize,
    /// Frames in the window.
    frames: usize,
    /// Positions in the window.
    positions: usize,
    /// First position of the head frame.
    start: usize,
    /// The current slot of the head frame.
    slot: usize,
    /// For each frame, the head frame first, a 1 for every slot that nobody
    /// has booked and that is yet to come.
    free: [u64; MOST_FRAMES],
    /// The flow that booked each position, or `NOBODY`.
    owner: [u8; MOST_POSITIONS],
    /// The flow that has the current slot, booked or lent, or `NOBODY`.
    holder: u8,
}

/// One output link.
#[derive(Clone, Debug)]
pub struct Link {
    table: Table,
    flows: Vec<Flow>,
    /// The flow that the next lend looks at first.
    turn: usize,
}

impl Table {
    fn empty(slots: usize, frames: usize) -> Table {
        let mut free = [whole_frame(slots); MOST_FRAMES];
        free[0] &= !1;
        Table {
            slots,
            frames,
            positions: slots * frames,
            start: 0,
            slot: 0,
            free,
            owner: [NOBODY; MOST_POSITIONS],
            holder: NOBODY,
        }
    }

    /// The place of a position.
    #[inline]
    fn place(&self, position: usize) -> usize {
        if position < self.start {
            position + self.positions - self.start
        } else {
            position - self.start
        }
    }

    /// The position of a place.
    #[inline]
    fn position(&self, place: usize) -> usize {
        let position = self.start + place;
        if position < self.positions {
            position
        } else {
            position - self.positions
        }
    }

    /// Whether a position is the current one or lies before it in the head
    /// frame. A position before the head frame's first wraps to a large number.
    #[inline]
    fn has_come(&self, position: usize) -> bool {
        position.wrapping_sub(self.start) <= self.slot
    }

    /// The free slots of a frame from a place on; `first` is the frame's first
    /// place.
    #[inline]
    fn free_from(&self, frame: usize, first: usize, from: usize) -> u64 {
        let skip = from.saturating_sub(first) as u32;
        self.free[frame] & u64::MAX.checked_shl(skip).unwrap_or(0)
    }

    /// Books the earliest valid position for a flow, after the departure if
    /// that is still to come.
    #[inline]
    fn book(&mut self, flow: &mut Flow, number: u8, departure: usize) -> Result<usize, u8> {
        let mut first = flow.frame * self.slots;
        // No place is valid up to the last one where the flow is out of cells.
        let full = flow.held.last_with(flow.cells, first);
        let clear = full.map_or(0, |place| place + 1);
        // Nor up to the departure, where the tile is still to come.
        let from = if self.has_come(departure) {
            clear
        } else {
            clear.max(self.place(departure) + 1)
        };
        loop {
            let valid = self.free_from(flow.frame, first, from);
            if flow.left > 0 && valid != 0 {
                let slot = valid.trailing_zeros() as usize;
                let position = self.position(first + slot);
                self.free[flow.frame] &= !(1 << slot);
                self.owner[position] = number;
                flow.left -= 1;
                flow.held.raise(first + slot);
                return Ok(position);
            }
            if flow.frame + 1 == self.frames {
                return Err(self.newest_refusal(flow, first, clear));
            }
            flow.frame += 1;
            flow.left = flow.share;
            first += self.slots;
        }
    }

    /// Why the newest frame, from place `first` on, has nothing for a flow
    /// whose cells leave it the places from `clear` on.
    fn newest_refusal(&self, flow: &Flow, first: usize, clear: usize) -> u8 {
        if flow.left == 0 {
            refusal::SHARE_SPENT
        } else if self.free_from(flow.frame, first, clear) != 0 {
            refusal::NOT_COME
        } else {
            refusal::NO_POSITION
        }
    }

    /// Whether nobody has booked a slot that is yet to come.
    fn all_free(&self) -> bool {
        let whole = whole_frame(self.slots);
        let to_come = whole & (u64::MAX << self.slot << 1);
        self.free[0] == to_come && self.free[1..self.frames].iter().all(|&free| free == whole)
    }

    /// Makes the next frame the head; the old head becomes the newest.
    fn next_head(&mut self) {
        self.slot = 0;
        self.start = self.position(self.slots);
        self.free.copy_within(1..self.frames, 0);
        self.free[self.frames - 1] = whole_frame(self.slots);
    }
}

impl Link {
    /// The link of a plan before any call.
    pub fn fresh(plan: &Plan) -> Link {
        let table = Table::empty(plan.slots, plan.frames);
        let flow = |entry: &Entry| Flow {
            destination: entry.destination,
            share: entry.share,
            cells: entry.cells,
            left: entry.share,
            number: 0,
            frame: 0,
            held: Holdings::none(table.positions),
        };
        let flows = plan.entries.iter().map(flow).collect();
        Link {
            table,
            flows,
            turn: 0,
        }
    }

    /// Asks for a slot, after the word's departure if that is later than the
    /// current position. The word has to carry the count of the flow's
    /// grants so far, modulo 1,024. The answer is the word with the booked
    /// position as its departure, or the number of the refusal.
    #[inline]
    pub fn request(&mut self, word: u32) -> Result<u32, u8> {
        let asked = Word::split(word);
        let Some(flow) = self.flows.get_mut(usize::from(asked.flow)) else {
            return Err(refusal::FLOW);
        };
        if asked.destination != flow.destination {
            return Err(refusal::DESTINATION);
        }
        if usize::from(asked.departure) >= self.table.positions {
            return Err(refusal::DEPARTURE);
        }
        if asked.quantum != flow.number {
            return Err(refusal::NUMBER);
        }
        let booked = self.table.book(flow, asked.flow, asked.departure.into())?;
        flow.number = (flow.number + 1) & 0x3FF;
        Ok(Word {
            departure: booked as u16,
            ..asked
        }
        .join())
    }

    /// Asks for the words of the first 16 records, in order, and fills in their
    /// answers.
    #[inline]
    pub fn burst(&mut self, records: &mut [Ask]) {
        for record in records.iter_mut().take(MOST_ASKED) {
            (record.result, record.position) = match self.request(record.word) {
                Ok(word) => (0, word as u8),
                Err(number) => (number, 0),
            };
        }
    }

    /// Gives one of a flow's cells back from a position on.
    #[inline]
    pub fn credit(&mut self, flow: usize, position: usize) -> Result<(), u8> {
        let Some(flow) = self.flows.get_mut(flow) else {
            return Err(refusal::FLOW);
        };
        if position >= self.table.positions {
            return Err(refusal::POSITION);
        }
        let place = self.table.place(position);
        if place <= self.table.slot {
            return Err(refusal::POSITION_PAST);
        }
        if flow.held.least(place) == 0 {
            return Err(refusal::NOTHING_HELD);
        }
        flow.held.lower(place);
        Ok(())
    }

    /// Goes on by one slot. The answer is the flow that booked it, if any.
    #[inline]
    pub fn tick(&mut self) -> Option<u8> {
        self.table.slot += 1;
        if self.table.slot == self.table.slots {
            self.change_frame();
        }
        let table = &mut self.table;
        table.free[0] &= !(1 << table.slot);
        // Nobody asks for a past position, so it can be emptied ahead of its frame.
        let owner = std::mem::replace(&mut table.owner[table.start + table.slot], NOBODY);
        table.holder = owner;
        (owner != NOBODY).then_some(owner)
    }

    /// Lends the current slot, if nobody has it, to a flow of the mask that has
    /// a cell free from now on. Bit i of the mask is for flow i; several flows
    /// get their slots in turn. The answer is the flow.
    pub fn lend(&mut self, mask: u16) -> Result<u8, u8> {
        if u32::from(mask) >> self.flows.len() != 0 {
            return Err(refusal::FLOW);
        }
        if self.table.holder != NOBODY {
            return Err(refusal::SLOT_TAKEN);
        }
        let now = self.table.slot;
        let can_take = |flow: &Flow| flow.held.last_with(flow.cells, now).is_none();
        // The flows from the one whose turn it is, then those before it.
        let ahead = mask & u16::MAX << self.turn;
        let mut flows = ones(ahead).chain(ones(mask & !ahead));
        let Some(number) = flows.find(|&number| can_take(&self.flows[number])) else {
            return Err(refusal::NO_FLOW);
        };
        self.flows[number].held.raise(now);
        self.table.holder = number as u8;
        self.turn = if number + 1 < self.flows.len() {
            number + 1
        } else {
            0
        };
        Ok(number as u8)
    }

    /// Lets every flow start again in the head frame, if no slot to come is
    /// booked and no flow holds anything from now on. Whoever has the current
    /// slot keeps it. Slots that have come up have no owner any more.
    pub fn reset(&mut self) -> Result<(), u8> {
        let now = self.table.slot;
        if !self.table.all_free() || self.flows.iter().any(|flow| flow.held.some(now)) {
            return Err(refusal::NOT_QUIET);
        }
        for flow in &mut self.flows {
            flow.frame = 0;
            flow.left = flow.share;
        }
        self.turn = 0;
        Ok(())
    }

    /// A frame change.
    fn change_frame(&mut self) {
        self.table.next_head();
        for flow in &mut self.flows {
            flow.held.drop_head(self.table.slots, self.table.positions);
            if flow.frame == 0 {
                flow.left = flow.share;
            } else {
                flow.frame -= 1;
            }
        }
    }
}

/// The places of the bits that are 1, from the lowest on.
fn ones(mut mask: u16) -> impl Iterator<Item = usize> {
    std::iter::from_fn(move || {
        let lowest = mask.trailing_zeros() as usize;
        mask &= mask.wrapping_sub(1);
        (lowest < MOST_FLOWS).then_some(lowest)
    })
}

/// A word with a 1 for every slot of a frame.
fn whole_frame(slots: usize) -> u64 {
    u64::MAX >> (MOST_SLOTS - slots)
}

#[cfg(test)]
mod tests {
    use super::*;

    /// The bytes of a plan; an entry is share, cells, source, destination.
    fn plan(slots: u16, frames: u16, buffer: u16, entries: &[[u8; 4]]) -> Vec<u8> {
        let length = HEADER + ENTRY * entries.len();
        let header = [
            length as u16,
            entries.len() as u16,
            HEADER as u16,
            slots,
            frames,
            buffer,
        ];
        let mut bytes: Vec<u8> = header.into_iter().flat_map(u16::to_le_bytes).collect();
        bytes.extend(entries.as_flattened());
        bytes
    }

    fn fresh(slots: u16, frames: u16, buffer: u16, entries: &[[u8; 4]]) -> Link {
        Link::fresh(&Plan::read(&plan(slots, frames, buffer, entries)).unwrap())
    }

    fn refused(bytes: &[u8]) -> Option<u8> {
        Plan::read(bytes).err()
    }

    /// A word for destination 9.
    fn word(flow: u8, quantum: u16, departure: u16) -> u32 {
        Word {
            destination: 9,
            flow,
            quantum,
            departure,
        }
        .join()
    }

    /// The position that a request with a number gets.
    fn ask_as(link: &mut Link, flow: u8, quantum: u16, departure: u16) -> Result<u16, u8> {
        let granted = link.request(word(flow, quantum, departure))?;
        Ok(Word::split(granted).departure)
    }

    /// The position that a request to destination 9 gets, for a tile that
    /// leaves the board before at a position.
    fn ask_after(link: &mut Link, flow: u8, departure: u16) -> Result<u16, u8> {
        let quantum = link.flows[usize::from(flow)].number;
        ask_as(link, flow, quantum, departure)
    }

    /// The same for a tile that has come: its departure is the current position.
    fn ask(link: &mut Link, flow: u8) -> Result<u16, u8> {
        let now = link.table.start + link.table.slot;
        ask_after(link, flow, now as u16)
    }

    fn ticks(link: &mut Link, count: usize) {
        for _ in 0..count {
            assert_eq!(link.tick(), None);
        }
    }

    const PAIR: [[u8; 4]; 2] = [[2, 2, 1, 9], [2, 2, 2, 9]];
    const LONE: [[u8; 4]; 1] = [[1, 1, 0, 9]];

    #[test]
    fn words_split_and_join() {
        for bits in [0, 1, u32::MAX, 0x2400_0001, 0x8421_1248, 0x03F0_03FF] {
            assert_eq!(Word::split(bits).join(), bits);
        }
        let fields = Word {
            destination: 9,
            flow: 1,
            quantum: 2,
            departure: 3,
        };
        assert_eq!(Word::split(0x2410_0803), fields);
    }

    #[test]
    fn bursts() {
        let mut link = fresh(4, 2, 4, &PAIR);
        let unfilled = |word| Ask {
            word,
            result: 255,
            position: 255,
        };
        let mut records = [unfilled(word(0, 2, 0)); 18];
        records[0] = unfilled(word(0, 0, 0));
        records[1] = unfilled(word(0, 1, 0));
        records[3] = unfilled(word(1, 0, 0));
        records[4] = unfilled(word(2, 0, 0));
        records[5] = unfilled(word(0, 1, 0));
        link.burst(&mut records);
        let answers = records.map(|ask| (ask.result, ask.position));
        assert_eq!(answers[..5], [(0, 1), (0, 2), (12, 0), (0, 3), (8, 0)]);
        assert_eq!(answers[5..7], [(24, 0), (12, 0)]);
        assert_eq!(answers[15..], [(12, 0), (255, 255), (255, 255)]);
        assert_eq!(records[1].word, word(0, 1, 0));
        link.burst(&mut []);
        assert_eq!(ask(&mut link, 1), Ok(4));
    }

    #[test]
    fn plan_lengths_and_counts() {
        let good = plan(4, 2, 4, &PAIR);
        assert_eq!(good.len(), 20);
        assert_eq!(refused(&good), None);
        assert_eq!(refused(&good[..11]), Some(1));
        assert_eq!(refused(&good[..19]), Some(1));
        assert_eq!(refused(&[]), Some(1));
        assert_eq!(refused(&plan(4, 2, 4, &[])), Some(2));
        assert_eq!(refused(&plan(64, 2, 4, &[[1, 1, 0, 9]; 17])), Some(2));
        for (place, value) in [(2, 1), (2, 3), (3, 1), (4, 11), (5, 1)] {
            let mut bytes = good.clone();
            bytes[place] = value;
            assert_eq!(refused(&bytes), Some(2));
        }
    }

    #[test]
    fn plan_frames() {
        assert_eq!(refused(&plan(64, 4, 1, &LONE)), None);
        assert_eq!(refused(&plan(1, 8, 4095, &LONE)), None);
        for (slots, frames, buffer) in [
            (64, 5, 1),
            (65, 2, 1),
            (0, 2, 1),
            (4, 1, 1),
            (4, 9, 1),
            (4, 2, 0),
            (4, 2, 4096),
        ] {
            assert_eq!(refused(&plan(slots, frames, buffer, &LONE)), Some(3));
        }
    }

    #[test]
    fn plan_entries() {
        for entry in [
            [0, 1, 1, 9],
            [5, 1, 1, 9],
            [1, 0, 1, 9],
            [1, 1, 64, 9],
            [1, 1, 1, 64],
            [1, 1, 9, 9],
        ] {
            assert_eq!(refused(&plan(4, 2, 4, &[PAIR[0], entry])), Some(4));
        }
        assert_eq!(refused(&plan(4, 2, 1, &[[3, 2, 1, 9]; 2])), Some(5));
        assert_eq!(refused(&plan(4, 2, 4, &PAIR)), None);
        assert_eq!(refused(&plan(4, 2, 3, &[PAIR[0], [3, 2, 2, 9]])), Some(6));
        assert_eq!(refused(&plan(4, 2, 3, &PAIR)), Some(7));
    }

    #[test]
    fn listing() {
        let mut link = fresh(4, 2, 4, &PAIR);
        assert_eq!(link.request(0x2400_0000), Ok(0x2400_0001));
        assert_eq!(link.request(0x2400_0400), Ok(0x2400_0402));
        assert_eq!(link.request(0x2400_0800), Err(12));
        assert_eq!(link.credit(0, 4), Ok(()));
        assert_eq!(link.request(0x2400_0800), Ok(0x2400_0804));
        assert_eq!(link.request(0x2410_0000), Ok(0x2410_0003));
        assert_eq!(link.tick(), Some(0));
    }

    #[test]
    fn late_credits_keep_to_own_cells() {
        let mut link = fresh(4, 4, 4, &PAIR);
        assert_eq!([ask(&mut link, 0), ask(&mut link, 0)], [Ok(1), Ok(2)]);
        assert_eq!(ask(&mut link, 0), Err(12));
        assert_eq!([link.credit(0, 3), link.credit(0, 3)], [Ok(()); 2]);
        assert_eq!([ask(&mut link, 0), ask(&mut link, 0)], [Ok(12), Ok(13)]);
        assert_eq!([ask(&mut link, 1), ask(&mut link, 1)], [Ok(3), Ok(4)]);
        assert_eq!(ask(&mut link, 1), Err(12));
    }

    #[test]
    fn request_refusals() {
        let mut link = fresh(4, 2, 4, &PAIR);
        assert_eq!(link.request(word(2, 0, 0)), Err(8));
        assert_eq!(link.request(word(63, 7, 1023) ^ 1 << 26), Err(8));
        assert_eq!(link.request(word(0, 7, 1023) ^ 1 << 26), Err(9));
        assert_eq!(link.request(word(0, 7, 8)), Err(10));
        assert_eq!(link.request(word(0, 0, 7)), Err(20));
        let mut link = fresh(1, 2, 1, &LONE);
        assert_eq!(ask(&mut link, 0), Ok(1));
        assert_eq!(ask(&mut link, 0), Err(11));
    }

    #[test]
    fn tiles_leave_after_they_have_come() {
        // The current position, and those before it in the head frame.
        for departure in 0..=2 {
            let mut link = fresh(4, 2, 4, &PAIR);
            ticks(&mut link, 2);
            assert_eq!(ask_after(&mut link, 0, departure), Ok(3));
        }
        // Later ones; none is later than the last.
        for (departure, position) in [(1, 2), (2, 3), (3, 4), (4, 5), (6, 7)] {
            let mut link = fresh(4, 2, 4, &PAIR);
            assert_eq!(ask_after(&mut link, 0, departure), Ok(position));
        }
        let mut link = fresh(4, 2, 4, &PAIR);
        assert_eq!(ask_after(&mut link, 0, 7), Err(20));
        // Position 3 is the last of the newest frame now, and 0 its first.
        for (departure, answer) in [(7, Ok(0)), (0, Ok(1)), (3, Err(20)), (4, Ok(6))] {
            let mut link = fresh(4, 2, 4, &PAIR);
            ticks(&mut link, 5);
            assert_eq!(ask_after(&mut link, 0, departure), answer);
        }
    }

    #[test]
    fn late_departures_leave_frames_behind() {
        // Frames 0 and 1 are skipped with their shares.
        let mut link = fresh(2, 4, 9, &[[1, 9, 0, 9]]);
        assert_eq!(ask_after(&mut link, 0, 4), Ok(5));
        assert_eq!([ask(&mut link, 0), ask(&mut link, 0)], [Ok(6), Err(11)]);
        // A departure counts for its own request alone.
        let mut link = fresh(4, 2, 4, &PAIR);
        assert_eq!(ask_after(&mut link, 0, 5), Ok(6));
        assert_eq!([ask(&mut link, 0), ask(&mut link, 1)], [Ok(4), Ok(1)]);
        let mut link = fresh(4, 2, 4, &PAIR);
        assert_eq!(ask_after(&mut link, 0, 7), Err(20));
        assert_eq!([ask(&mut link, 0), ask(&mut link, 1)], [Ok(4), Ok(1)]);
    }

    #[test]
    fn the_newest_frame_is_refused_in_order() {
        // 11: the share is spent, whatever the departure.
        let mut link = fresh(4, 2, 8, &[[1, 8, 0, 9]]);
        assert_eq!([ask(&mut link, 0), ask(&mut link, 0)], [Ok(1), Ok(4)]);
        assert_eq!(ask_after(&mut link, 0, 7), Err(11));
        // 12: the only cell is held there, with or without a departure.
        let mut link = fresh(4, 2, 8, &[[2, 1, 0, 9]]);
        assert_eq!(ask(&mut link, 0), Ok(1));
        assert_eq!(ask_after(&mut link, 0, 7), Err(12));
        // 20: from 6 on the cell is back.
        assert_eq!(link.credit(0, 6), Ok(()));
        assert_eq!(ask_after(&mut link, 0, 7), Err(20));
        assert_eq!(ask_after(&mut link, 0, 5), Ok(6));
        // All later positions count: the cell is held from 2 on, not at 1.
        let mut link = fresh(4, 2, 8, &[[2, 1, 0, 9]]);
        assert_eq!(ask_after(&mut link, 0, 1), Ok(2));
        assert_eq!(ask(&mut link, 0), Err(12));
    }

    #[test]
    fn words_are_numbered() {
        let mut link = fresh(4, 2, 4, &[[2, 2, 1, 9], [2, 2, 2, 9]]);
        assert_eq!(ask_as(&mut link, 0, 1, 7), Err(24));
        assert_eq!(ask_as(&mut link, 0, 0, 0), Ok(1));
        assert_eq!(ask_as(&mut link, 0, 0, 0), Err(24));
        assert_eq!(ask_as(&mut link, 1, 1, 0), Err(24));
        assert_eq!(ask_as(&mut link, 1, 0, 0), Ok(2));
        assert_eq!(ask_as(&mut link, 0, 1, 0), Ok(3));
        assert_eq!(ask_as(&mut link, 0, 1, 0), Err(24));
        assert_eq!(ask_as(&mut link, 0, 2, 0), Err(12));
    }

    #[test]
    fn numbers_go_round() {
        let mut link = fresh(1, 2, 255, &[[1, 255, 1, 9]]);
        for number in (0..1024).chain([0, 1]) {
            let next = 1 - (number % 2);
            assert_eq!(ask_as(&mut link, 0, number ^ 1023, 1 - next), Err(24));
            assert_eq!(ask_as(&mut link, 0, number, 1 - next), Ok(next));
            assert_eq!(link.credit(0, next.into()), Ok(()));
            assert_eq!(link.tick(), Some(0));
        }
    }

    #[test]
    fn credit_refusals() {
        let mut link = fresh(4, 2, 4, &PAIR);
        assert_eq!(link.credit(2, 9), Err(8));
        assert_eq!(link.credit(0, 8), Err(13));
        assert_eq!(link.credit(0, 0), Err(14));
        assert_eq!(link.credit(0, 1), Err(15));
        // A cell returned from a later position can't be returned again.
        assert_eq!(ask(&mut link, 0), Ok(1));
        assert_eq!(link.credit(0, 5), Ok(()));
        assert_eq!(link.credit(0, 2), Err(15));
    }

    #[test]
    fn the_head_frame_ends_at_the_current_slot() {
        let mut link = fresh(4, 2, 4, &PAIR);
        assert_eq!([link.tick(), link.tick(), link.tick()], [None; 3]);
        assert_eq!(ask(&mut link, 0), Ok(4));
        assert_eq!(link.credit(0, 3), Err(14));
        assert_eq!(link.credit(0, 4), Ok(()));
    }

    #[test]
    fn bookings_and_holdings_go_round() {
        let mut link = fresh(2, 2, 4, &[[1, 2, 0, 9]]);
        assert_eq!([ask(&mut link, 0), ask(&mut link, 0)], [Ok(1), Ok(2)]);
        assert_eq!([link.tick(), link.tick()], [Some(0), Some(0)]);
        // Both cells are still held in the recycled frame.
        assert_eq!(ask(&mut link, 0), Err(12));
        assert_eq!(link.credit(0, 1), Ok(()));
        assert_eq!(ask(&mut link, 0), Ok(1));
        assert_eq!([link.tick(), link.tick()], [None, None]);
        assert_eq!(link.tick(), Some(0));
    }

    #[test]
    fn lent_slots_are_taken_until_the_tick() {
        let mut link = fresh(4, 2, 4, &PAIR);
        assert_eq!([link.lend(1), link.lend(2)], [Ok(0), Err(17)]);
        assert_eq!(ask(&mut link, 0), Ok(1));
        assert_eq!(link.lend(2), Err(17));
        assert_eq!([link.tick(), link.tick()], [Some(0), None]);
        assert_eq!([link.lend(2), link.lend(2)], [Ok(1), Err(17)]);
        assert_eq!(link.tick(), None);
        assert_eq!(link.tick(), None);
        // The head frame is new, and slot 4 is nobody's.
        assert_eq!([link.lend(1), link.lend(2)], [Err(18), Ok(1)]);
    }

    #[test]
    fn lend_refusals() {
        let mut link = fresh(4, 2, 4, &PAIR);
        assert_eq!([link.lend(4), link.lend(0xFFFF)], [Err(8); 2]);
        assert_eq!(link.lend(0), Err(18));
        assert_eq!([ask(&mut link, 0), ask(&mut link, 0)], [Ok(1), Ok(2)]);
        // Flow 0 holds nothing yet, but both cells later on.
        assert_eq!(link.lend(1), Err(18));
        assert_eq!(link.tick(), Some(0));
        assert_eq!([link.lend(4), link.lend(3)], [Err(8), Err(17)]);
        assert_eq!([link.tick(), link.tick()], [Some(0), None]);
        // Both are held now, and one from the next slot on.
        assert_eq!(link.credit(0, 4), Ok(()));
        assert_eq!(link.lend(1), Err(18));
        assert_eq!(link.tick(), None);
        assert_eq!([link.lend(1), link.lend(1)], [Ok(0), Err(17)]);
    }

    #[test]
    fn lent_cells_are_held() {
        let mut link = fresh(4, 2, 4, &PAIR);
        assert_eq!(link.lend(3), Ok(0));
        // The share is still whole, and one cell is left.
        assert_eq!([ask(&mut link, 0), ask(&mut link, 0)], [Ok(1), Err(12)]);
        assert_eq!(link.credit(0, 0), Err(14));
        assert_eq!(link.credit(0, 1), Ok(()));
        // A lent slot doesn't come up when its position comes again.
        assert_eq!(link.tick(), Some(0));
        assert!((0..8).all(|_| link.tick().is_none()));
        assert_eq!(link.lend(1), Ok(0));
    }

    #[test]
    fn flows_are_lent_to_in_turn() {
        let entries = [[1, 8, 1, 9], [1, 8, 2, 9], [1, 8, 3, 9]];
        let mut link = fresh(4, 2, 24, &entries);
        let mut lend = |mask| {
            let lent = link.lend(mask);
            link.tick();
            lent
        };
        // After the last one lent to, going round the flows of the mask.
        assert_eq!([lend(4), lend(3), lend(3)], [Ok(2), Ok(0), Ok(1)]);
        assert_eq!([lend(7), lend(7), lend(7)], [Ok(2), Ok(0), Ok(1)]);
        assert_eq!([lend(2), lend(0), lend(5)], [Ok(1), Err(18), Ok(2)]);
    }

    #[test]
    fn resets_begin_with_flow_0() {
        let mut link = fresh(4, 2, 4, &PAIR);
        assert_eq!([link.lend(3), link.lend(3)], [Ok(0), Err(17)]);
        assert_eq!([link.reset(), link.credit(0, 1)], [Err(23), Ok(())]);
        link.tick();
        assert_eq!(link.reset(), Ok(()));
        assert_eq!(link.lend(3), Ok(0));
    }

    #[test]
    fn quiet_links_start_again() {
        let mut link = fresh(4, 2, 4, &PAIR);
        assert_eq!([link.reset(), link.reset()], [Ok(()); 2]);
        assert_eq!(ask_after(&mut link, 0, 7), Err(20));
        assert_eq!(link.reset(), Ok(()));
        assert_eq!(ask(&mut link, 0), Ok(1));
        // A booked slot to come stands in the way, though nothing is held.
        assert_eq!(link.credit(0, 1), Ok(()));
        assert_eq!(link.reset(), Err(23));
        assert_eq!(link.tick(), Some(0));
        // The current slot doesn't, and stays taken until the tick.
        assert_eq!([link.reset(), link.reset()], [Ok(()); 2]);
        assert_eq!(link.lend(1), Err(17));
        assert_eq!([ask(&mut link, 0), ask(&mut link, 0)], [Ok(2), Ok(3)]);
    }

    #[test]
    fn held_cells_stand_in_the_way() {
        let mut link = fresh(4, 2, 4, &PAIR);
        assert_eq!(link.lend(2), Ok(1));
        assert_eq!(link.reset(), Err(23));
        assert_eq!(link.credit(1, 1), Ok(()));
        assert_eq!(link.reset(), Err(23));
        assert_eq!(link.tick(), None);
        assert_eq!(link.reset(), Ok(()));
        // The last slot of the window.
        assert_eq!(ask_after(&mut link, 0, 6), Ok(7));
        ticks(&mut link, 5);
        assert_eq!(link.reset(), Err(23));
        assert_eq!(link.tick(), Some(0));
        assert_eq!(link.reset(), Err(23));
        assert_eq!(link.credit(0, 0), Ok(()));
        ticks(&mut link, 1);
        assert_eq!(link.reset(), Ok(()));
    }
}
