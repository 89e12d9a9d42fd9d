//! A link in the bytes of its image: the tests of rule 12.3, and the calls,
//! which store what they change.

use crate::plan_bytes::{field, Plan, ENTRY, HEADER as PLAN_HEADER, MOST_FLOWS, MOST_FRAMES};

/// Bytes of the image's header, and where its last three fields are.
const HEADER: usize = 18;
const CURRENT: usize = 12;
const MARK: usize = 14;
const TURN: usize = 16;

/// Owner of a position that nobody has booked.
const NOBODY: u16 = 16;
/// Quantum numbers go round.
const NUMBERS: usize = 1024;
/// Owners that are told apart: flows, nobody, and all others as the last.
const OWNERS: usize = 18;
/// Positions that are looked at together.
const BLOCK: usize = 32;

const SHORT: u8 = 21;
const IMAGE: u8 = 22;

/// What stands where in a taken image.
#[derive(Clone, Copy)]
pub struct Places {
    plan: Plan,
    /// Positions in the window.
    size: usize,
    /// Where the owners start, and where the flows' parts do.
    owners: usize,
    flows: usize,
    /// The current position, the frame that it is in, and the first one of that.
    current: usize,
    head: usize,
    base: usize,
}

pub struct View<'a> {
    bytes: &'a mut [u8],
    at: Places,
}

// ---- fields

/// Numbers of two bytes, one after the other.
fn fields(bytes: &[u8]) -> impl DoubleEndedIterator<Item = u16> + ExactSizeIterator + '_ {
    bytes
        .chunks_exact(2)
        .map(|pair| u16::from_le_bytes([pair[0], pair[1]]))
}

/// Changes each of them.
fn change(bytes: &mut [u8], by: impl Fn(u16) -> u16) {
    for pair in bytes.chunks_exact_mut(2) {
        let number = u16::from_le_bytes([pair[0], pair[1]]);
        pair.copy_from_slice(&by(number).to_le_bytes());
    }
}

fn put(bytes: &mut [u8], at: usize, number: usize) {
    bytes[at..at + 2].copy_from_slice(&(number as u16).to_le_bytes());
}

// ---- where things stand

impl Places {
    fn of(plan: Plan, current: usize) -> Places {
        let size = plan.positions();
        let owners = HEADER + PLAN_HEADER + ENTRY * plan.count;
        let head = current / plan.slots;
        Places {
            plan,
            size,
            owners,
            flows: owners + 2 * size,
            current,
            head,
            base: head * plan.slots,
        }
    }

    /// Bytes of a flow's part.
    fn part(&self) -> usize {
        2 * (3 + self.size)
    }

    fn total(&self) -> usize {
        self.flows + self.plan.count * self.part()
    }

    /// The first six fields of the header.
    fn header(&self) -> [usize; 6] {
        let plan = self.plan.count;
        [
            self.total(),
            HEADER,
            self.owners,
            self.size,
            self.flows,
            plan,
        ]
    }

    fn flow(&self, flow: usize) -> usize {
        self.flows + flow * self.part()
    }

    /// Where the flow's holdings stand.
    fn held(&self, flow: usize) -> core::ops::Range<usize> {
        let start = self.flow(flow) + 4;
        start..start + 2 * self.size
    }

    /// The place of a position in the window, whose first is the head frame's.
    fn place(&self, position: usize) -> usize {
        if position < self.base {
            position + self.size - self.base
        } else {
            position - self.base
        }
    }

    /// The frame after one.
    fn next(&self, frame: usize) -> usize {
        if frame + 1 < self.plan.frames {
            frame + 1
        } else {
            0
        }
    }

    /// The frames before this one in the window.
    fn ahead(&self, frame: usize) -> usize {
        if frame < self.head {
            frame + self.plan.frames - self.head
        } else {
            frame - self.head
        }
    }

    /// Positions from one on, up to the window's end, as one or two runs.
    fn from(&self, position: usize) -> [core::ops::Range<usize>; 2] {
        if position < self.base {
            [position..self.base, 0..0]
        } else {
            [position..self.size, 0..self.base]
        }
    }
}

// ---- the test of an image

/// Bookings of each owner in each frame; owners that are none are the last.
/// Positions count in turn in two tables, which are added up then: one that has
/// the owner of the one before it needn't wait for it.
fn count(owners: &[u8], slots: usize) -> [[u8; OWNERS]; MOST_FRAMES] {
    let mut even = [[0; OWNERS]; MOST_FRAMES];
    let mut odd = even;
    let known = |owner: u16| usize::from(owner).min(OWNERS - 1);
    for (frame, owners) in owners.chunks_exact(2 * slots).enumerate() {
        let (even, odd) = (&mut even[frame], &mut odd[frame]);
        let mut owners = fields(owners);
        while let Some(owner) = owners.next() {
            even[known(owner)] += 1;
            if let Some(owner) = owners.next() {
                odd[known(owner)] += 1;
            }
        }
    }
    for (sum, more) in even.as_flattened_mut().iter_mut().zip(odd.as_flattened()) {
        *sum += more;
    }
    even
}

/// By how much a run breaks the conditions on holdings, if it does: above the
/// cells, or grown without a booking.
fn excess(held: &[u8], before: &[u8], owners: &[u8], flow: u16, cells: u16) -> u16 {
    fields(held).zip(fields(before)).zip(fields(owners)).fold(
        0,
        |found, ((held, before), owner)| {
            let booked = u16::from(owner == flow);
            found | held.saturating_sub(cells) | held.saturating_sub(before).saturating_sub(booked)
        },
    )
}

/// The same above the cells alone.
fn above(held: &[u8], cells: u16) -> u16 {
    fields(held).fold(0, |found, held| found | held.saturating_sub(cells))
}

impl Places {
    fn holds_well(&self, bytes: &[u8], flow: usize) -> bool {
        let held = &bytes[self.held(flow)];
        let owners = &bytes[self.owners..self.flows];
        let cells = u16::from(self.plan.entries[flow].cells);
        let run = |first: usize, end: usize| {
            excess(
                &held[2 * first..2 * end],
                &held[2 * first - 2..2 * end - 2],
                &owners[2 * first..2 * end],
                flow as u16,
                cells,
            )
        };
        let next = self.current + 1;
        let mut found = run(next, self.size) | above(&held[2 * self.base..2 * next], cells);
        if self.base > 0 {
            let last = &held[2 * self.size - 2..];
            found |= run(1, self.base) | excess(&held[..2], last, &owners[..2], flow as u16, cells);
        }
        found == 0
    }

    fn flow_good(&self, bytes: &[u8], counts: &[[u8; OWNERS]; MOST_FRAMES], flow: usize) -> bool {
        let at = self.flow(flow);
        let (frame, left) = (field(bytes, at), field(bytes, at + 2));
        let frames = self.plan.frames;
        if frame >= frames {
            return false;
        }
        let share = usize::from(self.plan.entries[flow].share);
        let booked = |frame: usize| usize::from(counts[frame][flow]);
        let mut good = booked(frame) + left == share;
        let ahead = self.ahead(frame);
        for each in 0..frames {
            good &= booked(each) <= share;
            good &= self.ahead(each) <= ahead || booked(each) == 0;
        }
        good && field(bytes, at + self.part() - 2) < NUMBERS && self.holds_well(bytes, flow)
    }
}

/// Makes every test of a buffer with an image.
pub fn test(bytes: &[u8]) -> Result<Places, u8> {
    if bytes.len() < HEADER || bytes.len() < field(bytes, 0) {
        return Err(SHORT);
    }
    let rest = &bytes[HEADER..];
    if rest.len() < 2 {
        return Err(IMAGE);
    }
    let plan = rest.get(..field(rest, 0)).ok_or(IMAGE)?;
    let plan = Plan::read(plan).map_err(|_| IMAGE)?;
    let at = Places::of(plan, field(bytes, CURRENT));
    let mut listed = at.header().into_iter().enumerate();
    let good = listed.all(|(k, number)| field(bytes, 2 * k) == number)
        && at.current < at.size
        && field(bytes, MARK) <= 1
        && field(bytes, TURN) < plan.count;
    if !good {
        return Err(IMAGE);
    }
    let counts = count(&bytes[at.owners..at.flows], plan.slots);
    let unknown = |counts: &[u8; OWNERS]| {
        counts[OWNERS - 1] > 0 || counts[plan.count..MOST_FLOWS].iter().any(|&n| n > 0)
    };
    if counts.iter().any(unknown) || !(0..plan.count).all(|flow| at.flow_good(bytes, &counts, flow))
    {
        return Err(IMAGE);
    }
    Ok(at)
}

/// Bytes of the image of a plan.
pub fn length_of(plan: &Plan) -> usize {
    Places::of(*plan, 0).total()
}

/// Writes the image of a link before any call.
pub fn write_fresh(plan: &Plan, plan_bytes: &[u8], image: &mut [u8]) {
    let at = Places::of(*plan, 0);
    image.fill(0);
    for (k, number) in at.header().into_iter().enumerate() {
        put(image, 2 * k, number);
    }
    image[HEADER..at.owners].copy_from_slice(plan_bytes);
    change(&mut image[at.owners..at.flows], |_| NOBODY);
    for (flow, entry) in plan.entries().iter().enumerate() {
        put(image, at.flow(flow) + 2, entry.share.into());
    }
}

// ---- calls

/// The last of the positions of a run at which this many are held.
fn last_with(held: &[u8], cells: u16) -> Option<usize> {
    let mut end = held.len() / 2;
    while end > 0 {
        let start = end.saturating_sub(BLOCK);
        let block = &held[2 * start..2 * end];
        if fields(block).fold(false, |any, held| any | (held == cells)) {
            let found = fields(block).rposition(|held| held == cells);
            return found.map(|place| start + place);
        }
        end = start;
    }
    None
}

impl<'a> View<'a> {
    /// The link in a buffer whose image is taken.
    pub fn of(bytes: &'a mut [u8]) -> Result<View<'a>, u8> {
        let at = test(bytes)?;
        Ok(View { bytes, at })
    }

    fn owner(&self, position: usize) -> u16 {
        field(self.bytes, self.at.owners + 2 * position) as u16
    }

    fn held(&self, flow: usize) -> &[u8] {
        &self.bytes[self.at.held(flow)]
    }

    /// Changes what a flow holds at a position and at each later one.
    fn change_from(&mut self, flow: usize, position: usize, by: impl Fn(u16) -> u16 + Copy) {
        let runs = self.at.from(position);
        let held = self.at.held(flow);
        let held = &mut self.bytes[held];
        for run in runs {
            change(&mut held[2 * run.start..2 * run.end], by);
        }
    }

    /// The last place from a position on where a flow is out of cells.
    fn last_full(&self, flow: usize, position: usize) -> Option<usize> {
        let cells = u16::from(self.at.plan.entries[flow].cells);
        let held = self.held(flow);
        let [first, second] = self.at.from(position);
        let last = |run: &core::ops::Range<usize>| {
            last_with(&held[2 * run.start..2 * run.end], cells).map(|found| run.start + found)
        };
        let found = last(&second).or_else(|| last(&first));
        found.map(|position| self.at.place(position))
    }

    /// The lowest position of a frame at this place or later that can be
    /// booked.
    fn free_in(&self, frame: usize, place: usize) -> Option<usize> {
        let slots = self.at.plan.slots;
        let first = frame * slots;
        let skip = place.saturating_sub(self.at.place(first));
        let start = self.at.owners + 2 * first;
        let owners = fields(&self.bytes[start..start + 2 * slots]);
        let found = owners.skip(skip).position(|owner| owner == NOBODY);
        found.map(|slot| first + skip + slot)
    }

    pub fn request(&mut self, word: u32) -> Result<u32, u8> {
        let flow = (word >> 20 & 63) as usize;
        let departure = (word & 1023) as usize;
        let at = self.at;
        if flow >= at.plan.count {
            return Err(8);
        }
        let entry = at.plan.entries[flow];
        if word >> 26 != u32::from(entry.destination) {
            return Err(9);
        }
        if departure >= at.size {
            return Err(10);
        }
        let number_at = at.flow(flow) + at.part() - 2;
        let number = field(self.bytes, number_at);
        if (word >> 10 & 1023) as usize != number {
            return Err(24);
        }
        let position = self.book(flow, departure)?;
        put(self.bytes, number_at, (number + 1) % NUMBERS);
        Ok(word & !1023 | position as u32)
    }

    fn book(&mut self, flow: usize, departure: usize) -> Result<usize, u8> {
        let at = self.at;
        let share = usize::from(at.plan.entries[flow].share);
        let part = at.flow(flow);
        let mut frame = field(self.bytes, part);
        let mut left = field(self.bytes, part + 2);
        let full = self.last_full(flow, frame * at.plan.slots);
        let now = at.place(at.current);
        let clear = full.map_or(0, |place| place + 1).max(now + 1);
        let start = clear.max(at.place(departure) + 1);
        let newest = at.plan.frames - 1;
        loop {
            let found = if left > 0 {
                self.free_in(frame, start)
            } else {
                None
            };
            if let Some(position) = found {
                put(self.bytes, part, frame);
                put(self.bytes, part + 2, left - 1);
                put(self.bytes, at.owners + 2 * position, flow);
                self.change_from(flow, position, |held| held + 1);
                return Ok(position);
            }
            if at.ahead(frame) == newest {
                break;
            }
            frame = at.next(frame);
            left = share;
        }
        if field(self.bytes, part) != frame {
            put(self.bytes, part, frame);
            put(self.bytes, part + 2, left);
        }
        if left == 0 {
            return Err(11);
        }
        Err(if self.free_in(frame, clear).is_some() {
            20
        } else {
            12
        })
    }

    pub fn credit(&mut self, flow: usize, position: usize) -> Result<(), u8> {
        let at = self.at;
        if flow >= at.plan.count {
            return Err(8);
        }
        if position >= at.size {
            return Err(13);
        }
        if at.place(position) <= at.place(at.current) {
            return Err(14);
        }
        let held = self.held(flow);
        let none = |run: core::ops::Range<usize>| {
            fields(&held[2 * run.start..2 * run.end]).fold(false, |any, held| any | (held == 0))
        };
        if at.from(position).into_iter().any(none) {
            return Err(15);
        }
        self.change_from(flow, position, |held| held - 1);
        Ok(())
    }

    pub fn tick(&mut self) -> Option<usize> {
        let at = self.at;
        let next = if at.current + 1 < at.size {
            at.current + 1
        } else {
            0
        };
        put(self.bytes, CURRENT, next);
        if self.bytes[MARK] != 0 {
            put(self.bytes, MARK, 0);
        }
        if next == 0 || next == at.base + at.plan.slots {
            self.change_frame();
            self.at.head = at.next(at.head);
            self.at.base = next;
        }
        self.at.current = next;
        let owner = self.owner(next);
        (owner != NOBODY).then_some(owner.into())
    }

    /// The head frame is over.
    fn change_frame(&mut self) {
        let at = self.at;
        let over = at.base..at.base + at.plan.slots;
        let last = if at.base > 0 { at.base } else { at.size } - 1;
        let owners = at.owners + 2 * over.start..at.owners + 2 * over.end;
        change(&mut self.bytes[owners], |_| NOBODY);
        for (flow, entry) in at.plan.entries().iter().enumerate() {
            let part = at.flow(flow);
            if field(self.bytes, part) == at.head {
                put(self.bytes, part, at.next(at.head));
                put(self.bytes, part + 2, entry.share.into());
            }
            let held = at.held(flow);
            let held = &mut self.bytes[held];
            let carried = field(held, 2 * last) as u16;
            change(&mut held[2 * over.start..2 * over.end], |_| carried);
        }
    }

    pub fn lend(&mut self, mask: u16) -> Result<usize, u8> {
        let at = self.at;
        if u32::from(mask) >> at.plan.count != 0 {
            return Err(8);
        }
        if self.owner(at.current) != NOBODY || self.bytes[MARK] != 0 {
            return Err(17);
        }
        let turn = field(self.bytes, TURN);
        let mut flows = (turn..at.plan.count).chain(0..turn);
        let can_take =
            |&flow: &usize| mask >> flow & 1 == 1 && self.last_full(flow, at.current).is_none();
        let flow = flows.find(can_take).ok_or(18)?;
        self.change_from(flow, at.current, |held| held + 1);
        put(self.bytes, MARK, 1);
        put(self.bytes, TURN, (flow + 1) % at.plan.count);
        Ok(flow)
    }

    pub fn reset(&mut self) -> Result<(), u8> {
        let at = self.at;
        let some = |bytes: &[u8], from: usize, none: u16| {
            let mut runs = at.from(from).into_iter();
            runs.any(|run| fields(&bytes[2 * run.start..2 * run.end]).any(|x| x != none))
        };
        let owners = &self.bytes[at.owners..at.flows];
        // The current position is the first of those from it on.
        let later = fields(owners)
            .enumerate()
            .any(|(position, owner)| owner != NOBODY && at.place(position) > at.place(at.current));
        if later || (0..at.plan.count).any(|flow| some(self.held(flow), at.current, 0)) {
            return Err(23);
        }
        if self.owner(at.current) != NOBODY {
            put(self.bytes, MARK, 1);
        }
        change(&mut self.bytes[at.owners..at.flows], |_| NOBODY);
        put(self.bytes, TURN, 0);
        for (flow, entry) in at.plan.entries().iter().enumerate() {
            put(self.bytes, at.flow(flow), at.head);
            put(self.bytes, at.flow(flow) + 2, entry.share.into());
        }
        Ok(())
    }
}
