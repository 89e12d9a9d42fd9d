//! A safe wrapper of the library for C (`include/nazgolv.h`): a link that keeps its own image.
//! `mod nazgolv;` takes it in, and `rustc -L target/c` links the archive that `player/build` makes.
#![allow(dead_code)] // a program uses what it needs

use std::ffi::CStr;
use std::os::raw::c_char;
use std::{error, fmt};

#[link(name = "nazgolv", kind = "static")]
extern "C" {
    fn nazgolv_images_4();
    fn nazgolv_version() -> *const c_char;
    fn nazgolv_why(number: u32) -> *const c_char;
    fn nazgolv_fresh(plan: *const u8, plan_length: usize, image: *mut u8, length: usize) -> u64;
    fn nazgolv_request(image: *mut u8, length: usize, word: u32) -> u64;
    fn nazgolv_credit(image: *mut u8, length: usize, flow: usize, position: usize) -> u64;
    fn nazgolv_tick(image: *mut u8, length: usize) -> u64;
    fn nazgolv_lend(image: *mut u8, length: usize, mask: u16) -> u64;
    fn nazgolv_reset(image: *mut u8, length: usize) -> u64;
    fn nazgolv_check(image: *const u8, length: usize) -> u64;
    fn nazgolv_play(
        image: *mut u8, length: usize, records: *const u8, records_length: usize,
        out: *mut u8, out_length: usize,
    ) -> u64;
    fn nazgolv_current(image: *const u8, length: usize) -> u32;
    fn nazgolv_destination(image: *const u8, length: usize, flow: usize) -> u32;
    fn nazgolv_number(image: *const u8, length: usize, flow: usize) -> u32;
    fn nazgolv_owner(image: *const u8, length: usize, position: usize) -> u32;
    fn nazgolv_held(image: *const u8, length: usize, flow: usize, position: usize) -> u32;
}

/// A library with images of another version is not linked.
#[used]
static IMAGES: unsafe extern "C" fn() = nazgolv_images_4;

const IMAGE_MAX: usize = 8894;
const RECORD: usize = 5;
const RESULT: usize = 8;
const IDLE: u32 = 16;
const NONE: u32 = u32::MAX;

/// Why a call was refused; `to_string` gives the sentence of docs/REFUSALS.md.
#[derive(Clone, Copy, Debug, PartialEq, Eq)]
pub enum Refusal {
    PlanLength, PlanCounts, PlanFrame, PlanEntry, PlanPair, PlanShares, PlanCells,
    Flow, Destination, Departure, Share, Full, Position, Passed, Holding,
    Record, Taken, Takers, Room, NotCome, Short, Image, NotQuiet, Number,
    Other(u32),
}

const REFUSALS: [(u32, Refusal); 24] = [
    (1, Refusal::PlanLength), (2, Refusal::PlanCounts), (3, Refusal::PlanFrame),
    (4, Refusal::PlanEntry), (5, Refusal::PlanPair), (6, Refusal::PlanShares),
    (7, Refusal::PlanCells), (8, Refusal::Flow), (9, Refusal::Destination),
    (10, Refusal::Departure), (11, Refusal::Share), (12, Refusal::Full),
    (13, Refusal::Position), (14, Refusal::Passed), (15, Refusal::Holding),
    (16, Refusal::Record), (17, Refusal::Taken), (18, Refusal::Takers),
    (19, Refusal::Room), (20, Refusal::NotCome), (21, Refusal::Short),
    (22, Refusal::Image), (23, Refusal::NotQuiet), (24, Refusal::Number),
];

impl Refusal {
    fn of(number: u32) -> Refusal {
        let row = REFUSALS.iter().find(|row| row.0 == number);
        row.map_or(Refusal::Other(number), |row| row.1)
    }

    pub fn number(self) -> u32 {
        match self {
            Refusal::Other(number) => number,
            refusal => REFUSALS.iter().find(|row| row.1 == refusal).map_or(0, |row| row.0),
        }
    }
}

impl fmt::Display for Refusal {
    fn fmt(&self, to: &mut fmt::Formatter) -> fmt::Result {
        to.write_str(text(unsafe { nazgolv_why(self.number()) }))
    }
}

impl error::Error for Refusal {}

/// A text of the library, which stays for ever and is ASCII.
fn text(chars: *const c_char) -> &'static str {
    unsafe { CStr::from_ptr(chars) }.to_str().unwrap_or("")
}

/// The library's version.
pub fn version() -> &'static str {
    text(unsafe { nazgolv_version() })
}

/// A look-ahead word, or none where a part is not below its limit: 64, 64, 1,024 and 1,024.
pub fn word(destination: u32, flow: u32, number: u32, departure: u32) -> Option<u32> {
    let fits = destination < 64 && flow < 64 && number < 1024 && departure < 1024;
    fits.then_some(destination << 26 | flow << 20 | number << 10 | departure)
}

/// A result taken apart: the value, or the refusal.
fn value(result: u64) -> Result<u32, Refusal> {
    match (result >> 32) as u32 {
        0 => Ok(result as u32),
        number => Err(Refusal::of(number)),
    }
}

/// What was looked for in an image, where it is there.
fn seen(number: u32) -> Option<u32> {
    (number != NONE).then_some(number)
}

/// One link. A copy of it is another link.
#[derive(Clone, Debug, PartialEq, Eq)]
pub struct Link {
    image: Vec<u8>,
}

impl Link {
    /// The link of a plan's bytes, with which nothing was done yet.
    pub fn fresh(plan: &[u8]) -> Result<Link, Refusal> {
        let mut image = vec![0; IMAGE_MAX];
        let made = unsafe { nazgolv_fresh(plan.as_ptr(), plan.len(), image.as_mut_ptr(), image.len()) };
        value(made)?;
        image.truncate(u16::from_le_bytes([image[0], image[1]]) as usize);
        Ok(Link { image })
    }

    /// The link of an image that was stored or sent.
    pub fn from_image(image: &[u8]) -> Result<Link, Refusal> {
        match unsafe { nazgolv_check(image.as_ptr(), image.len()) } {
            0 => Ok(Link { image: image.to_vec() }),
            number => Err(Refusal::of(number as u32)),
        }
    }

    /// Its bytes, to store or to send.
    pub fn image(&self) -> &[u8] {
        &self.image
    }

    /// Asks for a slot: the position that is booked.
    pub fn request(&mut self, word: u32) -> Result<u32, Refusal> {
        let result = unsafe { nazgolv_request(self.image.as_mut_ptr(), self.image.len(), word) };
        Ok(value(result)? & 1023)
    }

    /// A flow's cell falls free from a position on.
    pub fn credit(&mut self, flow: usize, position: usize) -> Result<(), Refusal> {
        let result = unsafe { nazgolv_credit(self.image.as_mut_ptr(), self.image.len(), flow, position) };
        value(result).map(drop)
    }

    /// Goes on by one slot: the flow that booked it, or none.
    pub fn tick(&mut self) -> Result<Option<u32>, Refusal> {
        let flow = value(unsafe { nazgolv_tick(self.image.as_mut_ptr(), self.image.len()) })?;
        Ok((flow != IDLE).then_some(flow))
    }

    /// Lends the current slot to a flow of the mask.
    pub fn lend(&mut self, mask: u16) -> Result<u32, Refusal> {
        value(unsafe { nazgolv_lend(self.image.as_mut_ptr(), self.image.len(), mask) })
    }

    /// Lets every flow start again, where the link is quiet.
    pub fn reset(&mut self) -> Result<(), Refusal> {
        value(unsafe { nazgolv_reset(self.image.as_mut_ptr(), self.image.len()) }).map(drop)
    }

    /// Many calls by one, as records of five bytes: the value of each as the library has it, or its
    /// refusal. A request's value is its word, whose low ten bits are the position, and a tick's is 16
    /// where nobody booked the slot.
    pub fn play(&mut self, records: &[u8]) -> Result<Vec<Result<u32, Refusal>>, Refusal> {
        let mut out = vec![0; RESULT * records.len().div_ceil(RECORD)];
        let (image, results) = (self.image.as_mut_ptr(), out.as_mut_ptr());
        let played = unsafe {
            nazgolv_play(image, self.image.len(), records.as_ptr(), records.len(), results, out.len())
        };
        value(played)?;
        let result = |bytes: &[u8]| bytes.iter().rev().fold(0, |sum, &byte| sum << 8 | byte as u64);
        Ok(out.chunks(RESULT).map(|bytes| value(result(bytes))).collect())
    }

    /// CP, the current position: the departure of a tile that has come.
    pub fn current(&self) -> u32 {
        unsafe { nazgolv_current(self.image.as_ptr(), self.image.len()) }
    }

    /// The number that a flow's next word has to carry.
    pub fn number(&self, flow: usize) -> Option<u32> {
        seen(unsafe { nazgolv_number(self.image.as_ptr(), self.image.len(), flow) })
    }

    /// A flow's next word, for a tile that has come; none where there is no such flow.
    pub fn word(&self, flow: usize) -> Option<u32> {
        let to = seen(unsafe { nazgolv_destination(self.image.as_ptr(), self.image.len(), flow) })?;
        word(to, flow as u32, self.number(flow)?, self.current())
    }

    /// The flow that booked a position; none where nobody did, or where there is no such position.
    pub fn owner(&self, position: usize) -> Option<u32> {
        let owner = seen(unsafe { nazgolv_owner(self.image.as_ptr(), self.image.len(), position) });
        owner.filter(|&flow| flow != IDLE)
    }

    /// How many cells a flow holds at a position.
    pub fn held(&self, flow: usize, position: usize) -> Option<u32> {
        seen(unsafe { nazgolv_held(self.image.as_ptr(), self.image.len(), flow, position) })
    }
}
