//! A link in a host's bytes: the calls of `include/nazgolv.h` in plain Rust,
//! as a library for C.
//!
//! Each call makes every test of rule 12.3 and then works on the bytes
//! themselves: it stores what changes, and nothing where nothing does. Numbers
//! of 16 bits are tested in straight runs without branches, which the compiler
//! makes vector instructions of.
#![no_std]
#![crate_type = "staticlib"]

mod plan_bytes;
mod view;

use core::slice;
use plan_bytes::Plan;
use view::View;

/// Bytes of a record of a play, and of a result.
const RECORD: usize = 5;
const RESULT: usize = 8;

/// What tick answers where nobody booked the slot.
const IDLE: u64 = 16;

const NO_CALL: u8 = 16;
const NO_ROOM: u8 = 19;
const SHORT: u8 = 21;

/// A result: the value, or a refusal above the low 32 bits.
fn number(answer: Result<u64, u8>) -> u64 {
    answer.unwrap_or_else(|refusal| u64::from(refusal) << 32)
}

/// Makes a call on an image that is taken.
///
/// # Safety
/// `image` has `length` bytes behind it.
unsafe fn called(
    image: *mut u8,
    length: usize,
    call: impl FnOnce(&mut View) -> Result<u64, u8>,
) -> u64 {
    // Safety: the caller's promise.
    let bytes = unsafe { slice::from_raw_parts_mut(image, length) };
    number(View::of(bytes).and_then(|mut view| call(&mut view)))
}

/// # Safety
/// Both have as many bytes behind them as is said, and don't overlap.
#[no_mangle]
pub unsafe extern "C" fn nazgolv_fresh(
    plan: *const u8,
    plan_length: usize,
    image: *mut u8,
    length: usize,
) -> u64 {
    // Safety: the caller's promise.
    let (plan, image) = unsafe {
        (
            slice::from_raw_parts(plan, plan_length),
            slice::from_raw_parts_mut(image, length),
        )
    };
    let made = Plan::read(plan).and_then(|read| {
        let total = view::length_of(&read);
        let room = image.get_mut(..total).ok_or(SHORT)?;
        view::write_fresh(&read, plan, room);
        Ok(0)
    });
    number(made)
}

/// # Safety
/// `image` has `length` bytes behind it.
#[no_mangle]
pub unsafe extern "C" fn nazgolv_check(image: *const u8, length: usize) -> u64 {
    // Safety: the caller's promise.
    let bytes = unsafe { slice::from_raw_parts(image, length) };
    view::test(bytes).map_or_else(u64::from, |_| 0)
}

/// # Safety
/// `image` has `length` bytes behind it.
#[no_mangle]
pub unsafe extern "C" fn nazgolv_request(image: *mut u8, length: usize, word: u32) -> u64 {
    // Safety: the caller's promise.
    unsafe { called(image, length, |view| view.request(word).map(u64::from)) }
}

/// # Safety
/// `image` has `length` bytes behind it.
#[no_mangle]
pub unsafe extern "C" fn nazgolv_credit(
    image: *mut u8,
    length: usize,
    flow: usize,
    position: usize,
) -> u64 {
    // Safety: the caller's promise.
    unsafe {
        called(image, length, |view| {
            view.credit(flow, position).map(|()| 0)
        })
    }
}

/// # Safety
/// `image` has `length` bytes behind it.
#[no_mangle]
pub unsafe extern "C" fn nazgolv_tick(image: *mut u8, length: usize) -> u64 {
    // Safety: the caller's promise.
    unsafe { called(image, length, |view| Ok(ticked(view))) }
}

fn ticked(view: &mut View) -> u64 {
    view.tick().map_or(IDLE, |flow| flow as u64)
}

/// # Safety
/// `image` has `length` bytes behind it.
#[no_mangle]
pub unsafe extern "C" fn nazgolv_lend(image: *mut u8, length: usize, mask: u16) -> u64 {
    // Safety: the caller's promise.
    unsafe {
        called(image, length, |view| {
            view.lend(mask).map(|flow| flow as u64)
        })
    }
}

/// # Safety
/// `image` has `length` bytes behind it.
#[no_mangle]
pub unsafe extern "C" fn nazgolv_reset(image: *mut u8, length: usize) -> u64 {
    // Safety: the caller's promise.
    unsafe { called(image, length, |view| view.reset().map(|()| 0)) }
}

/// A record of a play.
fn play_one(view: &mut View, record: &[u8]) -> Result<u64, u8> {
    match *record {
        [1, a, b, c, d] => view
            .request(u32::from_le_bytes([a, b, c, d]))
            .map(u64::from),
        [2, flow, low, high, 0] => {
            let position = u16::from_le_bytes([low, high]);
            view.credit(flow.into(), position.into()).map(|()| 0)
        }
        [3, 0, 0, 0, 0] => Ok(ticked(view)),
        [4, low, high, 0, 0] => {
            let mask = u16::from_le_bytes([low, high]);
            view.lend(mask).map(|flow| flow as u64)
        }
        [5, 0, 0, 0, 0] => view.reset().map(|()| 0),
        _ => Err(NO_CALL),
    }
}

/// # Safety
/// Each has as many bytes behind it as is said, and none overlaps another.
#[no_mangle]
pub unsafe extern "C" fn nazgolv_play(
    image: *mut u8,
    length: usize,
    records: *const u8,
    records_length: usize,
    out: *mut u8,
    out_length: usize,
) -> u64 {
    // Safety: the caller's promise.
    let (records, out) = unsafe {
        (
            slice::from_raw_parts(records, records_length),
            slice::from_raw_parts_mut(out, out_length),
        )
    };
    let play = |view: &mut View| {
        let results = out.chunks_exact_mut(RESULT);
        if results.len() < records.len().div_ceil(RECORD) {
            return Err(NO_ROOM);
        }
        for (record, result) in records.chunks(RECORD).zip(results) {
            result.copy_from_slice(&number(play_one(view, record)).to_le_bytes());
        }
        Ok(0)
    };
    // Safety: the caller's promise.
    unsafe { called(image, length, play) }
}

#[cfg(not(test))]
#[panic_handler]
fn panic(_: &core::panic::PanicInfo) -> ! {
    loop {}
}

/// The compiled core library names it; nothing unwinds here.
#[cfg(not(test))]
#[no_mangle]
extern "C" fn rust_eh_personality() {}
