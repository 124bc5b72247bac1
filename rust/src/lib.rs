//! Wuthracomb from Rust: a yard of box-shaped carriers run in steps of equal length, a log of lever
//! records, late records by going back, and replay of a log; beside them the merging of two logs, the
//! hanging load and the rope ends of document 02.
//!
//! Each function is the one of `include/wuthracomb.h` with its name, and each slice stands for a
//! pointer and its length. The header says of each function what it refuses, in which order, and
//! what it leaves; `docs/RULES.md` has the rules. `wuthracomb_open` is [`open`] here, and
//! `WUTHRACOMB_DONE` is [`DONE`].
//!
//! Any numbers, bytes and lengths may be given: what a function can't use it refuses by a number,
//! and a refusal changes no slice. Nothing is kept between two calls and nothing is allocated, so
//! any number of sessions may run at once, each in one thread at a time. Of 64-bit x86 alone.
//!
//! ```
//! use wuthracomb::*;
//!
//! // The practice yard: 4 by 3 cells, a wall at column 3, row 1, and one carrier.
//! let cells = [0, 0, 0, 0, 0, 0, 0, 1, 0, 0, 0, 0];
//! let boxes = [0, 256, 256, 256];
//! let mut state = [0; STATE_WORDS];
//! let mut rows = [0; ROW_WORDS];
//! let mut log = [0; LOG_BYTES];
//! let mut session = [0; SESSION_WORDS];
//! let number =
//!     open(4, 3, 1, 0, &cells, &boxes, &mut state, &mut rows, &mut log, &mut session);
//! assert_eq!(number, DONE);
//!
//! // At step 0 carrier 0 moves its lever to 1.
//! let mut record = [0; RECORD_BYTES];
//! assert_eq!(write_record(0, 0, 1, &mut record), DONE);
//! let number =
//!     deliver(&record, &cells, &boxes, &mut state, &mut rows, &mut log, &mut session);
//! assert_eq!(number, TAKEN);
//!
//! // 40,000 microseconds are two steps: speed 12, then 24, and the place moves by each.
//! let number = reading(40_000, &cells, &boxes, &mut state, &mut rows, &log, &mut session);
//! assert_eq!(number, DONE);
//! assert_eq!(session[SESSION_STEPS], 2);
//! assert_eq!(state, [36, 256, 24, 0, 1]);
//! ```

// The functions have the header's arguments.
#![allow(clippy::too_many_arguments)]
#![warn(missing_docs)]

#[allow(missing_docs)]
pub mod raw;

/// The record is now held.
pub const TAKEN: u32 = 0;
/// The same 8 bytes are already held.
pub const HELD: u32 = 1;
/// Not 8 bytes, or one of the last two isn't 0.
pub const MALFORMED: u32 = 2;
/// Carrier number is B or more.
pub const CARRIER: u32 = 3;
/// Lever above 9.
pub const LEVER: u32 = 4;
/// Record step of 180,000 or more; replay of more steps.
pub const STEP: u32 = 5;
/// Another lever is held at that place, or in the other log.
pub const CONFLICT: u32 = 6;
/// Record step + 64 is below the steps made.
pub const LATE: u32 = 7;
/// 2,048 records are held, or two logs have more together.
pub const FULL: u32 = 8;
/// W, H or B, a cell, a size or a start.
pub const WORLD: u32 = 9;
/// A lent length, at opening or replay or with no session.
pub const ROOM: u32 = 10;
/// Reading below the last reading.
pub const BACKWARD: u32 = 11;
/// Steps made plus the steps due would pass 180,000.
pub const END: u32 = 12;
/// A log to be read isn't sound.
pub const LOG: u32 = 13;
/// What is handed back after opening isn't sound.
pub const FAULT: u32 = 14;
/// A load, its stiffness or its step is out of range.
pub const LOAD: u32 = 17;
/// A rope end, its forces or its step can't be used.
pub const ROPE: u32 = 18;
/// An accepted call other than a delivery.
pub const DONE: u32 = 255;

/// Units of one cell.
pub const UNITS: i32 = 256;
/// W and H are 1 to this.
pub const MAX_CELLS: u32 = 64;
/// B is 1 to this.
pub const MAX_CARRIERS: u32 = 32;
/// A carrier's width and height are 1 to this.
pub const MAX_SIZE: i32 = 1024;
/// Speeds stay within this, either way.
pub const MAX_SPEED: i32 = 200;
/// The last lever position.
pub const BRAKE: u32 = 9;
/// Steps of a session.
pub const MAX_STEPS: u32 = 180000;
/// Microseconds of a step.
pub const STEP_MICROS: u64 = 20000;
/// What a gap has above this is cut.
pub const MAX_GAP: u64 = 250000;
/// Of `boxes`, words for each carrier.
pub const BOX_WORDS: usize = 4;
/// Of `state`, words for each carrier.
pub const STATE_WORDS: usize = 5;
/// Saved states.
pub const ROWS: usize = 64;
/// Of `rows`, words for each carrier.
pub const ROW_WORDS: usize = 320;
/// Bytes of a record.
pub const RECORD_BYTES: usize = 8;
/// Records of a log, at most.
pub const MAX_RECORDS: usize = 2048;
/// Bytes of the log buffer.
pub const LOG_BYTES: usize = 16384;
/// Words of a session.
pub const SESSION_WORDS: usize = 9;
/// Words of a hanging load, its offset and its speed.
pub const LOAD_WORDS: usize = 2;
/// A load's offset and speed stay within this, either way.
pub const MAX_LOAD: i32 = 32767;
/// A load's stiffness is 1 to this.
pub const MAX_STIFFNESS: u32 = 1024;
/// Forces on a rope end, at most.
pub const MAX_FORCES: usize = 8;
/// Numbers of a rope end, its place and its speed.
pub const POINT_NUMBERS: usize = 2;

/// The kind of a pull; its numbers are its size and one that isn't used.
pub const PULL: u32 = 0;
/// The kind of a spring; its numbers are its stiffness and its rest place.
pub const SPRING: u32 = 1;
/// The kind of a drag; its numbers are its factor and one that isn't used.
pub const DRAG: u32 = 2;

/// The session's word for W.
pub const SESSION_W: usize = 0;
/// The session's word for H.
pub const SESSION_H: usize = 1;
/// The session's word for B.
pub const SESSION_B: usize = 2;
/// The session's word for its first reading.
pub const SESSION_FIRST: usize = 3;
/// The session's word for its last reading.
pub const SESSION_LAST: usize = 4;
/// The session's word for the remainder, below 20,000.
pub const SESSION_REMAINDER: usize = 5;
/// The session's word for the cut time.
pub const SESSION_CUT: usize = 6;
/// The session's word for the steps made.
pub const SESSION_STEPS: usize = 7;
/// The session's word for the records held.
pub const SESSION_HELD: usize = 8;

// Why every call below is sound: a slice's pointer is aligned and stands for as many elements as its
// length, and no `&mut` overlaps another slice. That is all that `raw` asks.

/// Opens a session with its first reading: [`DONE`], or [`WORLD`] for W, H and B, [`ROOM`], then
/// [`WORLD`] for cells, sizes and starts.
pub fn open(
    w: u32,
    h: u32,
    b: u32,
    reading: u64,
    cells: &[u8],
    boxes: &[i32],
    state: &mut [i32],
    rows: &mut [i32],
    log: &mut [u8],
    session: &mut [u64],
) -> u32 {
    unsafe {
        raw::wuthracomb_open(
            w,
            h,
            b,
            reading,
            cells.as_ptr(),
            cells.len(),
            boxes.as_ptr(),
            boxes.len(),
            state.as_mut_ptr(),
            state.len(),
            rows.as_mut_ptr(),
            rows.len(),
            log.as_mut_ptr(),
            log.len(),
            session.as_mut_ptr(),
            session.len(),
        )
    }
}

/// Gives the session a clock reading, in microseconds, and makes the steps due: [`DONE`], or
/// [`FAULT`], [`BACKWARD`], [`END`].
pub fn reading(
    reading: u64,
    cells: &[u8],
    boxes: &[i32],
    state: &mut [i32],
    rows: &mut [i32],
    log: &[u8],
    session: &mut [u64],
) -> u32 {
    unsafe {
        raw::wuthracomb_reading(
            reading,
            cells.as_ptr(),
            cells.len(),
            boxes.as_ptr(),
            boxes.len(),
            state.as_mut_ptr(),
            state.len(),
            rows.as_mut_ptr(),
            rows.len(),
            log.as_ptr(),
            log.len(),
            session.as_mut_ptr(),
            session.len(),
        )
    }
}

/// Delivers the record in `bytes`, in any order and any number of times: [`TAKEN`], or [`FAULT`],
/// [`MALFORMED`], [`CARRIER`], [`LEVER`], [`STEP`], then [`HELD`] or [`CONFLICT`], then [`LATE`],
/// [`FULL`], and last [`FAULT`] for the row to be brought back.
pub fn deliver(
    bytes: &[u8],
    cells: &[u8],
    boxes: &[i32],
    state: &mut [i32],
    rows: &mut [i32],
    log: &mut [u8],
    session: &mut [u64],
) -> u32 {
    unsafe {
        raw::wuthracomb_deliver(
            bytes.as_ptr(),
            bytes.len(),
            cells.as_ptr(),
            cells.len(),
            boxes.as_ptr(),
            boxes.len(),
            state.as_mut_ptr(),
            state.len(),
            rows.as_mut_ptr(),
            rows.len(),
            log.as_mut_ptr(),
            log.len(),
            session.as_mut_ptr(),
            session.len(),
        )
    }
}

/// Replays a log from the start to the state after the given number of steps: [`DONE`], or
/// [`WORLD`] for W, H and B, [`ROOM`], [`WORLD`] for cells, sizes and starts, [`LOG`], [`STEP`].
pub fn replay(
    w: u32,
    h: u32,
    b: u32,
    steps: u32,
    cells: &[u8],
    boxes: &[i32],
    state: &mut [i32],
    log: &[u8],
) -> u32 {
    unsafe {
        raw::wuthracomb_replay(
            w,
            h,
            b,
            steps,
            cells.as_ptr(),
            cells.len(),
            boxes.as_ptr(),
            boxes.len(),
            state.as_mut_ptr(),
            state.len(),
            log.as_ptr(),
            log.len(),
        )
    }
}

/// Writes the FNV-1a digest of the steps made and the state words to `out[0]`: [`DONE`], or
/// [`FAULT`] for the length of `out`, [`FAULT`] for the session and what is lent.
pub fn digest(
    cells: &[u8],
    boxes: &[i32],
    state: &[i32],
    rows: &[i32],
    log: &[u8],
    session: &[u64],
    out: &mut [u32],
) -> u32 {
    unsafe {
        raw::wuthracomb_digest(
            cells.as_ptr(),
            cells.len(),
            boxes.as_ptr(),
            boxes.len(),
            state.as_ptr(),
            state.len(),
            rows.as_ptr(),
            rows.len(),
            log.as_ptr(),
            log.len(),
            session.as_ptr(),
            session.len(),
            out.as_mut_ptr(),
            out.len(),
        )
    }
}

/// Writes the place at which to show a carrier to `out[0]` (along x) and `out[1]` (along y):
/// [`DONE`], or [`FAULT`] for the length of `out`, [`FAULT`] for the session and what is lent,
/// [`CARRIER`], [`FAULT`] for the row.
pub fn shown(
    carrier: u32,
    cells: &[u8],
    boxes: &[i32],
    state: &[i32],
    rows: &[i32],
    log: &[u8],
    session: &[u64],
    out: &mut [f64],
) -> u32 {
    unsafe {
        raw::wuthracomb_shown(
            carrier,
            cells.as_ptr(),
            cells.len(),
            boxes.as_ptr(),
            boxes.len(),
            state.as_ptr(),
            state.len(),
            rows.as_ptr(),
            rows.len(),
            log.as_ptr(),
            log.len(),
            session.as_ptr(),
            session.len(),
            out.as_mut_ptr(),
            out.len(),
        )
    }
}

/// Reads the record in `bytes`, its step, carrier and lever into `out`: [`DONE`], or [`MALFORMED`],
/// [`CARRIER`], [`LEVER`], [`STEP`], then [`ROOM`] where `out` isn't 3 long.
pub fn read_record(bytes: &[u8], out: &mut [u32]) -> u32 {
    unsafe {
        raw::wuthracomb_read_record(bytes.as_ptr(), bytes.len(), out.as_mut_ptr(), out.len())
    }
}

/// Writes the eight bytes of a record to `out`: [`DONE`], or [`CARRIER`], [`LEVER`], [`STEP`],
/// then [`ROOM`] where `out` isn't 8 long.
pub fn write_record(step: u32, carrier: u32, lever: u32, out: &mut [u8]) -> u32 {
    unsafe { raw::wuthracomb_write_record(step, carrier, lever, out.as_mut_ptr(), out.len()) }
}

/// 1 if the bytes are a sound log, 0 if not.
pub fn log_sound(log: &[u8]) -> u32 {
    unsafe { raw::wuthracomb_log_sound(log.as_ptr(), log.len()) }
}

/// Finds the records of one step, the bytes of `log` from `out[0]` up to, not including, `out[1]`:
/// [`DONE`], or [`ROOM`] where `out` isn't 2 long.
pub fn step_records(log: &[u8], step: u32, out: &mut [u64]) -> u32 {
    unsafe {
        raw::wuthracomb_step_records(log.as_ptr(), log.len(), step, out.as_mut_ptr(), out.len())
    }
}

/// Merges two logs of a yard of B carriers: `out` then begins with a log that has exactly the records
/// of both, `count[0]` in number, and zeros follow. [`DONE`], or [`WORLD`] for B, [`ROOM`] where `out`
/// isn't 16,384 or `count` isn't 1 long, [`LOG`], [`CONFLICT`], [`FULL`].
///
/// ```
/// use wuthracomb::*;
///
/// // Step 0 of carrier 0 in one log; the same and step 4 of carrier 1 in the other.
/// let one = [0, 0, 0, 0, 0, 1, 0, 0];
/// let two = [0, 0, 0, 0, 0, 1, 0, 0, 4, 0, 0, 0, 1, 9, 0, 0];
/// let (mut out, mut count) = ([7; LOG_BYTES], [7]);
/// assert_eq!(merge(2, &one, &two, &mut out, &mut count), DONE);
/// assert_eq!(count, [2]);
/// assert_eq!(out[..16], two);
/// assert_eq!(out[16..], [0; LOG_BYTES - 16]);
/// ```
pub fn merge(b: u32, one: &[u8], two: &[u8], out: &mut [u8], count: &mut [u64]) -> u32 {
    unsafe {
        raw::wuthracomb_merge(
            b,
            one.as_ptr(),
            one.len(),
            two.as_ptr(),
            two.len(),
            out.as_mut_ptr(),
            out.len(),
            count.as_mut_ptr(),
            count.len(),
        )
    }
}

/// Makes one step of a hanging load, whose offset is `load[0]` and whose speed is `load[1]`:
/// [`DONE`], or [`ROOM`] where `load` isn't 2 long, [`LOAD`].
///
/// ```
/// // 5 times -300, divided by 1,024 and rounded down, is -2.
/// let mut load = [-300, 7];
/// assert_eq!(wuthracomb::load_step(5, &mut load), wuthracomb::DONE);
/// assert_eq!(load, [-291, 9]);
/// ```
pub fn load_step(stiffness: u32, load: &mut [i32]) -> u32 {
    unsafe { raw::wuthracomb_load_step(stiffness, load.as_mut_ptr(), load.len()) }
}

/// Moves a rope end by one step, `point[0]` being its place and `point[1]` its speed, under up to
/// eight forces; the force of kind `kinds[i]` has the numbers `numbers[2 * i]` and
/// `numbers[2 * i + 1]`. [`DONE`], or [`ROOM`] where `numbers` isn't twice as long as `kinds` or
/// `point` isn't 2 long, [`ROPE`].
///
/// ```
/// use wuthracomb::*;
///
/// // A spring of stiffness 40 with its rest at 1, and a drag.
/// let mut point = [0.25, 0.0];
/// let number = rope_step(&[SPRING, DRAG], &[40.0, 1.0, 0.5, 0.0], &mut point);
/// assert_eq!(number, DONE);
/// assert_eq!(point, [0.262, 0.6]);
/// ```
pub fn rope_step(kinds: &[u32], numbers: &[f64], point: &mut [f64]) -> u32 {
    unsafe {
        raw::wuthracomb_rope_step(
            kinds.as_ptr(),
            kinds.len(),
            numbers.as_ptr(),
            numbers.len(),
            point.as_mut_ptr(),
            point.len(),
        )
    }
}
