//! `{NULL, 0}` is an empty slice: of every function, each slice by itself and all at once. The
//! answers are those of any other slice of length 0, and a refusal leaves the others as they were.

use std::ptr::{null, null_mut};
use wuthracomb::raw::*;
use wuthracomb::*;

const CELLS: [u8; 12] = [0, 0, 0, 0, 0, 0, 0, 1, 0, 0, 0, 0];
const BOXES: [i32; 4] = [0, 256, 256, 256];
const SLICES: usize = 6;
const ALL: [bool; SLICES] = [true; SLICES];

/// The six slices of a session of the practice yard.
#[derive(Clone, PartialEq, Debug)]
struct Yard {
    cells: Vec<u8>,
    boxes: Vec<i32>,
    state: Vec<i32>,
    rows: Vec<i32>,
    log: Vec<u8>,
    session: Vec<u64>,
}

/// A slice as C hands it over, null and 0 where it is to be empty.
fn given<T>(words: &mut [T], empty: bool) -> (*mut T, usize) {
    if empty {
        (null_mut(), 0)
    } else {
        (words.as_mut_ptr(), words.len())
    }
}

impl Yard {
    /// Opened, with a record held and a step made.
    fn opened() -> Yard {
        let mut yard = Yard {
            cells: CELLS.to_vec(),
            boxes: BOXES.to_vec(),
            state: vec![7; STATE_WORDS],
            rows: vec![7; ROW_WORDS],
            log: vec![7; LOG_BYTES],
            session: vec![7; SESSION_WORDS],
        };
        assert_eq!(yard.open([false; SLICES]), DONE);
        assert_eq!(yard.deliver(&record(), [false; SLICES]), TAKEN);
        assert_eq!(yard.reading(20_000, [false; SLICES]), DONE);
        yard
    }

    fn open(&mut self, empty: [bool; SLICES]) -> u32 {
        let (cells, cells_len) = given(&mut self.cells, empty[0]);
        let (boxes, boxes_len) = given(&mut self.boxes, empty[1]);
        let (state, state_len) = given(&mut self.state, empty[2]);
        let (rows, rows_len) = given(&mut self.rows, empty[3]);
        let (log, log_len) = given(&mut self.log, empty[4]);
        let (session, session_len) = given(&mut self.session, empty[5]);
        unsafe {
            wuthracomb_open(
                4,
                3,
                1,
                0,
                cells,
                cells_len,
                boxes,
                boxes_len,
                state,
                state_len,
                rows,
                rows_len,
                log,
                log_len,
                session,
                session_len,
            )
        }
    }

    fn reading(&mut self, micros: u64, empty: [bool; SLICES]) -> u32 {
        let (cells, cells_len) = given(&mut self.cells, empty[0]);
        let (boxes, boxes_len) = given(&mut self.boxes, empty[1]);
        let (state, state_len) = given(&mut self.state, empty[2]);
        let (rows, rows_len) = given(&mut self.rows, empty[3]);
        let (log, log_len) = given(&mut self.log, empty[4]);
        let (session, session_len) = given(&mut self.session, empty[5]);
        unsafe {
            wuthracomb_reading(
                micros,
                cells,
                cells_len,
                boxes,
                boxes_len,
                state,
                state_len,
                rows,
                rows_len,
                log,
                log_len,
                session,
                session_len,
            )
        }
    }

    /// A record of no bytes is null.
    fn deliver(&mut self, record: &[u8], empty: [bool; SLICES]) -> u32 {
        let from = if record.is_empty() { null() } else { record.as_ptr() };
        let (cells, cells_len) = given(&mut self.cells, empty[0]);
        let (boxes, boxes_len) = given(&mut self.boxes, empty[1]);
        let (state, state_len) = given(&mut self.state, empty[2]);
        let (rows, rows_len) = given(&mut self.rows, empty[3]);
        let (log, log_len) = given(&mut self.log, empty[4]);
        let (session, session_len) = given(&mut self.session, empty[5]);
        unsafe {
            wuthracomb_deliver(
                from,
                record.len(),
                cells,
                cells_len,
                boxes,
                boxes_len,
                state,
                state_len,
                rows,
                rows_len,
                log,
                log_len,
                session,
                session_len,
            )
        }
    }

    /// Of the slices only cells, boxes and state; the log is null.
    fn replay(&mut self, w: u32, steps: u32, empty: [bool; SLICES]) -> u32 {
        let (cells, cells_len) = given(&mut self.cells, empty[0]);
        let (boxes, boxes_len) = given(&mut self.boxes, empty[1]);
        let (state, state_len) = given(&mut self.state, empty[2]);
        unsafe {
            wuthracomb_replay(
                w,
                3,
                1,
                steps,
                cells,
                cells_len,
                boxes,
                boxes_len,
                state,
                state_len,
                null(),
                0,
            )
        }
    }

    fn digest(&mut self, out: &mut [u32], empty: [bool; SLICES]) -> u32 {
        let (out, out_len) = given(out, out.is_empty());
        let (cells, cells_len) = given(&mut self.cells, empty[0]);
        let (boxes, boxes_len) = given(&mut self.boxes, empty[1]);
        let (state, state_len) = given(&mut self.state, empty[2]);
        let (rows, rows_len) = given(&mut self.rows, empty[3]);
        let (log, log_len) = given(&mut self.log, empty[4]);
        let (session, session_len) = given(&mut self.session, empty[5]);
        unsafe {
            wuthracomb_digest(
                cells,
                cells_len,
                boxes,
                boxes_len,
                state,
                state_len,
                rows,
                rows_len,
                log,
                log_len,
                session,
                session_len,
                out,
                out_len,
            )
        }
    }

    fn shown(&mut self, out: &mut [f64], empty: [bool; SLICES]) -> u32 {
        let (out, out_len) = given(out, out.is_empty());
        let (cells, cells_len) = given(&mut self.cells, empty[0]);
        let (boxes, boxes_len) = given(&mut self.boxes, empty[1]);
        let (state, state_len) = given(&mut self.state, empty[2]);
        let (rows, rows_len) = given(&mut self.rows, empty[3]);
        let (log, log_len) = given(&mut self.log, empty[4]);
        let (session, session_len) = given(&mut self.session, empty[5]);
        unsafe {
            wuthracomb_shown(
                0,
                cells,
                cells_len,
                boxes,
                boxes_len,
                state,
                state_len,
                rows,
                rows_len,
                log,
                log_len,
                session,
                session_len,
                out,
                out_len,
            )
        }
    }
}

fn record() -> [u8; RECORD_BYTES] {
    [0, 0, 0, 0, 0, 1, 0, 0]
}

/// One slice empty, and all.
fn emptied() -> Vec<[bool; SLICES]> {
    let one = (0..SLICES).map(|k| std::array::from_fn(|slice| slice == k));
    one.chain([ALL]).collect()
}

#[test]
fn sessions_refuse_empty_slices() {
    let before = Yard::opened();
    let mut yard = before.clone();
    for empty in emptied() {
        assert_eq!(yard.open(empty), ROOM, "{empty:?}");
        assert_eq!(yard.reading(40_000, empty), FAULT, "{empty:?}");
        assert_eq!(yard.deliver(&record(), empty), FAULT, "{empty:?}");
        assert_eq!(yard.deliver(&[], empty), FAULT, "{empty:?}");
        assert_eq!(yard.digest(&mut [7], empty), FAULT, "{empty:?}");
        assert_eq!(yard.digest(&mut [], empty), FAULT, "{empty:?}");
        assert_eq!(yard.shown(&mut [7.0; 2], empty), FAULT, "{empty:?}");
        assert_eq!(yard.shown(&mut [], empty), FAULT, "{empty:?}");
    }
    let none = [false; SLICES];
    assert_eq!(yard.deliver(&[], none), MALFORMED);
    assert_eq!(yard.digest(&mut [], none), FAULT);
    assert_eq!(yard.shown(&mut [], none), FAULT);
    assert_eq!(yard, before);
}

#[test]
fn opening_of_nothing_is_refused_by_its_ranges_first() {
    let open = |w, b| unsafe {
        wuthracomb_open(
            w,
            3,
            b,
            0,
            null(),
            0,
            null(),
            0,
            null_mut(),
            0,
            null_mut(),
            0,
            null_mut(),
            0,
            null_mut(),
            0,
        )
    };
    assert_eq!(open(0, 0), WORLD);
    assert_eq!(open(4, 33), WORLD);
    assert_eq!(open(4, 1), ROOM);
}

#[test]
fn replay_of_no_log_gives_the_start() {
    let mut yard = Yard::opened();
    for empty in emptied() {
        let wanted = if empty[..3].contains(&true) { ROOM } else { DONE };
        assert_eq!(yard.replay(4, 5, empty), wanted, "{empty:?}");
    }
    assert_eq!(yard.replay(65, 5, ALL), WORLD);
    assert_eq!(yard.state, [0, 256, 0, 0, 0]);
}

#[test]
fn a_rope_end_without_forces_and_nothing() {
    let mut point = [1.0, 0.5];
    unsafe {
        assert_eq!(wuthracomb_rope_step(null(), 0, null(), 0, point.as_mut_ptr(), 2), DONE);
        assert_eq!(wuthracomb_rope_step(&PULL, 1, null(), 0, point.as_mut_ptr(), 2), ROOM);
        assert_eq!(wuthracomb_rope_step(null(), 0, [1.0; 2].as_ptr(), 2, null_mut(), 0), ROOM);
        assert_eq!(
            wuthracomb_rope_step(null(), 0, [1.0; 2].as_ptr(), 2, point.as_mut_ptr(), 2),
            ROOM
        );
        assert_eq!(wuthracomb_rope_step(&PULL, 1, [1.0; 2].as_ptr(), 2, null_mut(), 0), ROOM);
        assert_eq!(wuthracomb_rope_step(null(), 0, null(), 0, null_mut(), 0), ROOM);
    }
    assert_eq!(point, [1.01, 0.5]);
}

#[test]
fn records_and_logs_of_nothing() {
    let mut three = [7; 3];
    let mut two = [7; 2];
    unsafe {
        assert_eq!(wuthracomb_log_sound(null(), 0), 1);
        assert_eq!(wuthracomb_step_records(null(), 0, 3, two.as_mut_ptr(), 2), DONE);
        assert_eq!(two, [0, 0]);
        assert_eq!(wuthracomb_step_records(record().as_ptr(), 8, 0, null_mut(), 0), ROOM);
        assert_eq!(wuthracomb_step_records(null(), 0, 0, null_mut(), 0), ROOM);
        assert_eq!(wuthracomb_read_record(null(), 0, three.as_mut_ptr(), 3), MALFORMED);
        assert_eq!(wuthracomb_read_record(null(), 0, null_mut(), 0), MALFORMED);
        assert_eq!(wuthracomb_read_record(record().as_ptr(), 8, null_mut(), 0), ROOM);
        assert_eq!(wuthracomb_write_record(0, 0, 1, null_mut(), 0), ROOM);
        assert_eq!(wuthracomb_write_record(0, 32, 1, null_mut(), 0), CARRIER);
    }
    assert_eq!(three, [7; 3]);
}

/// Merges two logs; a slice of no words is null.
fn merged(b: u32, logs: [&[u8]; 2], out: &mut [u8], count: &mut [u64]) -> u32 {
    let [one, two] = logs.map(|log| if log.is_empty() { null() } else { log.as_ptr() });
    let (out, out_len) = given(out, out.is_empty());
    let (count, count_len) = given(count, count.is_empty());
    unsafe {
        wuthracomb_merge(b, one, logs[0].len(), two, logs[1].len(), out, out_len, count, count_len)
    }
}

#[test]
fn logs_of_nothing_merged() {
    let (mut out, mut count) = ([7; LOG_BYTES], [7]);
    assert_eq!(merged(0, [&[], &[]], &mut [], &mut []), WORLD);
    assert_eq!(merged(1, [&[], &[]], &mut [], &mut []), ROOM);
    assert_eq!(merged(1, [&[], &[]], &mut out, &mut []), ROOM);
    assert_eq!(merged(1, [&[], &[]], &mut [], &mut count), ROOM);
    assert_eq!((out, count), ([7; LOG_BYTES], [7]));
    assert_eq!(merged(1, [&[], &[]], &mut out, &mut count), DONE);
    assert_eq!((out, count), ([0; LOG_BYTES], [0]));
    for logs in [[&record()[..], &[]], [&[], &record()[..]]] {
        assert_eq!(merged(1, logs, &mut out, &mut count), DONE);
        assert_eq!((&out[..RECORD_BYTES], count), (&record()[..], [1]));
    }
}

#[test]
fn a_load_of_nothing() {
    unsafe {
        assert_eq!(wuthracomb_load_step(5, null_mut(), 0), ROOM);
        assert_eq!(wuthracomb_load_step(0, null_mut(), 0), ROOM);
    }
}
