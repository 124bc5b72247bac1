//! The functions of `include/wuthracomb.h` as it declares them, for callers that have pointers.
//!
//! # Safety
//!
//! Of every function here: each pointer stands for as many elements as the length after it says and
//! is aligned for its type; where the length is 0 it may be null. A slice that is written shares no
//! byte with another slice of the same call.

extern "C" {
    pub fn wuthracomb_open(
        w: u32,
        h: u32,
        b: u32,
        reading: u64,
        cells: *const u8,
        cells_len: usize,
        boxes: *const i32,
        boxes_len: usize,
        state: *mut i32,
        state_len: usize,
        rows: *mut i32,
        rows_len: usize,
        log: *mut u8,
        log_len: usize,
        session: *mut u64,
        session_len: usize,
    ) -> u32;

    pub fn wuthracomb_reading(
        reading: u64,
        cells: *const u8,
        cells_len: usize,
        boxes: *const i32,
        boxes_len: usize,
        state: *mut i32,
        state_len: usize,
        rows: *mut i32,
        rows_len: usize,
        log: *const u8,
        log_len: usize,
        session: *mut u64,
        session_len: usize,
    ) -> u32;

    pub fn wuthracomb_deliver(
        bytes: *const u8,
        bytes_len: usize,
        cells: *const u8,
        cells_len: usize,
        boxes: *const i32,
        boxes_len: usize,
        state: *mut i32,
        state_len: usize,
        rows: *mut i32,
        rows_len: usize,
        log: *mut u8,
        log_len: usize,
        session: *mut u64,
        session_len: usize,
    ) -> u32;

    pub fn wuthracomb_replay(
        w: u32,
        h: u32,
        b: u32,
        steps: u32,
        cells: *const u8,
        cells_len: usize,
        boxes: *const i32,
        boxes_len: usize,
        state: *mut i32,
        state_len: usize,
        log: *const u8,
        log_len: usize,
    ) -> u32;

    pub fn wuthracomb_digest(
        cells: *const u8,
        cells_len: usize,
        boxes: *const i32,
        boxes_len: usize,
        state: *const i32,
        state_len: usize,
        rows: *const i32,
        rows_len: usize,
        log: *const u8,
        log_len: usize,
        session: *const u64,
        session_len: usize,
        out: *mut u32,
        out_len: usize,
    ) -> u32;

    pub fn wuthracomb_shown(
        carrier: u32,
        cells: *const u8,
        cells_len: usize,
        boxes: *const i32,
        boxes_len: usize,
        state: *const i32,
        state_len: usize,
        rows: *const i32,
        rows_len: usize,
        log: *const u8,
        log_len: usize,
        session: *const u64,
        session_len: usize,
        out: *mut f64,
        out_len: usize,
    ) -> u32;

    pub fn wuthracomb_read_record(
        bytes: *const u8,
        bytes_len: usize,
        out: *mut u32,
        out_len: usize,
    ) -> u32;

    pub fn wuthracomb_write_record(
        step: u32,
        carrier: u32,
        lever: u32,
        out: *mut u8,
        out_len: usize,
    ) -> u32;

    pub fn wuthracomb_log_sound(log: *const u8, log_len: usize) -> u32;

    pub fn wuthracomb_step_records(
        log: *const u8,
        log_len: usize,
        step: u32,
        out: *mut u64,
        out_len: usize,
    ) -> u32;

    pub fn wuthracomb_merge(
        b: u32,
        one: *const u8,
        one_len: usize,
        two: *const u8,
        two_len: usize,
        out: *mut u8,
        out_len: usize,
        count: *mut u64,
        count_len: usize,
    ) -> u32;

    pub fn wuthracomb_load_step(stiffness: u32, load: *mut i32, load_len: usize) -> u32;

    pub fn wuthracomb_rope_step(
        kinds: *const u32,
        kinds_len: usize,
        numbers: *const f64,
        numbers_len: usize,
        point: *mut f64,
        point_len: usize,
    ) -> u32;
}
