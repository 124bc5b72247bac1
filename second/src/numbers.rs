//! "Numbers given back", those of document 02, and the one that is left to the C face.

pub const TAKEN: u32 = 0;
pub const HELD: u32 = 1;
pub const MALFORMED: u32 = 2;
pub const CARRIER: u32 = 3;
pub const LEVER: u32 = 4;
pub const STEP: u32 = 5;
pub const CONFLICT: u32 = 6;
pub const LATE: u32 = 7;
pub const FULL: u32 = 8;
pub const WORLD: u32 = 9;
pub const ROOM: u32 = 10;
pub const BACKWARD: u32 = 11;
pub const END: u32 = 12;
pub const LOG: u32 = 13;
pub const FAULT: u32 = 14;
/// Of a hanging load (02 §7).
pub const LOAD: u32 = 17;
/// Of a rope end (02 §8).
pub const ROPE: u32 = 18;
/// An accepted call other than a delivery.
pub const DONE: u32 = 255;

/// Every number from 2 on that isn't `DONE` is a refusal.
pub fn is_refusal(number: u32) -> bool {
    (MALFORMED..DONE).contains(&number)
}
