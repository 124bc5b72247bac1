//! A step of a hanging load, in 32 bits: p·x is below 2^25, and no sum passes 2^17.

use crate::numbers::{DONE, LOAD, ROOM};

const MOST: i32 = 32_767;
const MOST_STIFFNESS: u32 = 1024;
/// 2 to this is D.
const D_SHIFT: u32 = 10;

fn in_range(word: i32) -> bool {
    word.wrapping_add(MOST) as u32 <= 2 * MOST as u32
}

pub fn load_step(stiffness: u32, load: &mut [i32]) -> u32 {
    let [x, v] = load else {
        return ROOM;
    };
    if stiffness.wrapping_sub(1) >= MOST_STIFFNESS || !in_range(*x) || !in_range(*v) {
        return LOAD;
    }
    let speed = *v - ((stiffness as i32 * *x) >> D_SHIFT);
    let offset = *x + speed;
    if !in_range(speed) || !in_range(offset) {
        return LOAD;
    }
    (*x, *v) = (offset, speed);
    DONE
}
