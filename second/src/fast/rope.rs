//! A step of a rope end.
//!
//! Every sum, difference and product with a number that isn't finite isn't finite either, and each
//! number that counts goes into the new place by such operations. So it alone is asked.

use crate::numbers::{DONE, ROOM, ROPE};

const MOST_FORCES: usize = 8;
/// Seconds of a step.
const STEP: f64 = 0.02;

pub fn rope_step(kinds: &[u32], numbers: &[f64], point: &mut [f64]) -> u32 {
    let [place, speed] = point else {
        return ROOM;
    };
    if numbers.len() != 2 * kinds.len() {
        return ROOM;
    }
    if kinds.len() > MOST_FORCES {
        return ROPE;
    }
    let mut force = 0.0;
    for (kind, pair) in kinds.iter().zip(numbers.chunks_exact(2)) {
        force += match kind {
            0 => pair[0],
            1 => pair[0] * (pair[1] - *place),
            2 => -(pair[0] * *speed),
            _ => return ROPE,
        };
    }
    let new_speed = *speed + force * STEP;
    let new_place = *place + new_speed * STEP;
    if !new_place.is_finite() {
        return ROPE;
    }
    (*place, *speed) = (new_place, new_speed);
    DONE
}
