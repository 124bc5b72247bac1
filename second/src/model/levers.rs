//! "Levers": the table of pushes, the brake, and the new speeds of a step.

/// One pair of pushes, along x and along y, for each of the levers 0 to 8.
const PUSHES: [(i64, i64); 9] =
    [(0, 0), (12, 0), (8, 8), (0, 12), (-8, 8), (-12, 0), (-8, -8), (0, -12), (8, -8)];

const BRAKE: i64 = 9;

/// What the brake takes off each speed in a step.
const BRAKE_TAKES: i64 = 10;

/// Speeds are cut to this, either way.
pub const LIMIT: i64 = 200;

pub fn new_speeds(lever: i64, u: i64, v: i64) -> (i64, i64) {
    if lever == BRAKE {
        return (braked(u), braked(v));
    }
    let (along_x, along_y) = PUSHES[lever as usize];
    (cut(u + along_x), cut(v + along_y))
}

/// "toward zero, and never past it" (02 §2).
fn braked(speed: i64) -> i64 {
    if speed > 0 {
        (speed - BRAKE_TAKES).max(0)
    } else {
        (speed + BRAKE_TAKES).min(0)
    }
}

fn cut(speed: i64) -> i64 {
    speed.clamp(-LIMIT, LIMIT)
}
