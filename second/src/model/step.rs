//! "One step": what a step does to one carrier.

use super::levers::new_speeds;

/// The five words of a carrier.
#[derive(Clone, Copy)]
pub struct Carrier {
    pub x: i64,
    pub y: i64,
    pub u: i64,
    pub v: i64,
    pub lever: i64,
}

/// The carrier after a step; `record` is the lever of the record held for it, if one is.
pub fn step(carrier: Carrier, record: Option<i64>, free: impl Fn(i64, i64) -> bool) -> Carrier {
    let lever = record.unwrap_or(carrier.lever);
    let (new_u, new_v) = new_speeds(lever, carrier.u, carrier.v);
    let (x, u) = slide(carrier.x, new_u, |x| free(x, carrier.y));
    let (y, v) = slide(carrier.y, new_v, |y| free(x, y));
    Carrier { x, y, u, v, lever }
}

/// The place reached unit by unit from `start`, and the speed that is left.
fn slide(start: i64, speed: i64, clear: impl Fn(i64) -> bool) -> (i64, i64) {
    let mut place = start;
    while place != start + speed {
        let next = place + speed.signum();
        if !clear(next) {
            return (place, 0);
        }
        place = next;
    }
    (place, speed)
}
