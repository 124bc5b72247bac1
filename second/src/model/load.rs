//! "The hanging load" (02 §7).

/// Offset and speed, in a width in which nothing wraps.
#[derive(Clone, Copy)]
pub struct Load {
    pub x: i128,
    pub v: i128,
}

/// "With D = 1,024".
const D: i128 = 1024;
/// "whole numbers within 32,767 either way".
const MOST: i128 = 32_767;

impl Load {
    fn in_range(&self) -> bool {
        self.x.abs() <= MOST && self.v.abs() <= MOST
    }

    /// "v' = v minus p·x/D rounded down, then x' = x + v'"; none where it is refused.
    pub fn step(&self, p: i128) -> Option<Load> {
        if !(1..=1024).contains(&p) || !self.in_range() {
            return None;
        }
        let v = self.v - rounded_down(p * self.x);
        let x = self.x + v;
        Some(Load { x, v }).filter(Load::in_range)
    }
}

/// The greatest q with q·D at most n.
fn rounded_down(n: i128) -> i128 {
    n.div_euclid(D)
}
