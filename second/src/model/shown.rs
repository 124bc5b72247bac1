//! "Shown place": between the previous and the present coordinate.

/// Rounded after each operation, in this order.
pub fn shown(previous: i64, present: i64, remainder: u64) -> f64 {
    let alpha = remainder as f64 / 20000.0;
    let (p, c) = (previous as f64, present as f64);
    let distance = c - p;
    let moved = distance * alpha;
    p + moved
}
