//! The interface that the library, the model and the fast program all have: the C face in Rust.

use crate::act::Buffers;

/// The six slices that most calls are lent, of any lengths.
pub struct Lent<'a> {
    pub cells: &'a [u8],
    pub boxes: &'a [i32],
    pub state: &'a mut [i32],
    pub rows: &'a mut [i32],
    pub log: &'a mut [u8],
    pub session: &'a mut [u64],
}

impl Lent<'_> {
    /// All six, lent as they are.
    pub fn of(buffers: &mut Buffers) -> Lent<'_> {
        let Buffers { cells, boxes, state, rows, log, session } = buffers;
        Lent { cells, boxes, state, rows, log, session }
    }
}

/// The words of a session by name.
pub mod word {
    pub const W: usize = 0;
    pub const H: usize = 1;
    pub const B: usize = 2;
    pub const FIRST: usize = 3;
    pub const LAST: usize = 4;
    pub const REMAINDER: usize = 5;
    pub const CUT: usize = 6;
    pub const STEPS: usize = 7;
    pub const HELD: usize = 8;
    /// How many there are.
    pub const COUNT: usize = 9;
}

/// W, H and B as a caller names them at opening and replay.
#[derive(Clone, Copy, Debug, PartialEq)]
pub struct Shape {
    pub w: u32,
    pub h: u32,
    pub b: u32,
}

/// Each function is the one of `include/wuthracomb.h` with that name.
pub trait Station {
    fn name(&self) -> &'static str;
    fn open(&self, yard: Shape, reading: u64, lent: &mut Lent) -> u32;
    fn reading(&self, reading: u64, lent: &mut Lent) -> u32;
    fn deliver(&self, record: &[u8], lent: &mut Lent) -> u32;
    /// Uses only the cells, boxes and state of what is lent.
    fn replay(&self, yard: Shape, steps: u32, lent: &mut Lent, log: &[u8]) -> u32;
    fn digest(&self, lent: &Lent, out: &mut [u32]) -> u32;
    fn shown(&self, carrier: u32, lent: &Lent, out: &mut [f64]) -> u32;
    fn rope_step(&self, kinds: &[u32], numbers: &[f64], point: &mut [f64]) -> u32;
    fn read_record(&self, record: &[u8], out: &mut [u32]) -> u32;
    fn write_record(&self, step: u32, carrier: u32, lever: u32, out: &mut [u8]) -> u32;
    fn log_sound(&self, log: &[u8]) -> u32;
    fn step_records(&self, log: &[u8], step: u32, out: &mut [u64]) -> u32;
    fn merge(&self, b: u32, one: &[u8], two: &[u8], out: &mut [u8], count: &mut [u64]) -> u32;
    fn load_step(&self, stiffness: u32, load: &mut [i32]) -> u32;
}
