//! The library itself, through the crate `wuthracomb`.

use crate::station::{Lent, Shape, Station};

pub struct Library;

impl Station for Library {
    fn name(&self) -> &'static str {
        "library"
    }

    fn open(&self, yard: Shape, reading: u64, lent: &mut Lent) -> u32 {
        let Shape { w, h, b } = yard;
        let Lent { cells, boxes, state, rows, log, session } = lent;
        wuthracomb::open(w, h, b, reading, cells, boxes, state, rows, log, session)
    }

    fn reading(&self, reading: u64, lent: &mut Lent) -> u32 {
        let Lent { cells, boxes, state, rows, log, session } = lent;
        wuthracomb::reading(reading, cells, boxes, state, rows, log, session)
    }

    fn deliver(&self, record: &[u8], lent: &mut Lent) -> u32 {
        let Lent { cells, boxes, state, rows, log, session } = lent;
        wuthracomb::deliver(record, cells, boxes, state, rows, log, session)
    }

    fn replay(&self, yard: Shape, steps: u32, lent: &mut Lent, log: &[u8]) -> u32 {
        let Shape { w, h, b } = yard;
        wuthracomb::replay(w, h, b, steps, lent.cells, lent.boxes, lent.state, log)
    }

    fn digest(&self, lent: &Lent, out: &mut [u32]) -> u32 {
        let Lent { cells, boxes, state, rows, log, session } = lent;
        wuthracomb::digest(cells, boxes, state, rows, log, session, out)
    }

    fn shown(&self, carrier: u32, lent: &Lent, out: &mut [f64]) -> u32 {
        let Lent { cells, boxes, state, rows, log, session } = lent;
        wuthracomb::shown(carrier, cells, boxes, state, rows, log, session, out)
    }

    fn rope_step(&self, kinds: &[u32], numbers: &[f64], point: &mut [f64]) -> u32 {
        wuthracomb::rope_step(kinds, numbers, point)
    }

    fn read_record(&self, record: &[u8], out: &mut [u32]) -> u32 {
        wuthracomb::read_record(record, out)
    }

    fn write_record(&self, step: u32, carrier: u32, lever: u32, out: &mut [u8]) -> u32 {
        wuthracomb::write_record(step, carrier, lever, out)
    }

    fn log_sound(&self, log: &[u8]) -> u32 {
        wuthracomb::log_sound(log)
    }

    fn step_records(&self, log: &[u8], step: u32, out: &mut [u64]) -> u32 {
        wuthracomb::step_records(log, step, out)
    }

    fn merge(&self, b: u32, one: &[u8], two: &[u8], out: &mut [u8], count: &mut [u64]) -> u32 {
        wuthracomb::merge(b, one, two, out, count)
    }

    fn load_step(&self, stiffness: u32, load: &mut [i32]) -> u32 {
        wuthracomb::load_step(stiffness, load)
    }
}
