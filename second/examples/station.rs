//! A session of the practice yard in Rust: open, read the clock, deliver, go back, take the
//! digest, replay. station.c does the same in C; both print station.out.

use wuthracomb::*;

const W: usize = 4;
const H: usize = 3;
const B: usize = 1;

const CELLS: [u8; W * H] = [0, 0, 0, 0, 0, 0, 0, 1, 0, 0, 0, 0];
const BOXES: [i32; BOX_WORDS * B] = [0, 256, 256, 256];

struct Yard {
    state: [i32; STATE_WORDS * B],
    rows: [i32; ROW_WORDS * B],
    log: [u8; LOG_BYTES],
    session: [u64; SESSION_WORDS],
}

fn main() {
    let mut yard = Yard {
        state: [0; STATE_WORDS * B],
        rows: [0; ROW_WORDS * B],
        log: [0; LOG_BYTES],
        session: [0; SESSION_WORDS],
    };
    yard.open();
    yard.deliver(0, 0, 1);
    yard.read_clock(100_000);
    yard.read_clock(110_000);
    yard.print_shown();
    yard.deliver(2, 0, 9);
    yard.deliver(2, 0, 9);
    yard.deliver(2, 0, 3);
    yard.print_digest();
    yard.replay(5);
    yard.print_digest();
    yard.read_clock(5000);
}

impl Yard {
    fn print_state(&self) {
        let [x, y, u, v, lever] = self.state;
        println!("  carrier 0: x {x} y {y} u {u} v {v} lever {lever}");
    }

    fn open(&mut self) {
        let Yard { state, rows, log, session } = self;
        let [w, h, b] = [W, H, B].map(|number| number as u32);
        let number = open(w, h, b, 0, &CELLS, &BOXES, state, rows, log, session);
        println!("open: {number}");
        self.print_state();
    }

    fn read_clock(&mut self, micros: u64) {
        let Yard { state, rows, log, session } = self;
        let number = reading(micros, &CELLS, &BOXES, state, rows, log, session);
        let [steps, remainder] = [SESSION_STEPS, SESSION_REMAINDER].map(|word| session[word]);
        println!("reading {micros}: {number}, steps {steps}, remainder {remainder}");
        self.print_state();
    }

    fn deliver(&mut self, step: u32, carrier: u32, lever: u32) {
        let mut record = [0; RECORD_BYTES];
        if write_record(step, carrier, lever, &mut record) != DONE {
            return;
        }
        let Yard { state, rows, log, session } = self;
        let number = deliver(&record, &CELLS, &BOXES, state, rows, log, session);
        println!("deliver step {step} carrier {carrier} lever {lever}: {number}");
        self.print_state();
    }

    fn print_shown(&self) {
        let Yard { state, rows, log, session } = self;
        let mut place = [0.0; 2];
        let number = shown(0, &CELLS, &BOXES, state, rows, log, session, &mut place);
        println!("shown: {number}, {:.3} {:.3}", place[0], place[1]);
    }

    fn print_digest(&self) {
        let Yard { state, rows, log, session } = self;
        let mut out = [0];
        let number = digest(&CELLS, &BOXES, state, rows, log, session, &mut out);
        println!("digest: {number}, {:08x}", out[0]);
    }

    /// Of the held part of the log only.
    fn replay(&mut self, steps: u32) {
        let Yard { state, log, session, .. } = self;
        let held = session[SESSION_HELD] as usize * RECORD_BYTES;
        let [w, h, b] = [W, H, B].map(|number| number as u32);
        let number = replay(w, h, b, steps, &CELLS, &BOXES, state, &log[..held]);
        println!("replay to {steps} steps: {number}");
        self.print_state();
    }
}
