//! What a caller does to the lent slices between calls: sound leaps, and damage.

use super::Wander;
use crate::act::{Act, Slice, SLICES};
use crate::pair::Difference;
use crate::station::{word, Shape};
use crate::worlds::record;

impl Wander<'_> {
    /// Other sound speeds and levers.
    pub fn nudge(&mut self) -> Result<(), Difference> {
        let carrier = self.random.index(self.carriers() as usize);
        let [u, v] = [(); 2].map(|()| self.random.within(-200..=200) as u64);
        let words = vec![u, v, self.random.below(10)];
        self.act(Act::Put { slice: Slice::State, at: 5 * carrier + 2, words })
    }

    /// A sound clock at any number of steps, and mostly rows that are sound too.
    pub fn leap(&mut self) -> Result<(), Difference> {
        let any = self.random.below(180_001);
        let steps = self.random.pick(&[any, 0, 1, 63, 64, 65, 179_936, 179_990, 179_999, 180_000]);
        let any = self.random.below(20_000);
        let remainder = self.random.pick(&[any, 0, 1, 19_999]);
        let cut = self.random.word() >> (1 + self.random.below(63));
        let passed = 20_000 * steps + remainder + cut;
        let latest = u64::MAX - passed;
        let any = self.random.word() % latest;
        let first = self.random.pick(&[any, 0, latest, latest - latest.min(1_000_000)]);
        let words = vec![first, first + passed, remainder, cut, steps];
        self.act(Act::Put { slice: Slice::Session, at: word::FIRST, words })?;
        if self.random.one_in(4) {
            return Ok(());
        }
        let words = self.state_words().repeat(64);
        self.act(Act::Put { slice: Slice::Rows, at: 0, words })
    }

    /// A log of any number of records in the buffer.
    pub fn fill_log(&mut self) -> Result<(), Difference> {
        let any = self.random.below(2049);
        let held = self.random.pick(&[any, 0, 1, 2047, 2048, 2048]);
        let mut log = self.sound_log(held, self.carriers());
        log.resize(16_384, 0);
        let words = log.into_iter().map(u64::from).collect();
        self.act(Act::Put { slice: Slice::Log, at: 0, words })?;
        self.act(Act::Put { slice: Slice::Session, at: word::HELD, words: vec![held] })
    }

    /// Openings of a world of which one thing has been changed; then it is right again.
    pub fn damaged_opening(&mut self, shape: Shape) -> Result<(), Difference> {
        self.act(Act::Keep)?;
        for _ in 0..1 + self.random.below(4) {
            let mut yard = shape;
            match self.random.below(6) {
                0 => yard.w = self.any_u32(),
                1 => yard.h = self.any_u32(),
                2 => yard.b = self.any_u32(),
                3 => self.damage_length()?,
                4 => self.damage_cell()?,
                _ => self.damage_box()?,
            }
            self.act(Act::Open { yard, reading: 5 })?;
            self.act(Act::Replay { yard, steps: 3, log: Vec::new() })?;
            self.act(Act::Restore)?;
        }
        Ok(())
    }

    /// Something of what is lent is changed, calls are made, and mostly it is right again.
    pub fn damage(&mut self) -> Result<(), Difference> {
        self.act(Act::Keep)?;
        match self.random.below(10) {
            0 => self.damage_length()?,
            1 | 2 => self.damage_session()?,
            3 => self.damage_cell()?,
            4 => self.damage_box()?,
            5 => self.damage_state(Slice::State, 0)?,
            6 => self.damage_log()?,
            7 => self.damage_clock()?,
            8 => self.damage_row()?,
            _ => self.damage_anything()?,
        }
        for _ in 0..1 + self.random.below(3) {
            match self.random.below(4) {
                0 => self.reading()?,
                1 | 2 => self.deliver()?,
                _ => self.look()?,
            }
        }
        if self.random.one_in(8) {
            return Ok(());
        }
        self.act(Act::Restore)
    }

    pub fn damage_length(&mut self) -> Result<(), Difference> {
        let slice = self.random.pick(&SLICES);
        let len = self.pair.model.len(slice);
        let len = self.random.pick(&[0, 1, len.saturating_sub(1), len + 1, len + 8, 2 * len]);
        self.act(Act::Resize { slice, len })
    }

    /// One word of the session: another, or one that is equal in its low half; or W and H changed
    /// over, which keeps the number of cells.
    pub fn damage_session(&mut self) -> Result<(), Difference> {
        if self.random.one_in(6) {
            let words = vec![self.pair.session(word::H), self.pair.session(word::W)];
            return self.act(Act::Put { slice: Slice::Session, at: word::W, words });
        }
        let at = self.random.index(word::COUNT);
        let old = self.pair.session(at);
        let any = self.any_word();
        let changed = [any, old + (1 << 32).min(u64::MAX - old), old ^ 1, old.saturating_add(1)];
        let words = vec![self.random.pick(&changed)];
        self.act(Act::Put { slice: Slice::Session, at, words })
    }

    pub fn damage_cell(&mut self) -> Result<(), Difference> {
        let at = self.random.index(self.pair.model.len(Slice::Cells).max(1));
        let words = vec![self.random.pick(&[0, 1, 1, 2, 128, 255])];
        self.act(Act::Put { slice: Slice::Cells, at, words })
    }

    /// A size, or a start (which plays no part after opening).
    pub fn damage_box(&mut self) -> Result<(), Difference> {
        let at = self.random.index(self.pair.model.len(Slice::Boxes).max(1));
        let any = self.any_word();
        let edges = [any, 0, 1, 255, 257, 1024, 1025, -1i32 as u64, i32::MAX as u64];
        let words = vec![self.random.pick(&edges)];
        self.act(Act::Put { slice: Slice::Boxes, at, words })
    }

    /// One word of the state that starts here.
    pub fn damage_state(&mut self, slice: Slice, start: usize) -> Result<(), Difference> {
        let at = start + self.random.index(self.pair.model.len(Slice::State).max(1));
        let any = self.any_word();
        let edges = [0, 9, 10, 200, 201, -1, -200, -201, 16_384, i32::MIN, i32::MAX];
        let edge = self.random.pick(&edges) as u64;
        let words = vec![self.random.pick(&[any, edge, edge, edge])];
        self.act(Act::Put { slice, at, words })
    }

    /// The row that a shown place uses, or any other.
    pub fn damage_row(&mut self) -> Result<(), Difference> {
        let made = self.pair.session(word::STEPS);
        let any = 1 + self.random.below(64);
        let back = self.random.pick(&[any, 1, 1]);
        let row = made.wrapping_sub(back) % 64;
        let start = row as usize * self.pair.model.len(Slice::State);
        self.damage_state(Slice::Rows, start)?;
        if self.random.one_in(2) {
            let carrier = self.random.below(self.carriers()) as u32;
            return self.act(Act::Shown { carrier, out: 2 });
        }
        let step = made.saturating_sub(back).min(u32::MAX.into()) as u32;
        let bytes = record(step, self.record_carrier(), self.record_lever());
        self.act(Act::Deliver(bytes))
    }

    /// The held part, the zeros after it, or the held count.
    pub fn damage_log(&mut self) -> Result<(), Difference> {
        let held = self.pair.held().len();
        let any = self.any_word();
        match self.random.below(5) {
            0 if held >= 16 => {
                let at = self.random.index(held / 8 - 1) * 8;
                let mut words: Vec<u64> =
                    self.pair.held()[at..at + 16].iter().map(|&byte| byte.into()).collect();
                if self.random.one_in(2) {
                    words.rotate_left(8);
                } else {
                    words.copy_within(..5, 8);
                }
                self.act(Act::Put { slice: Slice::Log, at, words })
            }
            1 if held >= 8 => {
                let at = self.random.index(held);
                self.act(Act::Put { slice: Slice::Log, at, words: vec![any] })
            }
            2 => {
                let at = self.random.pick(&[held, 16_383, held + any as usize % 100]);
                self.act(Act::Put { slice: Slice::Log, at, words: vec![1 + any % 255] })
            }
            _ => {
                let held = self.pair.session(word::HELD);
                let [more, fewer] = [held.saturating_add(1), held.saturating_sub(1)];
                let words = vec![self.random.pick(&[more, fewer, 2049, any])];
                self.act(Act::Put { slice: Slice::Session, at: word::HELD, words })
            }
        }
    }

    /// A clock whose time equation fails, or holds only if it wraps or beyond a limit.
    pub fn damage_clock(&mut self) -> Result<(), Difference> {
        let [first, last, remainder, cut, steps] =
            [word::FIRST, word::LAST, word::REMAINDER, word::CUT, word::STEPS]
                .map(|word| self.pair.session(word));
        let later = last.saturating_add(1 + self.random.below(1_000_000));
        let passed = steps.wrapping_mul(20_000).wrapping_add(remainder);
        let wrapped = last.wrapping_sub(later).wrapping_sub(passed);
        let words = match self.random.below(5) {
            0 => vec![first, last.saturating_add(1), remainder, cut, steps],
            1 => vec![first, last, remainder.wrapping_add(20_000), cut, steps.wrapping_sub(1)],
            2 => vec![first, last, remainder, cut.wrapping_add(20_000), steps.wrapping_sub(1)],
            3 => vec![0, 20_000 * 180_001, 0, 0, 180_001],
            _ => vec![later, last, remainder, wrapped, steps],
        };
        self.act(Act::Put { slice: Slice::Session, at: word::FIRST, words })
    }

    pub fn damage_anything(&mut self) -> Result<(), Difference> {
        let slice = self.random.pick(&SLICES);
        let at = self.random.index(self.pair.model.len(slice).max(1));
        let words = vec![self.any_word()];
        self.act(Act::Put { slice, at, words })
    }
}
