//! A session as an example or a test writes it down: every call is compared, and a difference
//! stops the test.

use crate::act::{Act, Buffers, Slice};
use crate::pair::Pair;
use crate::side::Answer;
use crate::station::{word, Station};
use crate::worlds::{record, World};

pub struct Desk<'s> {
    pub pair: Pair<'s>,
    pub world: World,
}

impl<'s> Desk<'s> {
    /// The slices are lent and no call is made.
    pub fn lend(other: &'s dyn Station, world: &World) -> Desk<'s> {
        let mut desk = Desk { pair: Pair::new(other), world: world.clone() };
        desk.between(Act::Lend(world.lend()));
        desk
    }

    /// A session opened with this first reading.
    pub fn open(other: &'s dyn Station, world: &World, reading: u64) -> Desk<'s> {
        let mut desk = Desk::lend(other, world);
        let yard = world.shape;
        assert_eq!(desk.call(Act::Open { yard, reading }), crate::numbers::DONE);
        desk
    }

    pub fn answer(&mut self, act: Act) -> Answer {
        match self.pair.act(&act) {
            Ok(answer) => answer.expect("an act that is a call"),
            Err(difference) => panic!("{act:?}: {difference}"),
        }
    }

    /// The number that a call gives.
    pub fn call(&mut self, act: Act) -> u32 {
        self.answer(act).number
    }

    fn between(&mut self, act: Act) {
        assert!(matches!(self.pair.act(&act), Ok(None)));
    }

    pub fn reading(&mut self, reading: u64) -> u32 {
        self.call(Act::Reading(reading))
    }

    pub fn deliver(&mut self, step: u32, carrier: u8, lever: u8) -> u32 {
        self.call(Act::Deliver(record(step, carrier, lever)))
    }

    /// The number of a replay to this many steps in the desk's world; the state is kept.
    pub fn replay(&mut self, steps: u32, log: &[u8]) -> u32 {
        let yard = self.world.shape;
        self.call(Act::Replay { yard, steps, log: log.to_vec() })
    }

    pub fn digest(&mut self) -> u32 {
        self.answer(Act::Digest { out: 1 }).out[0] as u32
    }

    pub fn shown(&mut self, carrier: u32) -> [f64; 2] {
        let out = self.answer(Act::Shown { carrier, out: 2 }).out;
        [f64::from_bits(out[0]), f64::from_bits(out[1])]
    }

    pub fn put(&mut self, slice: Slice, at: usize, words: &[i64]) {
        let words = words.iter().map(|&word| word as u64).collect();
        self.between(Act::Put { slice, at, words });
    }

    pub fn resize(&mut self, slice: Slice, len: usize) {
        self.between(Act::Resize { slice, len });
    }

    pub fn keep(&mut self) {
        self.between(Act::Keep);
    }

    pub fn restore(&mut self) {
        self.between(Act::Restore);
    }

    pub fn state(&self) -> Vec<i32> {
        self.pair.model.state.to_vec()
    }

    pub fn buffers(&self) -> Buffers {
        self.pair.model.buffers()
    }

    pub fn steps(&self) -> u64 {
        self.pair.session(word::STEPS)
    }

    /// Steps made, remainder and cut time.
    pub fn clock(&self) -> [u64; 3] {
        [word::STEPS, word::REMAINDER, word::CUT].map(|word| self.pair.session(word))
    }
}
