//! Random runs from a seed: valid, damaged and hostile.
//!
//! Each act is chosen by what the model holds at that moment, so that readings, records and
//! damage fall where a rule changes its answer. The acts chosen are kept, and can be done again
//! without the choosing.

mod damage;
mod load;
mod merge;
mod rope;
mod values;

use crate::act::{Act, Slice};
use crate::coverage::Coverage;
use crate::pair::{Difference, Pair};
use crate::random::Random;
use crate::side::Answer;
use crate::station::{word, Shape, Station};
use crate::worlds::World;

/// A run that was made, up to its end or its first difference.
pub struct Run {
    pub acts: Vec<Act>,
    pub coverage: Coverage,
    pub difference: Option<Difference>,
}

/// Makes the run of this seed.
pub fn run(other: &dyn Station, seed: u64) -> Run {
    run_of(Wander::wander, other, seed)
}

/// Makes a run of this seed that has only steps of hanging loads.
pub fn run_of_loads(other: &dyn Station, seed: u64) -> Run {
    run_of(|wander| wander.loads(60), other, seed)
}

/// Makes a run of this seed that has only steps of rope ends.
pub fn run_of_ropes(other: &dyn Station, seed: u64) -> Run {
    run_of(|wander| wander.ropes(60), other, seed)
}

/// Makes a run of this seed that has only mergings of logs.
pub fn run_of_merges(other: &dyn Station, seed: u64) -> Run {
    run_of(|wander| wander.merges(20), other, seed)
}

fn run_of<'s>(
    acts: fn(&mut Wander<'s>) -> Result<(), Difference>,
    other: &'s dyn Station,
    seed: u64,
) -> Run {
    let mut wander = Wander::new(other, seed);
    let difference = acts(&mut wander).err();
    Run { acts: wander.acts, coverage: wander.pair.coverage, difference }
}

struct Wander<'s> {
    random: Random,
    pair: Pair<'s>,
    acts: Vec<Act>,
}

impl<'s> Wander<'s> {
    fn new(other: &'s dyn Station, seed: u64) -> Wander<'s> {
        Wander { random: Random::new(seed), pair: Pair::new(other), acts: Vec::new() }
    }

    fn act(&mut self, act: Act) -> Result<(), Difference> {
        self.answer(act).map(|_| ())
    }

    /// The answer, if it was a call.
    fn answer(&mut self, act: Act) -> Result<Option<Answer>, Difference> {
        self.acts.push(act);
        self.pair.act(self.acts.last().unwrap())
    }

    fn wander(&mut self) -> Result<(), Difference> {
        match self.random.below(8) {
            0 => self.hostile()?,
            1 | 2 => self.valid(false)?,
            _ => self.valid(true)?,
        }
        self.loads(5)?;
        self.ropes(5)?;
        self.merges(2)
    }

    /// A valid world opened, then calls in any order; with damage between them if asked.
    fn valid(&mut self, damaged: bool) -> Result<(), Difference> {
        let world = World::random(&mut self.random);
        self.act(Act::Lend(world.lend()))?;
        if damaged && self.random.one_in(3) {
            self.damaged_opening(world.shape)?;
        }
        let reading = self.first_reading();
        self.act(Act::Open { yard: world.shape, reading })?;
        for _ in 0..10 + self.random.below(60) {
            match self.random.below(if damaged { 20 } else { 14 }) {
                0..=4 => self.reading()?,
                5..=10 => self.deliver()?,
                11..=13 => self.look()?,
                14 => self.nudge()?,
                15 => self.leap()?,
                16 => self.fill_log()?,
                _ => self.damage()?,
            }
        }
        Ok(())
    }

    /// Any words in slices of any lengths, and any numbers.
    fn hostile(&mut self) -> Result<(), Difference> {
        for _ in 0..12 {
            let (shape, buffers) = self.any_buffers();
            self.act(Act::Lend(buffers))?;
            let any = Shape { w: self.any_u32(), h: self.any_u32(), b: self.any_u32() };
            let yard = self.random.pick(&[shape, any]);
            let reading = self.any_word();
            self.act(Act::Open { yard, reading })?;
            self.act(Act::Reading(reading))?;
            self.deliver()?;
            for _ in 0..4 {
                self.look()?;
            }
        }
        Ok(())
    }

    fn reading(&mut self) -> Result<(), Difference> {
        let last = self.pair.session(word::LAST);
        let gap = self.gap();
        let backward = self.random.one_in(12);
        let reading = if backward { last.saturating_sub(gap) } else { last.saturating_add(gap) };
        self.act(Act::Reading(reading))
    }

    fn deliver(&mut self) -> Result<(), Difference> {
        let bytes = self.record_bytes();
        self.act(Act::Deliver(bytes))
    }

    /// A call that leaves the session as it is, but for the state that a replay writes.
    fn look(&mut self) -> Result<(), Difference> {
        let act = match self.random.below(9) {
            0 => Act::Digest { out: self.out(1) },
            1 | 2 => {
                let carrier = self.random.below(self.carriers() + 1) as u32;
                Act::Shown { carrier, out: self.out(2) }
            }
            3 | 4 => return self.replay(),
            5 => Act::ReadRecord { record: self.record_bytes(), out: self.out(3) },
            6 => Act::WriteRecord {
                step: self.record_step(),
                carrier: self.any_carrier(),
                lever: self.any_lever(),
                out: self.out(8),
            },
            7 => Act::LogSound(self.log_bytes()),
            _ => Act::StepRecords {
                log: self.log_bytes(),
                step: self.record_step(),
                out: self.out(2),
            },
        };
        self.act(act)
    }

    /// Mostly to the steps made, of the log held, in the yard of the session; then the caller
    /// puts the state back.
    fn replay(&mut self) -> Result<(), Difference> {
        let [w, h, b] = [word::W, word::H, word::B].map(|k| self.pair.session(k) as u32);
        let made = self.pair.session(word::STEPS).min(1 << 30) as u32;
        let steps = match self.random.below(8) {
            0 => self.random.pick(&[180_001, 200_000, u32::MAX]),
            1 => self.random.below(100) as u32,
            _ if made <= 400 => made,
            _ => 70,
        };
        let log = if self.random.one_in(3) { self.log_bytes() } else { self.pair.held().to_vec() };
        let words = self.state_words();
        self.act(Act::Replay { yard: Shape { w, h, b }, steps, log })?;
        self.act(Act::Put { slice: Slice::State, at: 0, words })
    }

    fn state_words(&self) -> Vec<u64> {
        self.pair.model.state.iter().map(|&word| word as u64).collect()
    }
}
