//! Runs of steps of rope ends.

use super::Wander;
use crate::act::Act;
use crate::pair::Difference;

/// Numbers at which an operation rounds, underflows, overflows or is refused.
const EDGES: [f64; 14] = [
    0.0,
    -0.0,
    5e-324,
    -5e-324,
    1.24e-322,
    f64::MIN_POSITIVE,
    0.02,
    -1.0,
    1e16,
    f64::MAX,
    f64::MIN,
    f64::INFINITY,
    f64::NEG_INFINITY,
    f64::NAN,
];

/// Kinds that no force has, and some that are one only when cut to fewer bits.
const NO_KINDS: [u32; 5] = [3, 256, 1 << 16 | 1, 1 << 31, u32::MAX];

/// Where a run takes its numbers from.
#[derive(Clone, Copy)]
enum Numbers {
    /// As a screen has them.
    Usual,
    /// Of any size, mostly finite.
    Wide,
    /// Subnormal, or not far above.
    Small,
    Edges,
}

impl Wander<'_> {
    /// Steps of a point, each from where the last one ended, until the caller puts other numbers.
    pub fn ropes(&mut self, steps: u64) -> Result<(), Difference> {
        let (mut kinds, mut numbers) = self.forces();
        let mut point = self.point();
        for _ in 0..steps {
            match self.random.below(6) {
                0 => point = self.point(),
                1 | 2 => (kinds, numbers) = self.forces(),
                _ => {}
            }
            let act = Act::RopeStep { kinds: kinds.clone(), numbers: numbers.clone(), point };
            let answer = self.answer(act)?.expect("a call");
            point = answer.out.into_iter().map(f64::from_bits).collect();
        }
        Ok(())
    }

    fn numbers(&mut self) -> Numbers {
        let usual = Numbers::Usual;
        self.random.pick(&[usual, usual, usual, Numbers::Wide, Numbers::Small, Numbers::Edges])
    }

    fn rope_number(&mut self, numbers: Numbers) -> f64 {
        let word = self.random.word();
        match numbers {
            Numbers::Usual if self.random.one_in(8) => self.random.within(-4..=4) as f64,
            Numbers::Usual => (word as i64) as f64 / (1u64 << (48 + self.random.below(16))) as f64,
            Numbers::Wide => f64::from_bits(word),
            Numbers::Small => {
                f64::from_bits(word & (1 << 63) | word >> (9 + self.random.below(55)))
            }
            Numbers::Edges => self.random.pick(&EDGES),
        }
    }

    /// Mostly two numbers.
    fn point(&mut self) -> Vec<f64> {
        let len = if self.random.one_in(24) { self.random.below(5) } else { 2 };
        let numbers = self.numbers();
        (0..len).map(|_| self.rope_number(numbers)).collect()
    }

    /// Mostly at most eight forces with two numbers each.
    fn forces(&mut self) -> (Vec<u32>, Vec<f64>) {
        let most = self.random.pick(&[1, 3, 8, 8, 8, 10]);
        let any = self.random.below(most + 1);
        let count = self.random.pick(&[most, any]);
        let from = self.numbers();
        let (mut kinds, mut numbers) = (Vec::new(), Vec::new());
        for _ in 0..count {
            let kind = self.kind();
            let unused = kind != 1 && self.random.one_in(2);
            let second = if unused { Numbers::Edges } else { from };
            kinds.push(kind);
            numbers.extend([self.rope_number(from), self.rope_number(second)]);
        }
        if self.random.one_in(24) {
            numbers.resize(self.random.index(2 * kinds.len() + 4), 1.0);
        }
        (kinds, numbers)
    }

    fn kind(&mut self) -> u32 {
        match self.random.below(48) {
            0 => self.random.pick(&NO_KINDS),
            _ => self.random.below(3) as u32,
        }
    }
}
