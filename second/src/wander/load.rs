//! Runs of steps of hanging loads.

use super::Wander;
use crate::act::Act;
use crate::pair::Difference;

/// Offsets and speeds at which a rule changes.
const EDGES: [i32; 10] = [0, 1, -1, 32_766, 32_767, -32_767, 32_768, -32_768, i32::MIN, i32::MAX];

/// Stiffnesses at which a rule changes, and some that are in range only when cut to fewer bits.
const STIFFNESSES: [u32; 9] = [0, 1, 2, 1023, 1024, 1025, 1 << 16 | 5, 1 << 31, u32::MAX];

impl Wander<'_> {
    /// Steps of a load, each from where the last one ended, until the caller puts other words.
    pub fn loads(&mut self, steps: u64) -> Result<(), Difference> {
        let mut stiffness = self.stiffness();
        let mut load = self.load();
        for _ in 0..steps {
            match self.random.below(12) {
                0 | 1 => load = self.load(),
                2 => stiffness = self.stiffness(),
                _ => {}
            }
            let answer = self.answer(Act::LoadStep { stiffness, load })?;
            load = answer.expect("a call").out.into_iter().map(|word| word as i32).collect();
        }
        Ok(())
    }

    fn stiffness(&mut self) -> u32 {
        match self.random.below(4) {
            0 => self.random.pick(&STIFFNESSES),
            1 => 1 + self.random.below(8) as u32,
            _ => 1 + self.random.below(1024) as u32,
        }
    }

    /// Mostly two words.
    fn load(&mut self) -> Vec<i32> {
        let len = if self.random.one_in(12) { self.random.below(5) } else { 2 };
        let most = self.random.pick(&[3, 100, 5000, 32_767, 33_000]);
        (0..len).map(|_| self.load_word(most)).collect()
    }

    fn load_word(&mut self, most: i64) -> i32 {
        match self.random.below(6) {
            0 => self.random.pick(&EDGES),
            _ => self.random.within(-most..=most) as i32,
        }
    }
}
