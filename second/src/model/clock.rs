//! "The clock": readings in, steps due out.

/// A session makes at most this many steps.
pub const MOST_STEPS: u64 = 180_000;
/// Microseconds of a step.
pub const STEP: u64 = 20_000;
/// What a gap has above this is cut.
const MOST_USED: u64 = 250_000;

#[derive(Clone, Copy)]
pub struct Clock {
    pub first: u64,
    pub last: u64,
    pub remainder: u64,
    pub cut: u64,
    pub steps: u64,
}

impl Clock {
    pub fn opened(reading: u64) -> Clock {
        Clock { first: reading, last: reading, remainder: 0, cut: 0, steps: 0 }
    }

    pub fn sound(&self) -> bool {
        self.steps <= MOST_STEPS && self.remainder < STEP && self.time_equation()
    }

    /// In whole numbers, so in a width in which nothing wraps.
    fn time_equation(&self) -> bool {
        let [first, last, remainder, cut, steps] =
            [self.first, self.last, self.remainder, self.cut, self.steps].map(u128::from);
        last == first + u128::from(STEP) * steps + remainder + cut
    }

    /// The clock after a reading that isn't backward; its steps may pass the most.
    pub fn after(&self, reading: u64) -> Clock {
        let gap = reading - self.last;
        let used = gap.min(MOST_USED);
        let pool = self.remainder + used;
        Clock {
            first: self.first,
            last: reading,
            remainder: pool % STEP,
            cut: self.cut + (gap - used),
            steps: self.steps + pool / STEP,
        }
    }
}
