//! What the acts of a run are made of: words, readings, records and logs.

use super::Wander;
use crate::act::Buffers;
use crate::station::{word, Shape};
use crate::worlds::{record, World};

/// Numbers near which rules change.
const EDGES: [u64; 16] = [
    0,
    1,
    9,
    10,
    31,
    32,
    64,
    200,
    201,
    1025,
    2048,
    20_000,
    180_000,
    u32::MAX as u64,
    i32::MIN as u32 as u64,
    u64::MAX,
];

impl Wander<'_> {
    pub fn any_word(&mut self) -> u64 {
        match self.random.below(3) {
            0 => self.random.pick(&EDGES),
            1 => self.random.below(70),
            _ => self.random.word() >> self.random.below(64),
        }
    }

    pub fn any_u32(&mut self) -> u32 {
        self.any_word() as u32
    }

    pub fn any_bytes(&mut self, most: u64) -> Vec<u8> {
        (0..self.random.below(most + 1)).map(|_| self.any_word() as u8).collect()
    }

    /// A shape, and slices of which each has the length for it or another.
    pub fn any_buffers(&mut self) -> (Shape, Buffers) {
        let world = World::random(&mut self.random);
        let right = world.lend();
        let mut words = |right: usize| {
            let len = if self.random.one_in(5) { self.random.below(40) } else { right as u64 };
            (0..len).map(|_| self.any_word()).collect::<Vec<u64>>()
        };
        let buffers = Buffers {
            cells: words(right.cells.len()).iter().map(|&w| w as u8).collect(),
            boxes: words(right.boxes.len()).iter().map(|&w| w as i32).collect(),
            state: words(right.state.len()).iter().map(|&w| w as i32).collect(),
            rows: words(right.rows.len()).iter().map(|&w| w as i32).collect(),
            log: words(right.log.len()).iter().map(|&w| w as u8).collect(),
            session: words(word::COUNT),
        };
        (world.shape, buffers)
    }

    pub fn first_reading(&mut self) -> u64 {
        match self.random.below(4) {
            0 => 0,
            1 => u64::MAX - self.random.below(3_000_000),
            _ => self.random.word() >> self.random.below(64),
        }
    }

    pub fn gap(&mut self) -> u64 {
        match self.random.below(10) {
            0 | 1 => self.random.pick(&[0, 1, 19_999, 20_000, 20_001, 249_999, 250_000, 250_001]),
            2 => self.random.word() >> self.random.below(64),
            3 => 20_000 * self.random.below(13),
            _ => self.random.below(260_000),
        }
    }

    /// A record near the steps made, or one that is held, sometimes with another lever or damage.
    pub fn record_bytes(&mut self) -> Vec<u8> {
        let mut bytes = match self.held_record() {
            Some(held) if self.random.one_in(3) => held,
            _ => record(self.record_step(), self.record_carrier(), self.record_lever()),
        };
        match self.random.below(24) {
            0 => bytes = self.any_bytes(20),
            1 => bytes.truncate(self.random.index(8)),
            2 => bytes.push(0),
            3 => bytes[6] = self.any_word() as u8,
            4 => bytes[7] = self.any_word() as u8,
            5 => bytes[5] = self.record_lever(),
            6 => bytes[4] = self.record_carrier(),
            _ => {}
        }
        bytes
    }

    pub fn held_record(&mut self) -> Option<Vec<u8>> {
        let count = self.pair.held().len() / 8;
        let at = 8 * self.random.index(count.max(1));
        self.pair.held().get(at..at + 8).map(<[u8]>::to_vec)
    }

    pub fn record_step(&mut self) -> u32 {
        let made = self.pair.session(word::STEPS).min(1 << 30) as i64;
        let step = match self.random.below(12) {
            0 => self.random.pick(&[0, 179_999, 180_000, 180_001, i64::from(u32::MAX)]),
            1 => self.random.within(0..=179_999),
            2 | 3 => made + self.random.within(-66..=-62),
            4 => made + self.random.within(-2..=2),
            _ => made + self.random.within(-64..=10),
        };
        step.max(0) as u32
    }

    pub fn carriers(&self) -> u64 {
        self.pair.session(word::B).clamp(1, 32)
    }

    pub fn record_carrier(&mut self) -> u8 {
        let carriers = self.carriers();
        match self.random.below(16) {
            0 => self.random.pick(&[carriers as u8, 31, 32, 255]),
            _ => self.random.below(carriers) as u8,
        }
    }

    pub fn record_lever(&mut self) -> u8 {
        match self.random.below(16) {
            0 => self.random.pick(&[10, 255]),
            _ => self.random.below(10) as u8,
        }
    }

    /// A length for an answer, mostly the right one.
    pub fn out(&mut self, right: usize) -> usize {
        match self.random.below(8) {
            0 => self.random.index(2 * right + 2),
            _ => right,
        }
    }

    pub fn any_carrier(&mut self) -> u32 {
        match self.random.below(4) {
            0 => self.any_u32(),
            _ => self.record_carrier().into(),
        }
    }

    pub fn any_lever(&mut self) -> u32 {
        match self.random.below(4) {
            0 => self.any_u32(),
            _ => self.record_lever().into(),
        }
    }

    /// A log to be read: held, made up, or damaged.
    pub fn log_bytes(&mut self) -> Vec<u8> {
        let log = match self.random.below(3) {
            0 => {
                let records = self.random.pick(&[0, 1, 2, 3, 40, 2047, 2048, 2049]);
                let carriers = self.random.pick(&[self.carriers(), 32]);
                self.sound_log(records, carriers)
            }
            _ => self.pair.held().to_vec(),
        };
        self.damaged_log(log)
    }

    /// The log, in four of ten cases with damage.
    pub fn damaged_log(&mut self, mut log: Vec<u8>) -> Vec<u8> {
        match self.random.below(10) {
            0 => log.truncate(self.random.index(log.len() + 1)),
            1 => log.push(0),
            2 if !log.is_empty() => {
                let at = self.random.index(log.len());
                log[at] = self.any_word() as u8;
            }
            3 if log.len() >= 16 => {
                let second = self.random.index(log.len() / 8 - 1) * 8 + 8;
                log[second - 8..second + 8].rotate_left(8);
            }
            _ => {}
        }
        log
    }

    /// Records in ascending order around the steps made, for carriers below this number.
    pub fn sound_log(&mut self, records: u64, carriers: u64) -> Vec<u8> {
        let stride = self.random.pick(&[1, 1, 2, 7]);
        let most = 180_000 * carriers - 1 - records * stride;
        let made = self.pair.session(word::STEPS).min(180_000);
        let before = self.random.below(records * stride + 1);
        let mut place = (made * carriers).saturating_sub(before).min(most);
        let mut log = Vec::new();
        for _ in 0..records {
            let lever = self.random.below(10) as u8;
            log.extend(record((place / carriers) as u32, (place % carriers) as u8, lever));
            place += 1 + self.random.below(stride);
        }
        log
    }
}
