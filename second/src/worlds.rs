//! Worlds to open: the practice yard, and random ones that are valid.

use crate::act::Buffers;
use crate::random::Random;
use crate::station::{word, Shape};

const UNITS: i64 = 256;

/// A world with the lengths that its session has to be lent.
#[derive(Clone)]
pub struct World {
    pub shape: Shape,
    pub cells: Vec<u8>,
    pub boxes: Vec<i32>,
}

/// The eight bytes of a record, sound or not.
pub fn record(step: u32, carrier: u8, lever: u8) -> Vec<u8> {
    let mut bytes = step.to_le_bytes().to_vec();
    bytes.extend([carrier, lever, 0, 0]);
    bytes
}

impl World {
    /// W 4, H 3, the only wall at column 3, row 1; one carrier 256 by 256 at (0, 256).
    pub fn practice() -> World {
        World {
            shape: Shape { w: 4, h: 3, b: 1 },
            cells: vec![0, 0, 0, 0, 0, 0, 0, 1, 0, 0, 0, 0],
            boxes: vec![0, 256, 256, 256],
        }
    }

    /// What to lend for opening: right lengths, no word of it 0.
    pub fn lend(&self) -> Buffers {
        let b = self.shape.b as usize;
        Buffers {
            cells: self.cells.clone(),
            boxes: self.boxes.clone(),
            state: vec![-7; 5 * b],
            rows: vec![-7; 320 * b],
            log: vec![7; 16_384],
            session: vec![7; word::COUNT],
        }
    }

    /// Mostly a small yard with few carriers, sometimes the largest.
    pub fn random(random: &mut Random) -> World {
        let shape = match random.below(12) {
            0 => Shape { w: 64, h: 64, b: 32 },
            1 => Shape { w: 1, h: 1, b: 1 },
            2 => Shape {
                w: 1 + random.below(64) as u32,
                h: 1 + random.below(64) as u32,
                b: 1 + random.below(32) as u32,
            },
            _ => Shape {
                w: 1 + random.below(6) as u32,
                h: 1 + random.below(6) as u32,
                b: 1 + random.below(4) as u32,
            },
        };
        World::random_of(random, shape)
    }

    pub fn random_of(random: &mut Random, shape: Shape) -> World {
        let walls_of_16 = random.pick(&[0, 1, 2, 5, 12]);
        World::with_walls(random, shape, walls_of_16)
    }

    /// Random walls; cells under a carrier are opened, so that every start is free.
    pub fn with_walls(random: &mut Random, shape: Shape, walls_of_16: u64) -> World {
        let cells = (0..shape.w * shape.h).map(|_| u8::from(random.below(16) < walls_of_16));
        let mut world = World { shape, cells: cells.collect(), boxes: Vec::new() };
        for _ in 0..shape.b {
            world.add_carrier(random);
        }
        world
    }

    fn add_carrier(&mut self, random: &mut Random) {
        let (width, height) = (UNITS * i64::from(self.shape.w), UNITS * i64::from(self.shape.h));
        let w = side(random, width);
        let h = side(random, height);
        let x = coordinate(random, width - w);
        let y = coordinate(random, height - h);
        self.boxes.extend([x, y, w, h].map(|word| word as i32));
        for row in y / UNITS..=(y + h - 1) / UNITS {
            for column in x / UNITS..=(x + w - 1) / UNITS {
                self.cells[(row * i64::from(self.shape.w) + column) as usize] = 0;
            }
        }
    }
}

/// A width or height that fits the room.
fn side(random: &mut Random, room: i64) -> i64 {
    let side = match random.below(6) {
        0 => random.pick(&[1, 2, 255, 257, 1023, 1024]),
        1 => random.within(1..=1024),
        _ => 256,
    };
    side.min(room)
}

/// A coordinate up to `most`, often at or near an edge of a cell.
fn coordinate(random: &mut Random, most: i64) -> i64 {
    let any = random.within(0..=most);
    match random.below(3) {
        0 => any,
        1 => any / UNITS * UNITS,
        _ => (any / UNITS * UNITS + random.within(-3..=3)).clamp(0, most),
    }
}
