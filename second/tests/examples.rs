//! "Examples to hold against it", at the level of calls.

use second::act::{Act, Slice};
use second::desk::Desk;
use second::numbers::*;
use second::others;
use second::station::{Shape, Station};
use second::worlds::{record, World};

/// The practice yard with its carrier elsewhere.
fn practice_at(x: i32, y: i32) -> World {
    World { boxes: vec![x, y, 256, 256], ..World::practice() }
}

/// The practice yard, opened at 0, with this carrier for the next step.
fn carrier(station: &dyn Station, words: [i64; 5]) -> Desk<'_> {
    let mut desk = Desk::open(station, &World::practice(), 0);
    desk.put(Slice::State, 0, &words);
    desk
}

#[test]
fn a_and_b_clock() {
    for other in others() {
        let mut desk = Desk::open(other, &World::practice(), 0);
        assert_eq!(desk.reading(19_999), DONE);
        assert_eq!(desk.clock(), [0, 19_999, 0]);

        let mut desk = Desk::open(other, &World::practice(), 0);
        assert_eq!(desk.reading(20_000), DONE);
        assert_eq!(desk.clock(), [1, 0, 0]);
    }
}

#[test]
fn c_and_d_clock() {
    for other in others() {
        let mut desk = Desk::open(other, &World::practice(), 0);
        desk.reading(19_999);
        assert_eq!(desk.reading(19_999 + 250_000), DONE);
        assert_eq!(desk.clock(), [13, 9_999, 0]);

        let mut desk = Desk::open(other, &World::practice(), 0);
        assert_eq!(desk.reading(250_001), DONE);
        assert_eq!(desk.clock(), [12, 10_000, 1]);
    }
}

#[test]
fn e_from_rest() {
    for other in others() {
        let mut desk = Desk::open(other, &World::practice(), 0);
        assert_eq!(desk.deliver(0, 0, 1), TAKEN);
        desk.reading(20_000);
        assert_eq!(desk.state(), [12, 256, 12, 0, 1]);
    }
}

#[test]
fn f_and_g_speeds() {
    for other in others() {
        let mut desk = carrier(other, [0, 256, 195, 0, 1]);
        desk.reading(20_000);
        assert_eq!(desk.state(), [200, 256, 200, 0, 1]);

        let mut desk = carrier(other, [100, 256, -3, 1, 9]);
        desk.reading(20_000);
        assert_eq!(desk.state(), [100, 256, 0, 0, 9]);
    }
}

/// "25 becomes 15, then 5, then 0; -3 becomes 0" (02 §2).
#[test]
fn the_brake_takes_ten() {
    for other in others() {
        let mut desk = carrier(other, [100, 256, 25, -3, 9]);
        for (t, [x, u]) in [[115, 15], [120, 5], [120, 0], [120, 0]].into_iter().enumerate() {
            desk.reading(20_000 * (t as u64 + 1));
            assert_eq!(desk.state(), [x, 256, u, 0, 9]);
        }
    }
}

/// Every speed under the brake, along x and along y, in a yard where nothing is in the way.
#[test]
fn the_brake_at_every_speed() {
    let shape = Shape { w: 9, h: 9, b: 1 };
    let world = World { shape, cells: vec![0; 81], boxes: vec![1024, 1024, 256, 256] };
    for other in others() {
        let mut desk = Desk::open(other, &world, 0);
        desk.keep();
        for speed in -200..=200i32 {
            let left = (speed.abs() - 10).max(0) * speed.signum();
            for (u, v) in [(speed, 0), (0, speed), (speed, speed), (speed, -speed)] {
                desk.restore();
                desk.put(Slice::State, 2, &[u, v, 9].map(i64::from));
                assert_eq!(desk.reading(20_000), DONE);
                let [u, v] = [u, v].map(|of| left * speed.signum() * of.signum());
                assert_eq!(desk.state(), [1024 + u, 1024 + v, u, v, 9]);
            }
        }
    }
}

#[test]
fn h_and_i_wall() {
    for other in others() {
        let mut desk = Desk::open(other, &practice_at(500, 256), 0);
        assert_eq!(desk.deliver(0, 0, 1), TAKEN);
        desk.reading(20_000);
        assert_eq!(desk.state(), [512, 256, 12, 0, 1]);
        desk.reading(40_000);
        assert_eq!(desk.state(), [512, 256, 0, 0, 1]);
    }
}

#[test]
fn j_edge_of_the_yard() {
    for other in others() {
        let mut desk = Desk::open(other, &practice_at(5, 256), 0);
        assert_eq!(desk.deliver(0, 0, 5), TAKEN);
        desk.reading(20_000);
        assert_eq!(desk.state(), [0, 256, 0, 0, 5]);
    }
}

#[test]
fn k_corner() {
    let world = World {
        shape: Shape { w: 3, h: 3, b: 1 },
        cells: vec![0, 0, 0, 0, 0, 0, 0, 0, 1],
        boxes: vec![256, 256, 256, 256],
    };
    for other in others() {
        let mut desk = Desk::open(other, &world, 0);
        assert_eq!(desk.deliver(0, 0, 2), TAKEN);
        desk.reading(20_000);
        assert_eq!(desk.state(), [264, 256, 8, 0, 2]);
    }
}

#[test]
fn l_record_bytes() {
    for other in others() {
        let mut desk = Desk::lend(other, &World::practice());
        let written = desk.answer(Act::WriteRecord { step: 258, carrier: 3, lever: 9, out: 8 });
        assert_eq!((written.number, written.out), (DONE, vec![2, 1, 0, 0, 3, 9, 0, 0]));
        let read = desk.answer(Act::ReadRecord { record: vec![2, 1, 0, 0, 3, 9, 0, 0], out: 3 });
        assert_eq!((read.number, read.out), (DONE, vec![258, 3, 9]));
    }
}

/// A practice session with exactly 100 steps made.
fn hundred_steps<'s>(other: &'s dyn Station, first: &[(u32, u8)]) -> Desk<'s> {
    let mut desk = Desk::open(other, &World::practice(), 0);
    for &(step, lever) in first {
        assert_eq!(desk.deliver(step, 0, lever), TAKEN);
    }
    for reading in 1..=10 {
        assert_eq!(desk.reading(200_000 * reading), DONE);
    }
    assert_eq!(desk.steps(), 100);
    desk
}

#[test]
fn late_at_hundred_steps() {
    for other in others() {
        let mut desk = hundred_steps(other, &[]);
        assert_eq!(desk.deliver(35, 0, 1), LATE);
        assert_eq!(desk.deliver(36, 0, 1), TAKEN);
        assert_eq!(desk.deliver(36, 0, 1), HELD);
        assert_eq!(desk.deliver(36, 0, 2), CONFLICT);

        let mut desk = hundred_steps(other, &[(35, 1)]);
        assert_eq!(desk.deliver(35, 0, 1), HELD);
        assert_eq!(desk.deliver(35, 0, 2), CONFLICT);
    }
}

#[test]
fn shown_place_half_way() {
    for other in others() {
        let mut desk = Desk::open(other, &World::practice(), 0);
        desk.deliver(0, 0, 1);
        desk.reading(50_000);
        assert_eq!(desk.state(), [36, 256, 24, 0, 1]);
        assert_eq!(desk.shown(0), [24.0, 256.0]);
    }
}

#[test]
fn readings_between() {
    for other in others() {
        let mut desk = Desk::open(other, &World::practice(), 0);
        for reading in [7000, 14_000, 21_000] {
            assert_eq!(desk.reading(reading), DONE);
        }
        assert_eq!(desk.clock(), [1, 1000, 0]);

        let mut desk = Desk::open(other, &World::practice(), 0);
        assert_eq!(desk.reading(21_000), DONE);
        assert_eq!(desk.clock(), [1, 1000, 0]);
    }
}

#[test]
fn program_by_replay() {
    let log = [record(0, 0, 1), record(2, 0, 9)].concat();
    for other in others() {
        let mut desk = Desk::lend(other, &World::practice());
        assert_eq!(desk.replay(3, &log), DONE);
        assert_eq!(desk.state(), [50, 256, 14, 0, 9]);
        assert_eq!(desk.replay(0, &[]), DONE);
        assert_eq!(desk.state(), [0, 256, 0, 0, 0]);
    }
}

#[test]
fn digest_of_the_practice_yard() {
    // FNV-1a of 24 bytes: all 0 but the tenth, which is 1 (y is 256).
    let mut hash: u32 = 2_166_136_261;
    for k in 0..24 {
        hash = (hash ^ u32::from(k == 9)).wrapping_mul(16_777_619);
    }
    for other in others() {
        let mut desk = Desk::open(other, &World::practice(), 0);
        assert_eq!(desk.digest(), hash);
    }
}
