//! The edges of the numbered rules, each test named for its rule.

use second::act::{Act, Slice};
use second::desk::Desk;
use second::numbers::*;
use second::others;
use second::random::Random;
use second::station::{word, Shape, Station};
use second::worlds::{record, World};

const ALL: [(Slice, usize); 6] = [
    (Slice::Cells, 12),
    (Slice::Boxes, 4),
    (Slice::State, 5),
    (Slice::Rows, 320),
    (Slice::Log, 16_384),
    (Slice::Session, 9),
];

fn practice(other: &dyn Station) -> Desk<'_> {
    Desk::open(other, &World::practice(), 0)
}

/// A practice session that has made this many steps, its rows all as the present state.
fn after_steps(other: &dyn Station, steps: i64) -> Desk<'_> {
    let mut desk = practice(other);
    desk.put(Slice::Session, word::FIRST, &[0, 20_000 * steps, 0, 0, steps]);
    desk.put(Slice::Rows, 0, &[0, 256, 0, 0, 0].repeat(64));
    desk
}

/// Where the row of step t starts, for one carrier.
fn row(t: usize) -> usize {
    t % 64 * 5
}

#[test]
fn rule_9_before_rule_10_before_rule_9() {
    for other in others() {
        let mut desk = Desk::lend(other, &World::practice());
        let [right, wrong] = [4, 65].map(|w| Shape { w, h: 3, b: 1 });
        desk.put(Slice::Cells, 0, &[2]);
        assert_eq!(desk.call(Act::Open { yard: right, reading: 0 }), WORLD);
        desk.resize(Slice::State, 4);
        assert_eq!(desk.call(Act::Open { yard: right, reading: 0 }), ROOM);
        assert_eq!(desk.call(Act::Open { yard: wrong, reading: 0 }), WORLD);
    }
}

#[test]
fn rule_10_for_each_length() {
    for other in others() {
        for (slice, len) in ALL {
            for wrong in [0, len - 1, len + 1] {
                let mut desk = Desk::lend(other, &World::practice());
                desk.resize(slice, wrong);
                let yard = desk.world.shape;
                assert_eq!(desk.call(Act::Open { yard, reading: 0 }), ROOM, "{slice:?} {wrong}");
                let unused = [Slice::Rows, Slice::Log, Slice::Session].contains(&slice);
                assert_eq!(desk.replay(1, &[]), if unused { DONE } else { ROOM });
            }
        }
    }
}

#[test]
fn rule_14_for_each_length() {
    for other in others() {
        for (slice, len) in ALL {
            for wrong in [0, len - 1, len + 1] {
                let mut desk = practice(other);
                desk.resize(slice, wrong);
                assert_eq!(desk.reading(5), FAULT, "{slice:?} {wrong}");
                assert_eq!(desk.deliver(0, 0, 1), FAULT);
                assert_eq!(desk.call(Act::Digest { out: 1 }), FAULT);
                assert_eq!(desk.call(Act::Shown { carrier: 0, out: 2 }), FAULT);
            }
        }
    }
}

#[test]
fn rule_14_session_words_are_compared_whole() {
    for other in others() {
        for at in 0..word::COUNT {
            let mut desk = practice(other);
            let old = desk.pair.session(at) as i64;
            desk.put(Slice::Session, at, &[old + (1 << 32)]);
            assert_eq!(desk.reading(1 << 40), FAULT, "word {at}");
        }
    }
}

#[test]
fn rule_14_time_equation_does_not_wrap() {
    for other in others() {
        let mut desk = practice(other);
        desk.put(Slice::Session, word::FIRST, &[1, 0, 0, -1, 0]);
        assert_eq!(desk.reading(5), FAULT);
        desk.put(Slice::Session, word::FIRST, &[0, -1, 0, -1, 0]);
        assert_eq!(desk.reading(u64::MAX), DONE);
    }
}

#[test]
fn rule_14_limits_of_the_clock() {
    for other in others() {
        let mut desk = practice(other);
        desk.put(Slice::Session, word::FIRST, &[0, 20_000 * 180_001, 0, 0, 180_001]);
        assert_eq!(desk.reading(u64::MAX), FAULT);
        desk.put(Slice::Session, word::FIRST, &[0, 20_000, 20_000, 0, 0]);
        assert_eq!(desk.reading(20_000), FAULT);
        desk.put(Slice::Session, word::FIRST, &[0, 19_999, 19_999, 0, 0]);
        assert_eq!(desk.reading(19_999), DONE);
    }
}

#[test]
fn rule_14_limits_of_speeds_and_levers() {
    for other in others() {
        for (at, sound, unsound) in [(2, [-200, 200], [-201, 201]), (4, [0, 9], [-1, 10])] {
            for k in 0..2 {
                let mut desk = practice(other);
                desk.put(Slice::State, at, &[sound[k]]);
                assert_eq!(desk.reading(0), DONE);
                desk.put(Slice::State, at, &[unsound[k]]);
                assert_eq!(desk.reading(0), FAULT);
            }
        }
    }
}

#[test]
fn rule_14_bytes_after_the_held_part() {
    for other in others() {
        for at in [8, 9, 16_383] {
            let mut desk = practice(other);
            assert_eq!(desk.deliver(0, 0, 0), TAKEN);
            desk.put(Slice::Log, at, &[1]);
            assert_eq!(desk.reading(0), FAULT);
        }
        let mut desk = practice(other);
        desk.put(Slice::Session, word::HELD, &[1]);
        assert_eq!(desk.deliver(0, 0, 0), HELD, "eight zero bytes are a record");
        desk.put(Slice::Session, word::HELD, &[2]);
        assert_eq!(desk.deliver(0, 0, 0), FAULT);
    }
}

#[test]
fn rule_14_says_nothing_of_starts() {
    for other in others() {
        let mut desk = practice(other);
        desk.put(Slice::Boxes, 0, &[-5, i64::from(i32::MAX)]);
        assert_eq!(desk.reading(20_000), DONE);
        assert_eq!(desk.deliver(0, 0, 3), TAKEN);
    }
}

#[test]
fn rule_14_extreme_places() {
    for other in others() {
        for edge in [i32::MIN, -1, 1025 - 256, i32::MAX - 255, i32::MAX] {
            for at in 0..2 {
                let mut desk = practice(other);
                desk.put(Slice::State, at, &[edge.into()]);
                assert_eq!(desk.reading(5), FAULT, "{edge} at {at}");
            }
        }
    }
}

#[test]
fn rule_14_last_for_the_row() {
    for other in others() {
        let mut desk = after_steps(other, 100);
        desk.put(Slice::Rows, row(40) + 2, &[201]);
        assert_eq!(desk.deliver(40, 0, 1), FAULT);
        assert_eq!(desk.deliver(41, 0, 1), TAKEN);
        assert_eq!(desk.deliver(41, 0, 1), HELD);
        assert_eq!(desk.deliver(40, 1, 1), CARRIER);
        assert_eq!(desk.deliver(100, 0, 1), TAKEN);
    }
}

#[test]
fn rule_14_for_the_row_shown() {
    for other in others() {
        let mut desk = after_steps(other, 100);
        desk.put(Slice::Rows, row(99) + 4, &[10]);
        assert_eq!(desk.call(Act::Shown { carrier: 0, out: 3 }), FAULT);
        assert_eq!(desk.call(Act::Shown { carrier: 1, out: 2 }), CARRIER);
        assert_eq!(desk.call(Act::Shown { carrier: 0, out: 2 }), FAULT);
        assert_eq!(desk.call(Act::Digest { out: 1 }), DONE);
    }
}

#[test]
fn rule_11_and_equal_readings() {
    for other in others() {
        let mut desk = Desk::open(other, &World::practice(), 50);
        assert_eq!(desk.reading(49), BACKWARD);
        assert_eq!(desk.reading(50), DONE);
        assert_eq!(desk.clock(), [0, 0, 0]);
    }
}

#[test]
fn rule_12_refuses_the_whole_reading() {
    for other in others() {
        let mut desk = after_steps(other, 179_999);
        let last = desk.pair.session(word::LAST);
        assert_eq!(desk.reading(last + 40_000), END);
        assert_eq!(desk.reading(last + 39_999), DONE);
        assert_eq!(desk.clock(), [180_000, 19_999, 0]);
        assert_eq!(desk.reading(last + 39_999), DONE);
        assert_eq!(desk.reading(last + 40_000), END);
        assert_eq!(desk.reading(u64::MAX), END);

        let mut desk = after_steps(other, 180_000);
        let last = desk.pair.session(word::LAST);
        assert_eq!(desk.reading(last + 19_999), DONE);
        assert_eq!(desk.clock(), [180_000, 19_999, 0]);
    }
}

#[test]
fn rule_5_for_records_and_replay() {
    for other in others() {
        let mut desk = practice(other);
        assert_eq!(desk.deliver(180_000, 0, 1), STEP);
        assert_eq!(desk.deliver(179_999, 0, 1), TAKEN);
        assert_eq!(desk.replay(180_001, &[]), STEP);
        assert_eq!(desk.replay(180_001, &[0]), LOG);
        assert_eq!(desk.replay(180_000, &record(179_999, 0, 1)), DONE);
        assert_eq!(desk.state(), [12, 256, 12, 0, 1]);
        assert_eq!(desk.replay(179_999, &record(179_999, 0, 1)), DONE);
        assert_eq!(desk.state(), [0, 256, 0, 0, 0]);
    }
}

#[test]
fn rule_8_after_rules_1_6_and_7() {
    for other in others() {
        let mut desk = after_steps(other, 5000);
        let log: Vec<u8> = (3000..5048).flat_map(|step| record(step, 0, 1)).collect();
        let words: Vec<i64> = log.iter().map(|&byte| byte.into()).collect();
        desk.put(Slice::Log, 0, &words);
        desk.put(Slice::Session, word::HELD, &[2048]);
        assert_eq!(desk.deliver(3000, 0, 1), HELD);
        assert_eq!(desk.deliver(3000, 0, 2), CONFLICT);
        assert_eq!(desk.deliver(2999, 0, 1), LATE);
        assert_eq!(desk.deliver(5048, 0, 1), FULL);
    }
}

#[test]
fn rule_13_for_more_than_2048_records() {
    let log: Vec<u8> = (0..2049).flat_map(|step| record(step, 0, 1)).collect();
    for other in others() {
        let mut desk = practice(other);
        assert_eq!(desk.call(Act::LogSound(log.clone())), 0);
        assert_eq!(desk.call(Act::LogSound(log[8..].to_vec())), 1);
        assert_eq!(desk.call(Act::LogSound(vec![])), 1);
        assert_eq!(desk.call(Act::LogSound(vec![0; 8])), 1);
        assert_eq!(desk.call(Act::LogSound(vec![0; 16])), 0);
    }
}

#[test]
fn rule_13_takes_b_from_the_world() {
    for other in others() {
        let mut desk = practice(other);
        assert_eq!(desk.replay(0, &record(0, 1, 1)), LOG);
        assert_eq!(desk.call(Act::LogSound(record(0, 31, 1))), 1);
        assert_eq!(desk.call(Act::LogSound(record(0, 32, 1))), 0);
    }
}

#[test]
fn records_of_one_step() {
    let log: Vec<u8> = [record(1, 0, 1), record(1, 2, 1), record(4, 0, 1)].concat();
    for other in others() {
        let mut desk = practice(other);
        let mut part = |log: &[u8], step| {
            desk.answer(Act::StepRecords { log: log.to_vec(), step, out: 2 }).out
        };
        assert_eq!(part(&log, 0), [0, 0]);
        assert_eq!(part(&log, 1), [0, 16]);
        assert_eq!(part(&log, 2), [16, 16]);
        assert_eq!(part(&log, 4), [16, 24]);
        assert_eq!(part(&log, u32::MAX), [24, 24]);
        assert_eq!(part(&log[..23], 1), [0, 0]);
        assert_eq!(part(&[], 7), [0, 0]);
    }
}

#[test]
fn order_of_reading_and_writing_one_record() {
    for other in others() {
        let mut desk = practice(other);
        let all_wrong = [record(u32::MAX, 32, 10), vec![0]].concat();
        let mut read =
            |record: &[u8], out| desk.call(Act::ReadRecord { record: record.to_vec(), out });
        assert_eq!(read(&all_wrong, 0), MALFORMED);
        assert_eq!(read(&record(u32::MAX, 32, 10), 0), CARRIER);
        assert_eq!(read(&record(u32::MAX, 31, 10), 0), LEVER);
        assert_eq!(read(&record(u32::MAX, 31, 9), 0), STEP);
        assert_eq!(read(&record(179_999, 31, 9), 4), ROOM);
        let mut write =
            |step, carrier, lever, out| desk.call(Act::WriteRecord { step, carrier, lever, out });
        assert_eq!(write(u32::MAX, 32, 10, 0), CARRIER);
        assert_eq!(write(u32::MAX, 31, 256, 0), LEVER);
        assert_eq!(write(180_000, 31, 9, 0), STEP);
        assert_eq!(write(179_999, 31, 9, 7), ROOM);
    }
}

#[test]
fn shown_place_lies_between() {
    let world =
        World { shape: Shape { w: 64, h: 1, b: 1 }, cells: vec![0; 64], boxes: vec![0, 0, 1, 256] };
    let mut random = Random::new(5);
    for other in others() {
        let mut desk = Desk::open(other, &world, 0);
        for _ in 0..2000 {
            let p = random.within(0..=16_383);
            let c = random.pick(&[p, 0, 16_383, (p + 100).min(16_383), (p - 200).max(0)]);
            let any = random.within(0..=19_999);
            let remainder = random.pick(&[any, any, 0, 1, 19_999]);
            desk.put(Slice::State, 0, &[c]);
            desk.put(Slice::Rows, 0, &[p]);
            desk.put(Slice::Session, word::LAST, &[20_000 + remainder, remainder, 0, 1]);
            let [x, y] = desk.shown(0);
            assert!(p.min(c) as f64 <= x && x <= p.max(c) as f64 && y == 0.0);
            assert!(x == p as f64 || (remainder != 0 && p != c), "{p} {c} {remainder}");
        }
    }
}
