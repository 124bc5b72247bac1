//! Demand 3: the order in which readings and records come does not matter.

use second::act::{Act, Slice};
use second::desk::Desk;
use second::numbers::*;
use second::others;
use second::random::Random;
use second::station::{word, Shape, Station};
use second::worlds::{record, World};

/// The most that a reading may add without cutting time.
const GAP: u64 = 250_000;

type Records = Vec<(u32, u8, u8)>;

/// Records for different places, in any order.
fn records(random: &mut Random, carriers: u32, last_step: u32) -> Records {
    let mut places: Vec<(u32, u8)> = (0..40)
        .map(|_| (random.below(last_step.into()) as u32, random.below(carriers.into()) as u8))
        .collect();
    places.sort();
    places.dedup();
    random.shuffle(&mut places);
    places.into_iter().map(|(step, carrier)| (step, carrier, random.below(10) as u8)).collect()
}

/// A session fed these records in an order of its own, with repeats, late arrivals and refused
/// calls between, until it holds them all and has made this many steps.
fn fed<'s>(
    other: &'s dyn Station,
    world: &World,
    records: &Records,
    steps: u64,
    random: &mut Random,
) -> Desk<'s> {
    let mut desk = Desk::open(other, world, random.below(1 << 40));
    let mut waiting = records.clone();
    random.shuffle(&mut waiting);
    while !waiting.is_empty() || desk.steps() < steps {
        match random.below(4) {
            0 => refused_call(&mut desk, random),
            1 => repeat(&mut desk, records, &waiting, random),
            2 => {
                if let Some((step, carrier, lever)) = waiting.pop() {
                    assert_eq!(desk.deliver(step, carrier, lever), TAKEN);
                    random.shuffle(&mut waiting);
                }
            }
            _ => read_on(&mut desk, &waiting, steps, random),
        }
    }
    desk
}

/// A reading that makes none of the waiting records late and does not pass the steps.
fn read_on(desk: &mut Desk, waiting: &Records, steps: u64, random: &mut Random) {
    let first_waiting = waiting.iter().map(|(step, ..)| u64::from(*step) + 64).min();
    let most = first_waiting.unwrap_or(steps).min(steps) - desk.steps();
    let [_, remainder, _] = desk.clock();
    let gap = random.below(GAP + 1).min(20_000 * most + 19_999 - remainder);
    let last = desk.pair.session(word::LAST);
    assert_eq!(desk.reading(last + gap), DONE);
}

/// A record once taken and sent again is HELD and changes nothing.
fn repeat(desk: &mut Desk, records: &Records, waiting: &Records, random: &mut Random) {
    let (step, carrier, lever) = random.pick(records);
    if !waiting.contains(&(step, carrier, lever)) {
        let before = desk.buffers();
        assert_eq!(desk.deliver(step, carrier, lever), HELD);
        assert!(desk.buffers() == before);
        assert_eq!(desk.deliver(step, carrier, (lever + 1) % 10), CONFLICT);
    }
}

fn refused_call(desk: &mut Desk, random: &mut Random) {
    let made = desk.steps();
    match random.below(4) {
        0 if made > 64 => {
            let number = desk.deliver(random.below(made - 64) as u32, 0, 3);
            assert!([LATE, HELD, CONFLICT].contains(&number));
        }
        1 => assert_eq!(desk.deliver(0, 32, 0), CARRIER),
        2 => assert_eq!(desk.call(Act::Deliver(vec![1, 2, 3])), MALFORMED),
        _ => {
            desk.keep();
            desk.resize(Slice::Session, 8);
            assert_eq!(desk.reading(u64::MAX), FAULT);
            desk.restore();
        }
    }
}

/// State, saved rows, log bytes and digest.
fn outcome(desk: &mut Desk) -> (Vec<i32>, Vec<i32>, Vec<u8>, u32) {
    let buffers = desk.buffers();
    (buffers.state, buffers.rows, buffers.log, desk.digest())
}

/// Two sessions that made the same steps and hold the same records; a third is fed in order.
fn two_sessions(other: &dyn Station, seed: u64) {
    let mut random = Random::new(seed);
    let shape = Shape { w: 5, h: 4, b: 1 + random.below(3) as u32 };
    let world = World::random_of(&mut random, shape);
    let steps = random.below(300);
    let records = records(&mut random, shape.b, 320);
    let mut one = fed(other, &world, &records, steps, &mut random);
    let mut two = fed(other, &world, &records, steps, &mut random);
    assert!(outcome(&mut one) == outcome(&mut two), "seed {seed}: two orders differ");
    assert!(outcome(&mut one) == in_order(other, &world, &records, steps), "seed {seed}");
    let (state, _, log, _) = outcome(&mut one);
    assert_eq!(one.replay(steps as u32, &log[..8 * records.len()]), DONE);
    assert!(one.state() == state, "seed {seed}: replay differs");
}

/// All records before the first step, then one step at a time.
fn in_order(
    other: &dyn Station,
    world: &World,
    records: &Records,
    steps: u64,
) -> (Vec<i32>, Vec<i32>, Vec<u8>, u32) {
    let mut desk = Desk::open(other, world, 0);
    for &(step, carrier, lever) in records {
        assert_eq!(desk.deliver(step, carrier, lever), TAKEN);
    }
    for t in 1..=steps {
        assert_eq!(desk.reading(20_000 * t), DONE);
    }
    outcome(&mut desk)
}

#[test]
fn two_sessions_end_equal() {
    for other in others() {
        for seed in 0..150 {
            two_sessions(other, seed);
        }
    }
}

/// A session with some steps and records behind it.
fn going(other: &'static dyn Station, random: &mut Random) -> Desk<'static> {
    let shape = Shape { w: 4, h: 4, b: 2 };
    let world = World::random_of(random, shape);
    let steps = 64 + random.below(100);
    let records = records(random, shape.b, 64);
    fed(other, &world, &records, steps, random)
}

#[test]
fn two_records_are_taken_in_either_order() {
    let mut both_taken = 0;
    for other in others() {
        for seed in 0..100 {
            let mut random = Random::new(seed);
            let mut desk = going(other, &mut random);
            let near = desk.steps() as u32 - 64;
            let [one, two] = [(); 2].map(|()| {
                let step = near + random.below(70) as u32;
                record(step, random.below(2) as u8, random.below(10) as u8)
            });
            if one[..5] == two[..5] {
                continue;
            }
            desk.keep();
            let taken = [&one, &two].map(|record| desk.call(Act::Deliver(record.clone())));
            let after = desk.buffers();
            if taken == [TAKEN, TAKEN] {
                both_taken += 1;
                desk.restore();
                let taken = [&two, &one].map(|record| desk.call(Act::Deliver(record.clone())));
                assert_eq!(taken, [TAKEN, TAKEN], "seed {seed}");
                assert!(desk.buffers() == after, "seed {seed}");
            }
        }
    }
    assert!(both_taken > 50);
}

#[test]
fn readings_with_the_same_ends_give_the_same_clock() {
    for other in others() {
        for seed in 0..100 {
            let mut random = Random::new(seed);
            let last = random.below(20 * GAP);
            let clocks = [(); 3].map(|()| {
                let mut desk = Desk::open(other, &World::practice(), 0);
                let mut now = 0;
                while now < last {
                    now = last.min(now + random.below(GAP + 1));
                    assert_eq!(desk.reading(now), DONE);
                }
                desk.clock()
            });
            assert_eq!(clocks, [[last / 20_000, last % 20_000, 0]; 3], "seed {seed}");
        }
    }
}
