//! Whole sessions: all 180,000 steps live and by replay, and the largest world.

use second::desk::Desk;
use second::numbers::*;
use second::others;
use second::random::Random;
use second::station::{Shape, Station};
use second::worlds::{record, World};

/// Every step of a session, with a record now and then, some of them late.
fn whole_session(other: &dyn Station) {
    let mut random = Random::new(7);
    let world = World::random_of(&mut random, Shape { w: 6, h: 5, b: 2 });
    let mut desk = Desk::open(other, &world, 1_000_000);
    let mut now = 1_000_000;
    loop {
        now += 150_000 + random.below(110_000);
        match desk.reading(now) {
            DONE => {}
            number => break assert_eq!(number, END),
        }
        if random.one_in(8) {
            let step = (desk.steps() + random.below(10)).saturating_sub(random.below(65)) as u32;
            desk.deliver(step, random.below(2) as u8, random.below(10) as u8);
        }
    }
    let steps = desk.steps();
    assert!(steps > 179_980);
    let state = desk.state();
    let held = desk.pair.held().to_vec();
    assert!(held.len() > 8 * 1500);
    assert_eq!(desk.replay(steps as u32, &held), DONE);
    assert_eq!(desk.state(), state);
}

#[test]
fn live_and_replay_of_a_whole_session() {
    others().into_iter().for_each(whole_session);
}

#[test]
fn largest_world_with_a_full_log() {
    let mut random = Random::new(8);
    let world = World::random_of(&mut random, Shape { w: 64, h: 64, b: 32 });
    let log: Vec<u8> =
        (0..2048).flat_map(|k| record(k, random.below(32) as u8, random.below(10) as u8)).collect();
    for other in others() {
        let mut desk = Desk::lend(other, &world);
        for steps in [1, 64, 700, 2500] {
            assert_eq!(desk.replay(steps, &log), DONE);
        }
    }
}
