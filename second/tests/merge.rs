//! Two stations, one log (02 §9): logs by hand, the order of refusals, the laws that the request
//! states, and random runs.

use second::act::Act;
use second::coverage::Coverage;
use second::desk::Desk;
use second::numbers::*;
use second::others;
use second::pair::Pair;
use second::random::Random;
use second::shrink::{first_difference, shrink};
use second::station::Shape;
use second::wander::run_of_merges;
use second::worlds::{record, World};

const LOG_BYTES: usize = 16_384;
/// What a slice of the caller's own has before a call, cut to its width.
const BEFORE: u64 = 0x5A5A_5A5A_5A5A_5A5A;

/// What the model and all others answer; the buffer's bytes, then the count.
fn call(b: u32, one: &[u8], two: &[u8], out: usize, count: usize) -> (u32, Vec<u64>) {
    let act = Act::Merge { b, one: one.to_vec(), two: two.to_vec(), out, count };
    let answers = others().into_iter().map(|other| match Pair::new(other).act(&act) {
        Ok(answer) => answer.expect("a call"),
        Err(difference) => panic!("{act:?}, {}: {difference}", other.name()),
    });
    let answer = answers.last().expect("a station");
    (answer.number, answer.out)
}

/// The merged log, or the number that refuses it.
fn merge(b: u32, one: &[u8], two: &[u8]) -> Result<Vec<u8>, u32> {
    let (number, out) = call(b, one, two, LOG_BYTES, 1);
    if number != DONE {
        assert!(out[..LOG_BYTES].iter().all(|&byte| byte == BEFORE & 0xFF));
        assert_eq!(out[LOG_BYTES], BEFORE);
        return Err(number);
    }
    let mut buffer: Vec<u8> = out[..LOG_BYTES].iter().map(|&byte| byte as u8).collect();
    let after = buffer.split_off(8 * out[LOG_BYTES] as usize);
    assert!(after.iter().all(|&byte| byte == 0));
    Ok(buffer)
}

/// A log of records (step, carrier, lever).
fn log_of(records: &[(u32, u8, u8)]) -> Vec<u8> {
    records.iter().flat_map(|&(step, carrier, lever)| record(step, carrier, lever)).collect()
}

/// A record at each of these steps.
fn at_steps(steps: impl Iterator<Item = u32>) -> Vec<u8> {
    steps.flat_map(|step| record(step, 0, (step % 10) as u8)).collect()
}

#[test]
fn exactly_the_records_of_both_in_log_order() {
    let one = log_of(&[(0, 0, 1), (2, 1, 9), (7, 0, 3)]);
    let two = log_of(&[(0, 1, 4), (2, 0, 9), (2, 1, 9), (9, 2, 0)]);
    let both = log_of(&[(0, 0, 1), (0, 1, 4), (2, 0, 9), (2, 1, 9), (7, 0, 3), (9, 2, 0)]);
    assert_eq!(merge(3, &one, &two), Ok(both.clone()));
    assert_eq!(merge(3, &two, &one), Ok(both));
}

#[test]
fn empty_logs_and_records_of_zeros() {
    let zeros = log_of(&[(0, 0, 0)]);
    let later = log_of(&[(179_999, 31, 9)]);
    assert_eq!(merge(32, &[], &[]), Ok(vec![]));
    assert_eq!(merge(32, &zeros, &[]), Ok(zeros.clone()));
    assert_eq!(merge(32, &[], &zeros), Ok(zeros.clone()));
    assert_eq!(merge(32, &zeros, &zeros), Ok(zeros.clone()));
    assert_eq!(merge(32, &later, &zeros), Ok([zeros, later].concat()));
}

/// Steps whose low bytes descend.
#[test]
fn steps_are_compared_as_numbers() {
    let (one, two) = (log_of(&[(255, 0, 1), (65_536, 0, 2)]), log_of(&[(256, 0, 3)]));
    let both = log_of(&[(255, 0, 1), (256, 0, 3), (65_536, 0, 2)]);
    assert_eq!(merge(1, &one, &two), Ok(both.clone()));
    assert_eq!(merge(1, &two, &one), Ok(both));
}

#[test]
fn one_log_wholly_before_the_other() {
    let (one, two) = (at_steps(0..1000), at_steps(1000..2048));
    assert_eq!(merge(1, &one, &two), Ok(at_steps(0..2048)));
    assert_eq!(merge(1, &two, &one), Ok(at_steps(0..2048)));
}

#[test]
fn totals_near_2048() {
    let even = |records: u32| at_steps((0..records).map(|k| 2 * k));
    let odd = |records: u32| at_steps((0..records).map(|k| 2 * k + 1));
    let both = |records: u32| at_steps(0..records);
    assert_eq!(merge(1, &even(1024), &odd(1023)), Ok(both(2047)));
    assert_eq!(merge(1, &even(1024), &odd(1024)), Ok(both(2048)));
    assert_eq!(merge(1, &even(1025), &odd(1024)), Err(FULL));
    assert_eq!(merge(1, &even(2048), &odd(2048)), Err(FULL));
    assert_eq!(merge(1, &both(2048), &both(2048)), Ok(both(2048)));
    assert_eq!(merge(1, &both(2048), &[]), Ok(both(2048)));
    assert_eq!(merge(1, &both(2048), &even(1024)), Ok(both(2048)));
    assert_eq!(merge(1, &both(2048), &even(1025)), Err(FULL));
    assert_eq!(merge(1, &both(2047), &at_steps(1..2048)), Ok(both(2048)));
    assert_eq!(merge(1, &both(2048), &at_steps(1..2049)), Err(FULL));
    assert_eq!(merge(1, &both(2048), &record(179_999, 0, 0)), Err(FULL));
}

#[test]
fn different_levers_at_one_place() {
    let one = log_of(&[(1, 0, 1), (5, 0, 2), (5, 1, 3)]);
    for at in 0..3 {
        for lever in 0..10 {
            let mut two = one.clone();
            two[8 * at + 5] = lever;
            let wanted = if two == one { Ok(one.clone()) } else { Err(CONFLICT) };
            assert_eq!(merge(2, &one, &two), wanted);
            assert_eq!(merge(2, &two, &one), wanted);
            assert_eq!(merge(2, &one, &two[8 * at..8 * at + 8]), wanted);
        }
    }
    let other = log_of(&[(1, 1, 9), (5, 2, 4), (6, 0, 2)]);
    assert!(merge(3, &one, &other).is_ok_and(|both| both.len() == 48));
}

#[test]
fn order_of_refusals() {
    let full = at_steps(0..2048);
    let mut differs = at_steps(1..2049);
    differs[8 * 2046 + 5] ^= 1;
    let unsound = [&differs[..], &[0]].concat();
    let number = |b, one: &[u8], two: &[u8], out, count| call(b, one, two, out, count).0;
    for (one, two) in [(&full, &unsound), (&unsound, &full), (&unsound, &unsound)] {
        for b in [0, 33, u32::MAX, 1 << 8 | 1] {
            assert_eq!(number(b, one, two, 0, 0), WORLD);
            assert_eq!(number(b, one, two, LOG_BYTES, 1), WORLD);
        }
        for (out, count) in [(LOG_BYTES - 1, 1), (LOG_BYTES + 1, 1), (0, 1), (LOG_BYTES, 0)] {
            assert_eq!(number(1, one, two, out, count), ROOM);
        }
        assert_eq!(number(1, one, two, LOG_BYTES, 2), ROOM);
        assert_eq!(number(1, one, two, LOG_BYTES, 1), LOG);
    }
    assert_eq!(number(1, &full, &differs, LOG_BYTES, 1), CONFLICT);
    differs[8 * 2046 + 5] ^= 1;
    assert_eq!(number(1, &full, &differs, LOG_BYTES, 1), FULL);
    assert_eq!(number(1, &full, &differs[..8 * 2047], LOG_BYTES, 1), DONE);
}

#[test]
fn rule_13_for_either_log_with_its_b() {
    let sound = log_of(&[(3, 0, 1)]);
    let unsound = [
        log_of(&[(3, 2, 1)]),
        log_of(&[(3, 0, 10)]),
        log_of(&[(180_000, 0, 1)]),
        log_of(&[(3, 0, 1), (3, 0, 1)]),
        log_of(&[(4, 0, 1), (3, 0, 1)]),
        vec![0; 7],
        vec![0, 0, 0, 0, 0, 0, 0, 1],
        at_steps(0..2049),
    ];
    for log in &unsound {
        assert_eq!(merge(2, &sound, log), Err(LOG));
        assert_eq!(merge(2, log, &sound), Err(LOG));
        assert_eq!(merge(2, log, log), Err(LOG));
        assert_eq!(merge(2, log, &[]), Err(LOG));
    }
    assert!(merge(3, &sound, &unsound[0]).is_ok());
}

/// A sound log for three carriers, at steps below this number.
fn any_log(random: &mut Random, most: u64, steps: u64) -> Vec<u8> {
    let count = random.below(most + 1);
    let mut places: Vec<u64> = (0..count).map(|_| random.below(3 * steps)).collect();
    places.sort();
    places.dedup();
    // Two logs often have the same lever where they meet.
    let lever = |place, random: &mut Random| match random.below(60) {
        0 => random.below(10) as u8,
        _ => (place % 7) as u8,
    };
    let records = places
        .into_iter()
        .flat_map(|place| record((place / 3) as u32, (place % 3) as u8, lever(place, random)));
    records.collect()
}

#[test]
fn order_itself_and_three() {
    let mut random = Random::new(9);
    let (mut accepted, mut refused) = (0, 0);
    for _ in 0..400 {
        let (most, steps) =
            random.pick(&[(3, 2), (30, 20), (30, 1000), (900, 1000), (900, 60_000)]);
        let [a, b, c] = [(); 3].map(|()| any_log(&mut random, most, steps));
        let ab = merge(3, &a, &b);
        assert_eq!(ab, merge(3, &b, &a));
        assert_eq!(merge(3, &a, &a), Ok(a.clone()));
        let three = [
            ab.and_then(|ab| merge(3, &ab, &c)),
            merge(3, &b, &c).and_then(|bc| merge(3, &a, &bc)),
            merge(3, &a, &c).and_then(|ac| merge(3, &ac, &b)),
        ];
        if three.iter().all(Result::is_err) {
            refused += 1;
        } else {
            accepted += 1;
            assert!(three.iter().all(|log| *log == three[0]));
        }
    }
    assert!(accepted > 100 && refused > 50, "{accepted} {refused}");
}

/// "A session as in demand 3 that holds exactly the records of the merged log ends as replay of the
/// merged log, on its world, to its number of steps."
#[test]
fn a_session_that_holds_both_ends_as_replay_of_the_merged_log() {
    for other in others() {
        let mut merged = 0;
        for seed in 0..40 {
            let mut random = Random::new(seed);
            let world = World::random_of(&mut random, Shape { w: 5, h: 4, b: 3 });
            let [one, two] = [(); 2].map(|()| any_log(&mut random, 20, 100));
            let Ok(both) = merge(3, &one, &two) else {
                continue;
            };
            let mut desk = Desk::open(other, &world, 0);
            let mut records: Vec<&[u8]> = one.chunks(8).chain(two.chunks(8)).collect();
            random.shuffle(&mut records);
            for (k, record) in (1..).zip(&records) {
                let step = u32::from_le_bytes(record[..4].try_into().unwrap());
                let number = desk.deliver(step, record[4], record[5]);
                assert!(number == TAKEN || number == HELD);
                assert_eq!(desk.reading(1_280_000 * k / records.len() as u64), DONE);
            }
            assert_eq!(desk.pair.held(), both);
            let (steps, state) = (desk.steps(), desk.state());
            assert_eq!(desk.replay(steps as u32, &both), DONE);
            assert_eq!(desk.state(), state, "seed {seed}");
            merged += 1;
        }
        assert!(merged > 20);
    }
}

#[test]
fn runs_are_equal_and_every_number_occurs() {
    for other in others() {
        let mut coverage = Coverage::default();
        for seed in 0..400 {
            let run = run_of_merges(other, seed);
            coverage.add(&run.coverage);
            if run.difference.is_some() {
                let acts = shrink(other, run.acts);
                let difference = first_difference(other, &acts).unwrap_or_default();
                panic!("seed {seed}, {}: {acts:#?}\n{difference}", other.name());
            }
        }
        println!("{}, {} calls", other.name(), coverage.calls());
        assert_eq!(coverage.missing_of("merge"), []);
        assert_eq!(coverage.impossible(), []);
    }
}
