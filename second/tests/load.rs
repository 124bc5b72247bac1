//! The hanging load (02 §7): its edges, long chains, and what the request says of energy.

use second::act::Act;
use second::coverage::Coverage;
use second::model::Model;
use second::numbers::*;
use second::others;
use second::pair::Pair;
use second::random::Random;
use second::shrink::{first_difference, shrink};
use second::station::Station;
use second::wander::run_of_loads;

const D: i128 = 1024;
const MOST: i32 = 32_767;

/// What the model and all others answer, and what they leave in the load.
fn step(stiffness: u32, load: &[i32]) -> (u32, Vec<i32>) {
    let answers = others().into_iter().map(|other| step_of(&mut Pair::new(other), stiffness, load));
    answers.last().expect("a station")
}

fn step_of(pair: &mut Pair, stiffness: u32, load: &[i32]) -> (u32, Vec<i32>) {
    let act = Act::LoadStep { stiffness, load: load.to_vec() };
    let answer = match pair.act(&act) {
        Ok(answer) => answer.expect("a call"),
        Err(difference) => panic!("{act:?}: {difference}"),
    };
    (answer.number, answer.out.iter().map(|&word| word as i32).collect())
}

fn taken(stiffness: u32, load: [i32; 2], to: [i32; 2]) {
    assert_eq!(step(stiffness, &load), (DONE, to.to_vec()), "{stiffness} {load:?}");
}

fn refused(number: u32, stiffness: u32, load: &[i32]) {
    assert_eq!(step(stiffness, load), (number, load.to_vec()), "{stiffness} {load:?}");
}

#[test]
fn rounded_down() {
    taken(1024, [1, 0], [0, -1]);
    taken(1024, [-1, 0], [0, 1]);
    taken(1, [1, 0], [1, 0]);
    taken(1, [-1, 0], [0, 1]);
    taken(1, [1023, 0], [1023, 0]);
    taken(1, [1024, 0], [1023, -1]);
    taken(1, [-1024, 0], [-1023, 1]);
    taken(1, [-1025, 0], [-1023, 2]);
    taken(3, [-5, 7], [3, 8]);
    taken(512, [3, 0], [2, -1]);
    taken(512, [-3, 0], [-1, 2]);
    taken(1023, [MOST, 0], [32, -32_735]);
    taken(1023, [-MOST, 0], [-31, 32_736]);
    taken(700, [0, 0], [0, 0]);
}

#[test]
fn moves_by_the_new_speed() {
    taken(1024, [100, 100], [100, 0]);
    taken(256, [400, -50], [250, -150]);
}

#[test]
fn stiffness_from_1_to_1024() {
    for stiffness in [0, 1025, 1 << 16 | 5, 1 << 31, 1 << 31 | 1, u32::MAX] {
        refused(LOAD, stiffness, &[5, 5]);
        refused(LOAD, stiffness, &[0, 0]);
    }
    taken(1, [5, 5], [10, 5]);
    taken(1024, [5, 5], [5, 0]);
}

#[test]
fn range_before_the_step() {
    for out in [MOST + 1, -MOST - 1, i32::MIN, i32::MIN + 1, i32::MAX] {
        for stiffness in [1, 512, 1024] {
            refused(LOAD, stiffness, &[out, 0]);
            refused(LOAD, stiffness, &[0, out]);
            refused(LOAD, stiffness, &[out, out]);
        }
    }
    // Each would end in range.
    refused(LOAD, 1024, &[MOST + 1, MOST]);
    refused(LOAD, 1024, &[MOST, MOST + 1]);
    refused(LOAD, 1, &[-MOST - 1, 33]);
    taken(1, [0, MOST], [MOST, MOST]);
    taken(1, [0, -MOST], [-MOST, -MOST]);
    taken(1024, [MOST, 0], [0, -MOST]);
    taken(1024, [-MOST, 0], [0, MOST]);
    taken(1024, [MOST, MOST], [MOST, 0]);
    taken(1024, [-MOST, -MOST], [-MOST, 0]);
}

#[test]
fn leaves_the_range_by_the_speed_alone() {
    refused(LOAD, 1024, &[-20_000, 20_000]);
    refused(LOAD, 1024, &[20_000, -20_000]);
    refused(LOAD, 1024, &[1, -MOST]);
    refused(LOAD, 1, &[-1, MOST]);
    refused(LOAD, 1024, &[MOST, -MOST]);
    refused(LOAD, 1024, &[-MOST, MOST]);
    taken(1024, [1, -MOST + 1], [-MOST + 1, -MOST]);
}

#[test]
fn leaves_the_range_by_the_offset_alone() {
    refused(LOAD, 1, &[30_000, 30_000]);
    refused(LOAD, 1, &[-30_000, -30_000]);
    refused(LOAD, 1, &[1, MOST]);
    refused(LOAD, 1, &[MOST, 32]);
    taken(1, [MOST, 31], [MOST, 0]);
    taken(1, [-MOST, -32], [-MOST, 0]);
    refused(LOAD, 1, &[-MOST, -33]);
}

#[test]
fn length_before_all_else() {
    for len in [0, 1, 3, 4, 500] {
        refused(ROOM, 5, &vec![1; len]);
        refused(ROOM, 0, &vec![1; len]);
        refused(ROOM, 5, &vec![i32::MAX; len]);
    }
}

/// Steps from a beginning until one is refused, at most so many: each load, the beginning first.
fn chain(station: &dyn Station, stiffness: u32, begin: [i32; 2], most: usize) -> Vec<[i32; 2]> {
    let mut loads = vec![begin];
    let mut load = begin;
    while loads.len() <= most && station.load_step(stiffness, &mut load) == DONE {
        loads.push(load);
    }
    loads
}

#[test]
fn long_chains() {
    let begins = [(64, [1000, 0]), (1, [20_000, 100]), (1024, [9000, 9000]), (777, [-1, 0])];
    for (stiffness, begin) in begins {
        let loads = chain(&Model, stiffness, begin, 5000);
        assert_eq!(loads.len(), 5001, "{stiffness} {begin:?}");
        for other in others() {
            let mut pair = Pair::new(other);
            for step in loads.windows(2) {
                assert_eq!(step_of(&mut pair, stiffness, &step[0]), (DONE, step[1].to_vec()));
            }
            assert_eq!(chain(other, stiffness, begin, 5000), loads, "{}", other.name());
        }
    }
}

fn energy(stiffness: u32, [x, v]: [i32; 2]) -> i128 {
    let [p, x, v]: [i128; 3] = [stiffness.into(), x.into(), v.into()];
    D * v * v - p * x * v + p * x * x
}

/// "D times the change of energy in a step is exactly r·((2·D - p)·v' + p·x') - r·r".
fn identity(stiffness: u32, from: [i32; 2], to: [i32; 2]) {
    let [p, x]: [i128; 2] = [stiffness.into(), from[0].into()];
    let [new_x, new_v] = to.map(i128::from);
    let r = (p * x).rem_euclid(D);
    let change = energy(stiffness, to) - energy(stiffness, from);
    assert_eq!(D * change, r * ((2 * D - p) * new_v + p * new_x) - r * r, "{p} {from:?} {to:?}");
}

/// "the energy differs from that at the beginning by at most n·D·(2·M + 1)", M being the least
/// that bounds the loads in which steps ended; how near the difference comes, in thousandths.
fn drift(stiffness: u32, loads: &[[i32; 2]]) -> i128 {
    let (mut most, mut nearest) = (0, 0);
    for (n, &load) in loads.iter().enumerate().skip(1) {
        most = load.iter().map(|&word| i128::from(word).abs()).fold(most, i128::max);
        let drift = (energy(stiffness, load) - energy(stiffness, loads[0])).abs();
        let bound = n as i128 * D * (2 * most + 1);
        assert!(drift <= bound, "{stiffness} {:?}, {n} steps: {drift} {bound}", loads[0]);
        nearest = nearest.max(1000 * drift / bound);
    }
    nearest
}

#[test]
fn energy_of_the_model() {
    let mut random = Random::new(702);
    let (mut steps, mut nearest, mut without_remainder) = (0, 0, 0);
    for _ in 0..3000 {
        let any = 1 + random.below(1024) as u32;
        let stiffness = random.pick(&[any, any, 1, 1023, 1024]);
        let most = random.pick(&[3, 300, 8000, MOST.into()]);
        let begin = [(); 2].map(|()| random.within(-most..=most) as i32);
        let loads = chain(&Model, stiffness, begin, 100);
        for pair in loads.windows(2) {
            identity(stiffness, pair[0], pair[1]);
            without_remainder += usize::from(stiffness as i32 * pair[0][0] % 1024 == 0);
        }
        steps += loads.len() - 1;
        nearest = nearest.max(drift(stiffness, &loads));
    }
    println!("{steps} steps, {without_remainder} without remainder; {nearest}/1000 of the bound");
    assert!(steps > 100_000 && without_remainder > 1000 && nearest > 500);
}

#[test]
fn runs_are_equal_and_every_number_occurs() {
    for other in others() {
        let mut coverage = Coverage::default();
        for seed in 0..400 {
            let run = run_of_loads(other, seed);
            coverage.add(&run.coverage);
            if run.difference.is_some() {
                let acts = shrink(other, run.acts);
                let difference = first_difference(other, &acts).unwrap_or_default();
                panic!("seed {seed}, {}: {acts:#?}\n{difference}", other.name());
            }
        }
        println!("{}, {} calls", other.name(), coverage.calls());
        assert_eq!(coverage.missing_of("load_step"), []);
        assert_eq!(coverage.impossible(), []);
    }
}
