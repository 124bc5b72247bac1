//! Rope ends on the screen (02 §8): steps by hand, compared bit for bit, and random runs.

use second::act::Act;
use second::coverage::Coverage;
use second::numbers::*;
use second::others;
use second::pair::Pair;
use second::random::Random;
use second::shrink::{first_difference, shrink};
use second::wander::run_of_ropes;

const MAX: f64 = f64::MAX;
/// The least number above 0.
const LEAST: f64 = 5e-324;

/// A force as its kind and two numbers.
type Force = (u32, f64, f64);

fn pull(size: f64) -> Force {
    (0, size, 0.0)
}

fn spring(stiffness: f64, rest: f64) -> Force {
    (1, stiffness, rest)
}

fn drag(factor: f64) -> Force {
    (2, factor, 0.0)
}

/// What the model and all others answer, and the bits that they leave in the point.
fn call(kinds: &[u32], numbers: &[f64], point: &[f64]) -> (u32, Vec<u64>) {
    let (kinds, numbers, point) = (kinds.to_vec(), numbers.to_vec(), point.to_vec());
    let act = Act::RopeStep { kinds, numbers, point };
    let answers = others().into_iter().map(|other| match Pair::new(other).act(&act) {
        Ok(answer) => answer.expect("a call"),
        Err(difference) => panic!("{act:?}, {}: {difference}", other.name()),
    });
    let answer = answers.last().expect("a station");
    (answer.number, answer.out)
}

fn step(forces: &[Force], point: [f64; 2]) -> (u32, Vec<u64>) {
    let kinds: Vec<u32> = forces.iter().map(|force| force.0).collect();
    let numbers: Vec<f64> = forces.iter().flat_map(|force| [force.1, force.2]).collect();
    call(&kinds, &numbers, &point)
}

/// Place and speed before and, by their bits, after.
fn taken(forces: &[Force], point: [f64; 2], to: [u64; 2]) {
    assert_eq!(step(forces, point), (DONE, to.to_vec()), "{forces:?} {point:?}");
}

fn refused(forces: &[Force], point: [f64; 2]) {
    let bits = point.map(f64::to_bits).to_vec();
    assert_eq!(step(forces, point), (ROPE, bits), "{forces:?} {point:?}");
}

#[test]
fn no_forces() {
    taken(&[], [1.0, 0.5], [1.01f64.to_bits(), 0.5f64.to_bits()]);
    taken(&[], [0.0, 0.0], [0, 0]);
}

#[test]
fn each_kind() {
    taken(&[pull(9.81)], [0.0, 0.0], [0x3f70129cbab649d4, 0x3fc91d14e3bcd35b]);
    taken(&[spring(40.0, 1.0)], [0.25, 0.0], [0x3fd0c49ba5e353f8, 0x3fe3333333333333]);
    taken(&[spring(3.7, -0.1)], [0.2, 0.3], [0x3fca4fa8b4bf8fce, 0x3fd1c779a6b50b0f]);
    taken(&[spring(0.1, 0.3)], [0.1, 0.0], [0x3fb99a1fd1569f49, 0x3f3a36e2eb1c432d]);
    taken(&[drag(0.5)], [0.0, 3.0], [0x3fae69ad42c3c9f0, 0x4007c28f5c28f5c3]);
    taken(&[drag(0.1)], [7.0, -0.3], [0x401bf9de481f5382, 0xbfd3295e9e1b089a]);
}

#[test]
fn added_in_list_order() {
    taken(&[pull(1e16), pull(1.0), pull(-1e16)], [0.0, 0.0], [0, 0]);
    let to = [0x3f3a36e2eb1c432d, 0x3f947ae147ae147b];
    taken(&[pull(1e16), pull(-1e16), pull(1.0)], [0.0, 0.0], to);
    let thirds = [pull(1.0 / 3.0), pull(0.1), pull(0.2)];
    taken(&thirds, [0.1, 0.7], [0x3fbd3fb4da202ad2, 0x3fe6ce2a53490b9b]);
}

/// Rounded together with the sum, 0.1·0.02 - 0.002 would not be 0.
#[test]
fn each_operation_rounded_once() {
    taken(&[pull(0.1)], [0.0, -0.002], [0, 0]);
    taken(&[], [-0.002, 0.1], [0, 0.1f64.to_bits()]);
}

#[test]
fn eight_forces_and_nine() {
    let eight = [
        pull(9.81),
        spring(12.5, 0.75),
        drag(0.35),
        pull(-3.3),
        spring(-0.1, 2.0),
        drag(-0.07),
        spring(1e-3, -1e3),
        pull(0.1),
    ];
    taken(&eight, [0.3, -1.7], [0x3fd151c6f2175f17, 0xbff781c92ddbdb5d]);
    refused(&[&eight[..], &[pull(0.0)]].concat(), [0.3, -1.7]);
    refused(&[pull(0.0); 9], [0.0, 0.0]);
    refused(&[pull(0.0); 300], [0.0, 0.0]);
    taken(&[pull(0.0); 8], [0.0, 0.0], [0, 0]);
}

/// A sum of a zero and a zero below is the zero above.
#[test]
fn signed_zeros() {
    const BELOW: u64 = 1 << 63;
    taken(&[], [-0.0, -0.0], [0, 0]);
    taken(&[pull(-0.0)], [-0.0, -0.0], [0, 0]);
    taken(&[spring(-0.0, 1.0), drag(0.0)], [-0.0, -0.0], [0, 0]);
    taken(&[], [-0.0, -LEAST], [BELOW, BELOW | 1]);
    taken(&[pull(-LEAST)], [-0.0, -0.0], [BELOW, BELOW]);
    taken(&[pull(-LEAST)], [0.0, 0.0], [0, 0]);
    taken(&[pull(-1.0), pull(1.0)], [-0.0, -0.0], [0, 0]);
}

#[test]
fn subnormals() {
    taken(&[pull(LEAST)], [0.0, LEAST], [0, 1]);
    // 25·0.02 rounds up, since the double 0.02 lies above 1/50; 24·0.02 rounds down.
    taken(&[pull(25.0 * LEAST)], [0.0, 0.0], [0, 1]);
    taken(&[pull(24.0 * LEAST)], [0.0, 0.0], [0, 0]);
    taken(&[pull(75.0 * LEAST)], [-LEAST, LEAST], [1 << 63 | 1, 3]);
    taken(&[], [LEAST, 25.0 * LEAST], [2, 25]);
    let greatest = f64::from_bits(0x000f_ffff_ffff_ffff);
    let to = [0x0000538ef34d6a16, 0x001051eb851eb851];
    taken(&[pull(f64::MIN_POSITIVE)], [0.0, greatest], to);
}

#[test]
fn overflow() {
    refused(&[pull(MAX), pull(MAX), pull(-MAX)], [0.0, 0.0]);
    refused(&[pull(MAX), pull(MAX), spring(1e300, -1e300)], [0.0, 0.0]);
    refused(&[spring(1e-300, MAX)], [-MAX, 0.0]);
    refused(&[drag(1e200)], [0.0, 1e200]);
    refused(&[pull(MAX)], [0.0, MAX]);
    refused(&[], [MAX, 1e300]);
    refused(&[], [-MAX, -1e300]);
    let to = [0x7f3a36e2eb1c432c, 0x7f947ae147ae147a];
    taken(&[pull(MAX), pull(-MAX), pull(MAX)], [0.0, 0.0], to);
    taken(&[pull(MAX), spring(1.0, -MAX)], [0.0, 0.0], [0, 0]);
    taken(&[], [MAX, 1e290], [MAX.to_bits(), 1e290f64.to_bits()]);
}

/// Each of these numbers, a signalling one too.
const NOT_FINITE: [f64; 4] =
    [f64::INFINITY, f64::NEG_INFINITY, f64::NAN, f64::from_bits(0xfff0_0000_0000_0001)];

#[test]
fn numbers_that_are_not_finite() {
    for wrong in NOT_FINITE {
        refused(&[], [wrong, 0.0]);
        refused(&[], [0.0, wrong]);
        refused(&[pull(wrong)], [0.0, 0.0]);
        refused(&[spring(wrong, 1.0)], [1.0, 0.0]);
        refused(&[spring(0.0, wrong)], [0.0, 0.0]);
        refused(&[drag(wrong)], [0.0, 0.0]);
        refused(&[pull(1.0), drag(0.5), pull(wrong)], [0.0, 1.0]);
    }
}

#[test]
fn an_unused_number_is_not_asked() {
    let to = [0x3f3a36e2eb1c432d, 0x3f947ae147ae147b];
    for unused in NOT_FINITE {
        taken(&[(0, 1.0, unused)], [0.0, 0.0], to);
        taken(&[(2, 0.5, unused), (0, 1.0, unused)], [0.0, 0.0], to);
    }
}

#[test]
fn a_kind_above_2() {
    for kind in [3, 4, 255, 256, 257, 1 << 16, 1 << 31, u32::MAX] {
        refused(&[(kind, 1.0, 1.0)], [0.0, 0.0]);
        refused(&[pull(1.0), drag(1.0), (kind, 0.0, 0.0)], [0.0, 0.0]);
    }
}

#[test]
fn lengths_before_all_else() {
    let room = |kinds: &[u32], numbers: &[f64], point: &[f64]| {
        let bits: Vec<u64> = point.iter().map(|number| number.to_bits()).collect();
        assert_eq!(call(kinds, numbers, point), (ROOM, bits), "{kinds:?} {numbers:?} {point:?}");
    };
    for len in [0, 1, 3, 4] {
        room(&[], &[], &vec![0.5; len]);
        room(&[0], &[1.0, 1.0], &vec![0.5; len]);
        room(&[7], &[f64::NAN, 1.0], &vec![f64::NAN; len]);
        room(&[0], &vec![1.0; len], &[0.0, 0.0]);
        room(&[0, 0, 0], &vec![f64::NAN; len], &[0.0, f64::NAN]);
        room(&[3; 9], &vec![1.0; 17 + 2 * (len % 2)], &[0.0, 0.0]);
    }
    room(&[], &[1.0], &[0.0, 0.0]);
    room(&[], &[1.0, 1.0], &[0.0, 0.0]);
}

/// "with no forces the speed keeps its numeric value".
#[test]
fn speed_without_forces() {
    let mut random = Random::new(802);
    let (mut done, mut pair) = (0, Vec::new());
    for other in others() {
        pair.push(Pair::new(other));
    }
    for _ in 0..2000 {
        let [place, speed] = [(); 2].map(|()| f64::from_bits(random.word()));
        let act = Act::RopeStep { kinds: vec![], numbers: vec![], point: vec![place, speed] };
        for pair in &mut pair {
            let answer = pair.act(&act).expect("no difference").expect("a call");
            assert!(answer.number == ROPE || f64::from_bits(answer.out[1]) == speed);
            done += u32::from(answer.number == DONE);
        }
    }
    assert!(done > 1000);
}

#[test]
fn runs_are_equal_and_every_number_occurs() {
    for other in others() {
        let mut coverage = Coverage::default();
        for seed in 0..400 {
            let run = run_of_ropes(other, seed);
            coverage.add(&run.coverage);
            if run.difference.is_some() {
                let acts = shrink(other, run.acts);
                let difference = first_difference(other, &acts).unwrap_or_default();
                panic!("seed {seed}, {}: {acts:#?}\n{difference}", other.name());
            }
        }
        println!("{}, {} calls", other.name(), coverage.calls());
        assert_eq!(coverage.missing_of("rope_step"), []);
        assert_eq!(coverage.impossible(), []);
    }
}
