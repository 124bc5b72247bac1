//! `bench [ROUNDS]`: the library against the hand-written `fast`, interleaved, best of several.
//!
//! Without the library `fast` is measured against itself, which shows how much a ratio wavers.

use second::act::Buffers;
use second::fast::Fast;
use second::numbers::*;
use second::others;
use second::random::Random;
use second::station::{word, Lent, Shape, Station};
use second::worlds::{record, World};
use std::time::{Duration, Instant};

const YARD: Shape = Shape { w: 64, h: 64, b: 32 };
const STEPS: u64 = 180_000;
const RECORDS: u64 = 2048;
/// Steps made again by a delivery.
const BACK: u64 = 64;

fn main() {
    let rounds = std::env::args().nth(1).and_then(|word| word.parse().ok()).unwrap_or(25);
    let subject = others().pop().expect("a station");
    let ground = Ground::new();
    println!("best of {rounds}, 64 by 64 yard, 32 carriers, 2,048 records");
    println!("{:34}{:>12}{:>12}{:>8}{:>14}", "", subject.name(), "fast", "ratio", "steps/s");
    for line in LINES {
        let [subject, fast] = best_of(rounds, line, &ground, [subject, &Fast]);
        print_line(line, subject, fast);
    }
}

/// One line of the table: what is done `times` times, making so many steps each time.
struct Line {
    name: &'static str,
    /// The session that the work starts from.
    ready: fn(&Ground) -> Buffers,
    work: fn(&dyn Station, &mut Buffers, &Ground),
    times: u64,
    steps: u64,
}

const LINES: &[Line] = &[
    Line { name: "replay of 180,000 steps", ready: full, work: replay, times: 1, steps: STEPS },
    Line { name: "180,000 live steps", ready: full, work: live, times: 1, steps: STEPS },
    Line {
        name: "a delivery 64 steps back",
        ready: half,
        work: deliveries,
        times: 32,
        steps: BACK,
    },
    Line { name: "1,000 steps of a rope end", ready: full, work: rope, times: 20, steps: 0 },
    Line { name: "soundness of a full log", ready: full, work: log_sound, times: 500, steps: 0 },
    Line { name: "two logs of 1,024 merged", ready: full, work: merge, times: 500, steps: 0 },
    Line { name: "digest of a full session", ready: full, work: digest, times: 500, steps: 0 },
    Line { name: "1,000 steps of a hanging load", ready: full, work: load, times: 20, steps: 0 },
];

fn print_line(line: &Line, subject: Duration, fast: Duration) {
    let each = |time: Duration| format!("{:.2} us", time.as_secs_f64() * 1e6 / line.times as f64);
    let ratio = subject.as_secs_f64() / fast.as_secs_f64();
    print!("{:34}{:>12}{:>12}{ratio:>8.2}", line.name, each(subject), each(fast));
    match line.steps * line.times {
        0 => println!(),
        steps => println!("{:>14.0}", steps as f64 / subject.as_secs_f64()),
    }
}

/// The least time of each station, which take turns on the same memory.
fn best_of(
    rounds: u32,
    line: &Line,
    ground: &Ground,
    stations: [&dyn Station; 2],
) -> [Duration; 2] {
    let mut best = [Duration::MAX; 2];
    let ready = (line.ready)(ground);
    let mut buffers = ready.clone();
    let mut left = [(); 2].map(|()| Buffers::default());
    for _ in 0..rounds {
        for k in 0..2 {
            lend_again(&mut buffers, &ready);
            let start = Instant::now();
            (line.work)(stations[k], &mut buffers, ground);
            best[k] = best[k].min(start.elapsed());
            left[k] = buffers.clone();
        }
        assert!(left[0] == left[1], "{}: the two leave different words", line.name);
    }
    best
}

/// What the lines start from.
struct Ground {
    world: World,
    /// 2,048 records spread over a whole session.
    log: Vec<u8>,
    /// That log parted at random into two of equal length.
    parts: [Vec<u8>; 2],
    /// A session with that log, after opening.
    session: Buffers,
}

impl Ground {
    fn new() -> Ground {
        let mut random = Random::new(1);
        let world = World::with_walls(&mut random, YARD, 1);
        let stride = STEPS / RECORDS;
        let log = (0..RECORDS).flat_map(|k| {
            let step = k * stride + random.below(stride);
            record(step as u32, random.below(32) as u8, random.below(10) as u8)
        });
        let log: Vec<u8> = log.collect();
        let mut session = world.lend();
        assert_eq!(Fast.open(YARD, 0, &mut Lent::of(&mut session)), DONE);
        session.log.copy_from_slice(&log);
        session.session[word::HELD] = RECORDS;
        let parts = parted(&log, &mut random);
        Ground { world, log, parts, session }
    }
}

fn parted(log: &[u8], random: &mut Random) -> [Vec<u8>; 2] {
    let mut sides: Vec<usize> = (0..log.len() / 8).map(|k| k % 2).collect();
    random.shuffle(&mut sides);
    let mut parts = [Vec::new(), Vec::new()];
    for (record, side) in log.chunks(8).zip(sides) {
        parts[side].extend(record);
    }
    parts
}

/// The same memory with these words.
fn lend_again(buffers: &mut Buffers, words: &Buffers) {
    buffers.state.copy_from_slice(&words.state);
    buffers.rows.copy_from_slice(&words.rows);
    buffers.log.copy_from_slice(&words.log);
    buffers.session.copy_from_slice(&words.session);
}

/// As opened, with the whole log held.
fn full(ground: &Ground) -> Buffers {
    ground.session.clone()
}

/// After 80 steps, with half of the log held.
fn half(ground: &Ground) -> Buffers {
    let mut buffers = ground.session.clone();
    let half = buffers.log.len() / 2;
    buffers.log[half..].fill(0);
    buffers.session[word::HELD] = RECORDS / 2;
    for reading in 1..=8 {
        assert_eq!(Fast.reading(200_000 * reading, &mut Lent::of(&mut buffers)), DONE);
    }
    buffers
}

fn replay(station: &dyn Station, buffers: &mut Buffers, ground: &Ground) {
    let steps = STEPS as u32;
    let number = station.replay(ground.world.shape, steps, &mut Lent::of(buffers), &ground.log);
    assert_eq!(number, DONE);
}

/// Readings of 250,000 microseconds, 12 or 13 steps each.
fn live(station: &dyn Station, buffers: &mut Buffers, _: &Ground) {
    let mut lent = Lent::of(buffers);
    for reading in 1..=STEPS * 20_000 / 250_000 {
        assert_eq!(station.reading(250_000 * reading, &mut lent), DONE);
    }
}

/// A record for each carrier at a step 64 back.
fn deliveries(station: &dyn Station, buffers: &mut Buffers, _: &Ground) {
    let mut lent = Lent::of(buffers);
    let step = lent.session[word::STEPS] - BACK;
    for carrier in 0..32 {
        let record = record(step as u32, carrier, carrier % 10);
        assert_eq!(station.deliver(&record, &mut lent), TAKEN);
    }
}

/// Three forces; the point that is left goes into the session, where the two are compared.
fn rope(station: &dyn Station, buffers: &mut Buffers, _: &Ground) {
    let (kinds, numbers) = ([0, 1, 2], [-9.81, 0.0, 40.0, 1.5, 0.35, 0.0]);
    let mut point = [1.0, 0.0];
    for _ in 0..20_000 {
        assert_eq!(station.rope_step(&kinds, &numbers, &mut point), DONE);
    }
    buffers.session[..2].copy_from_slice(&point.map(f64::to_bits));
}

fn log_sound(station: &dyn Station, _: &mut Buffers, ground: &Ground) {
    for _ in 0..500 {
        assert_eq!(station.log_sound(&ground.log), 1);
    }
}

/// The merged log goes into the session's, where the two are compared.
fn merge(station: &dyn Station, buffers: &mut Buffers, ground: &Ground) {
    let [one, two] = &ground.parts;
    let count = &mut buffers.session[word::HELD..=word::HELD];
    for _ in 0..500 {
        assert_eq!(station.merge(YARD.b, one, two, &mut buffers.log, count), DONE);
    }
}

/// The load that is left goes into the state, where the two are compared.
fn load(station: &dyn Station, buffers: &mut Buffers, _: &Ground) {
    let mut load = [10_000, 0];
    for _ in 0..20_000 {
        assert_eq!(station.load_step(300, &mut load), DONE);
    }
    buffers.state[..2].copy_from_slice(&load);
}

fn digest(station: &dyn Station, buffers: &mut Buffers, _: &Ground) {
    let lent = Lent::of(buffers);
    for _ in 0..500 {
        assert_eq!(station.digest(&lent, &mut [0]), DONE);
    }
}
