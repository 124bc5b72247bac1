//! A session whose calls write a line each, as `crates/test_desk` does.

use super::answers::refusal;
use super::digest::bytes_of;
use super::Paper;
use crate::act::Buffers;
use crate::model::fnv1a;
use crate::numbers::{DONE, HELD, TAKEN};
use crate::station::{word, Lent, Shape};
use crate::worlds::{record, World};

/// Each call gives the session after it, so that one session can go on in several ways.
#[derive(Clone)]
pub struct Session<'p> {
    paper: &'p Paper<'p>,
    world: World,
    pub lent: Buffers,
    /// Lines say where nothing changed.
    tells_change: bool,
}

/// What a session's clock has beside its readings.
fn clock_words(session: &[u64]) -> String {
    let [steps, remainder, cut] = [word::STEPS, word::REMAINDER, word::CUT].map(|k| session[k]);
    format!(" steps {steps} remainder {remainder} cut {cut}")
}

/// A title line.
pub fn title(paper: &Paper, text: &str) {
    paper.line(format_args!("# {text}"));
}

/// A log replayed in the practice yard: the state's words, and the digest of the steps and them.
pub fn replay(paper: &Paper, steps: u32, log: &[u8]) {
    let world = World::practice();
    let mut lent = sevens(&world);
    let before = lent.state.clone();
    let answer = match paper.station.replay(world.shape, steps, &mut Lent::of(&mut lent), log) {
        DONE => {
            let words: String = lent.state.iter().map(|word| format!(" {word}")).collect();
            format!("{words}, digest {:08x}", digest_of(steps, &lent.state))
        }
        number => refusal(number),
    };
    let same = digest_of(steps, &before) == digest_of(steps, &lent.state);
    let ended = if same { ", nothing changed" } else { "" };
    paper.line(format_args!("replay {steps} of bytes {}:{answer}{ended}", log.len()));
}

fn digest_of(steps: u32, state: &[i32]) -> u32 {
    fnv1a(steps.to_le_bytes().into_iter().chain(bytes_of(state)))
}

/// What is lent before opening.
pub fn sevens(world: &World) -> Buffers {
    let mut lent = world.lend();
    lent.state.fill(7);
    lent.rows.fill(7);
    lent.log.fill(7);
    lent
}

impl<'p> Session<'p> {
    /// The practice yard, opened on buffers full of sevens.
    pub fn practice(paper: &'p Paper<'p>, first: u64) -> Session<'p> {
        let world = World::practice();
        let lent = sevens(&world);
        let closed = Session { paper, world, lent, tells_change: true };
        let World { shape, cells, boxes } = World::practice();
        closed.open(&format!("open the practice yard at {first}"), shape, first, &cells, &boxes)
    }

    /// Any world, opened on buffers full of sevens; its lines don't say where nothing changed.
    pub fn of(paper: &'p Paper<'p>, world: World, name: &str) -> Session<'p> {
        let closed = Session { paper, lent: sevens(&world), world, tells_change: false };
        let World { shape, cells, boxes } = closed.world.clone();
        closed.open(name, shape, 0, &cells, &boxes)
    }

    /// One number of all lent bytes and words that a call may change.
    fn whole(&self) -> u32 {
        let Buffers { state, rows, log, .. } = &self.lent;
        fnv1a(bytes_of(state).chain(bytes_of(rows)).chain(log.iter().copied()))
    }

    fn say(&self, before: &Session, call: &str, answer: String) {
        let same = self.tells_change && self.whole() == before.whole();
        let ended = if same { ", nothing changed" } else { "" };
        self.paper.line(format_args!("{call}:{answer}{ended}"));
    }

    /// The answer of opening or a reading.
    fn running(&self, number: u32) -> String {
        match number {
            DONE => clock_words(&self.lent.session),
            number => refusal(number),
        }
    }

    /// Opening of any world on the buffers as they are.
    pub fn open(
        &self,
        call: &str,
        shape: Shape,
        first: u64,
        cells: &[u8],
        boxes: &[i32],
    ) -> Session<'p> {
        let mut next = self.clone();
        let mut lent = Lent::of(&mut next.lent);
        lent.cells = cells;
        lent.boxes = boxes;
        let number = self.paper.station.open(shape, first, &mut lent);
        next.say(self, call, next.running(number));
        next
    }

    fn read(&self, reading: u64) -> (Session<'p>, u32) {
        let mut next = self.clone();
        let number = self.paper.station.reading(reading, &mut Lent::of(&mut next.lent));
        (next, number)
    }

    pub fn reading(&self, reading: u64) -> Session<'p> {
        let (next, number) = self.read(reading);
        next.say(self, &format!("reading {reading}"), next.running(number));
        next
    }

    /// 100 steps made; a line for the last reading alone.
    pub fn hundred(&self) -> Session<'p> {
        let mut most = self.clone();
        for reading in 1..8 {
            most = most.read(250_000 * reading).0;
        }
        most.reading(2_000_000)
    }

    fn hand(&self, bytes: &[u8]) -> (Session<'p>, u32) {
        let mut next = self.clone();
        let number = self.paper.station.deliver(bytes, &mut Lent::of(&mut next.lent));
        (next, number)
    }

    fn delivered(&self, call: &str, bytes: &[u8]) -> Session<'p> {
        let (next, number) = self.hand(bytes);
        let held = next.lent.session[word::HELD];
        let answer = match number {
            TAKEN => format!(" TAKEN, held {held}"),
            HELD => format!(" HELD, held {held}"),
            number => refusal(number),
        };
        next.say(self, call, answer);
        next
    }

    pub fn deliver(&self, step: u32, carrier: u8, lever: u8) -> Session<'p> {
        let call = format!("deliver {step} {carrier} {lever}");
        self.delivered(&call, &record(step, carrier, lever))
    }

    pub fn deliver_bytes(&self, name: &str, bytes: &[u8]) -> Session<'p> {
        self.delivered(&format!("deliver {name}"), bytes)
    }

    /// A delivery with no line.
    pub fn put(&self, step: u32, carrier: u8, lever: u8) -> Session<'p> {
        self.hand(&record(step, carrier, lever)).0
    }

    /// The digest, and one of all that is lent.
    pub fn digest(&self) {
        self.digest_as("");
    }

    pub fn digest_as(&self, name: &str) {
        let mut out = [0];
        let mut lent = self.lent.clone();
        let answer = match self.paper.station.digest(&Lent::of(&mut lent), &mut out) {
            DONE => format!(" {:08x}", out[0]),
            number => refusal(number),
        };
        self.paper.line(format_args!("{name}digest:{answer}, all lent {:08x}", self.whole()));
    }

    /// The bit patterns of the shown place.
    pub fn shown(&self, carrier: u32) {
        let mut out = [0.0f64; 2];
        let mut lent = self.lent.clone();
        let answer = match self.paper.station.shown(carrier, &Lent::of(&mut lent), &mut out) {
            DONE => format!(" {:016x} {:016x}", out[0].to_bits(), out[1].to_bits()),
            number => refusal(number),
        };
        self.paper.line(format_args!("shown {carrier}:{answer}"));
    }

    /// The held part of the log, replayed.
    pub fn replay(&self, steps: u32) {
        let held = self.lent.session[word::HELD] as usize;
        replay(self.paper, steps, &self.lent.log[..8 * held]);
    }

    /// The session with other words.
    pub fn with(&self, change: impl FnOnce(&mut Buffers)) -> Session<'p> {
        let mut next = self.clone();
        change(&mut next.lent);
        next
    }

    /// The clock's words other than the first reading, which is 0.
    pub fn with_clock(&self, last: u64, remainder: u64, cut: u64, steps: u64) -> Session<'p> {
        self.with(|lent| {
            lent.session[word::FIRST..=word::STEPS]
                .copy_from_slice(&[0, last, remainder, cut, steps]);
        })
    }

    /// The words that [`Session::with_clock`] left, as a line names them.
    pub fn clock_name(&self) -> String {
        format!("last {}{}, ", self.lent.session[word::LAST], clock_words(&self.lent.session))
    }

    /// Another lever of carrier 0 in a row.
    pub fn with_row(&self, row: usize, lever: i32) -> Session<'p> {
        self.with(|lent| lent.rows[row * lent.state.len() + 4] = lever)
    }

    /// Other first words of the state.
    pub fn with_state(&self, words: [i32; 5]) -> Session<'p> {
        self.with(|lent| lent.state[..5].copy_from_slice(&words))
    }
}
