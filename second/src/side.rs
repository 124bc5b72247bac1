//! One station with the slices that are lent to it, each ending at a guard.

use crate::act::{Act, Buffers, Short, Slice};
use crate::guarded::Guarded;
use crate::station::{Lent, Station};
use std::fmt;

/// What a call gave: its number, and the words of the slices of its own that it writes, as 64 bits
/// (f64 by bit pattern).
#[derive(Clone, PartialEq)]
pub struct Answer {
    pub number: u32,
    pub out: Vec<u64>,
    /// No word of those slices has changed.
    pub out_as_before: bool,
    /// Bytes lent to be read, or standing before a slice, have changed.
    pub harm: bool,
}

impl fmt::Debug for Answer {
    fn fmt(&self, f: &mut fmt::Formatter) -> fmt::Result {
        let harm = if self.harm { ", changing bytes that are not its own" } else { "" };
        write!(f, "{} {:?}{harm}", self.number, Short(&self.out))
    }
}

/// What the words of an `out` slice are before a call, cut to their width.
const BEFORE: u64 = 0x5A5A_5A5A_5A5A_5A5A;

pub struct Side<'s> {
    station: &'s dyn Station,
    pub cells: Guarded<u8>,
    pub boxes: Guarded<i32>,
    pub state: Guarded<i32>,
    pub rows: Guarded<i32>,
    pub log: Guarded<u8>,
    pub session: Guarded<u64>,
    kept: Option<Buffers>,
}

/// Words of a slice, as 64 bits and back.
trait Word: Copy + Default {
    fn cut(word: u64) -> Self;
    fn bits(self) -> u64;
}

macro_rules! word {
    ($($t:ty)*) => {$(
        impl Word for $t {
            fn cut(word: u64) -> Self {
                word as $t
            }
            fn bits(self) -> u64 {
                self as u64
            }
        }
    )*};
}
word!(u8 i32 u32 u64);

impl Word for f64 {
    fn cut(word: u64) -> Self {
        f64::from_bits(word)
    }
    fn bits(self) -> u64 {
        self.to_bits()
    }
}

impl<'s> Side<'s> {
    pub fn new(station: &'s dyn Station) -> Side<'s> {
        Side {
            station,
            cells: Guarded::new(&[]),
            boxes: Guarded::new(&[]),
            state: Guarded::new(&[]),
            rows: Guarded::new(&[]),
            log: Guarded::new(&[]),
            session: Guarded::new(&[]),
            kept: None,
        }
    }

    /// A copy of what is lent.
    pub fn buffers(&self) -> Buffers {
        Buffers {
            cells: self.cells.to_vec(),
            boxes: self.boxes.to_vec(),
            state: self.state.to_vec(),
            rows: self.rows.to_vec(),
            log: self.log.to_vec(),
            session: self.session.to_vec(),
        }
    }

    /// The first slice, by name, in which what is lent isn't this.
    pub fn differs(&self, other: &Buffers) -> Option<&'static str> {
        let same = [
            ("cells", *self.cells == other.cells),
            ("boxes", *self.boxes == other.boxes),
            ("state", *self.state == other.state),
            ("rows", *self.rows == other.rows),
            ("log", *self.log == other.log),
            ("session", *self.session == other.session),
        ];
        same.iter().find(|(_, same)| !same).map(|(name, _)| *name)
    }

    pub fn canaries_are_whole(&self) -> bool {
        self.cells.canary_is_whole()
            && self.boxes.canary_is_whole()
            && self.state.canary_is_whole()
            && self.rows.canary_is_whole()
            && self.log.canary_is_whole()
            && self.session.canary_is_whole()
    }

    fn lend(&mut self, buffers: &Buffers) {
        lend(&mut self.cells, &buffers.cells);
        lend(&mut self.boxes, &buffers.boxes);
        lend(&mut self.state, &buffers.state);
        lend(&mut self.rows, &buffers.rows);
        lend(&mut self.log, &buffers.log);
        lend(&mut self.session, &buffers.session);
    }

    pub fn len(&self, slice: Slice) -> usize {
        match slice {
            Slice::Cells => self.cells.len(),
            Slice::Boxes => self.boxes.len(),
            Slice::State => self.state.len(),
            Slice::Rows => self.rows.len(),
            Slice::Log => self.log.len(),
            Slice::Session => self.session.len(),
        }
    }

    fn buffer(&mut self, slice: Slice) -> &mut dyn Buffer {
        match slice {
            Slice::Cells => &mut self.cells,
            Slice::Boxes => &mut self.boxes,
            Slice::State => &mut self.state,
            Slice::Rows => &mut self.rows,
            Slice::Log => &mut self.log,
            Slice::Session => &mut self.session,
        }
    }

    fn call(&mut self, entry: impl FnOnce(&dyn Station, &mut Lent) -> u32) -> u32 {
        let mut lent = Lent {
            cells: &self.cells,
            boxes: &self.boxes,
            state: &mut self.state,
            rows: &mut self.rows,
            log: &mut self.log,
            session: &mut self.session,
        };
        entry(self.station, &mut lent)
    }

    /// Does what is asked; the answer, if it was a call.
    pub fn act(&mut self, act: &Act) -> Option<Answer> {
        let station = self.station;
        let answer = match act {
            Act::Open { yard, reading } => {
                number(self.call(|station, lent| station.open(*yard, *reading, lent)))
            }
            Act::Reading(reading) => {
                number(self.call(|station, lent| station.reading(*reading, lent)))
            }
            Act::Deliver(record) => reading(record, |record| {
                number(self.call(|station, lent| station.deliver(record, lent)))
            }),
            Act::Replay { yard, steps, log } => reading(log, |log| {
                number(self.call(|station, lent| station.replay(*yard, *steps, lent, log)))
            }),
            Act::Digest { out } => writing(*out, |out: &mut [u32]| {
                self.call(|station, lent| station.digest(lent, out))
            }),
            Act::Shown { carrier, out } => writing(*out, |out: &mut [f64]| {
                self.call(|station, lent| station.shown(*carrier, lent, out))
            }),
            Act::RopeStep { kinds, numbers, point } => reading(kinds, |kinds| {
                reading(numbers, |numbers| {
                    changing(point, |point| station.rope_step(kinds, numbers, point))
                })
            }),
            Act::ReadRecord { record, out } => {
                reading(record, |record| writing(*out, |out| station.read_record(record, out)))
            }
            Act::WriteRecord { step, carrier, lever, out } => {
                writing(*out, |out| station.write_record(*step, *carrier, *lever, out))
            }
            Act::LogSound(log) => reading(log, |log| number(station.log_sound(log))),
            Act::StepRecords { log, step, out } => {
                reading(log, |log| writing(*out, |out| station.step_records(log, *step, out)))
            }
            Act::Merge { b, one, two, out, count } => reading(one, |one| {
                reading(two, |two| {
                    writing_both([*out, *count], |out, count| {
                        station.merge(*b, one, two, out, count)
                    })
                })
            }),
            Act::LoadStep { stiffness, load } => {
                changing(load, |load| station.load_step(*stiffness, load))
            }
            between => {
                self.between(between);
                return None;
            }
        };
        Some(answer)
    }

    /// What the caller does between calls.
    fn between(&mut self, act: &Act) {
        match act {
            Act::Lend(buffers) => self.lend(buffers),
            Act::Put { slice, at, words } => self.buffer(*slice).put(*at, words),
            Act::Resize { slice, len } => self.buffer(*slice).resize(*len),
            Act::Keep => self.kept = Some(self.buffers()),
            Act::Restore => {
                if let Some(kept) = self.kept.take() {
                    self.lend(&kept);
                    self.kept = Some(kept);
                }
            }
            _ => {}
        }
    }
}

fn lend<T: Copy>(buffer: &mut Guarded<T>, words: &[T]) {
    if buffer.len() == words.len() {
        buffer.copy_from_slice(words);
    } else {
        *buffer = Guarded::new(words);
    }
}

/// A slice of whatever words, as the caller changes it between calls.
trait Buffer {
    fn put(&mut self, at: usize, words: &[u64]);
    fn resize(&mut self, len: usize);
}

impl<T: Word> Buffer for Guarded<T> {
    fn put(&mut self, at: usize, words: &[u64]) {
        for (place, word) in self.iter_mut().skip(at).zip(words) {
            *place = T::cut(*word);
        }
    }

    fn resize(&mut self, len: usize) {
        let mut words = self.to_vec();
        words.resize(len, T::default());
        *self = Guarded::new(&words);
    }
}

fn number(number: u32) -> Answer {
    Answer { number, out: Vec::new(), out_as_before: true, harm: false }
}

/// A call that only reads these words.
fn reading<T: Word>(words: &[T], call: impl FnOnce(&[T]) -> Answer) -> Answer {
    let lent = Guarded::new(words);
    let mut answer = call(&lent);
    answer.harm |= bits(&lent) != bits(words) || !lent.canary_is_whole();
    answer
}

/// A call that writes its answer into a slice of this length.
fn writing<T: Word>(len: usize, call: impl FnOnce(&mut [T]) -> u32) -> Answer {
    changing(&vec![T::cut(BEFORE); len], call)
}

/// A call that writes its answer into two slices of these lengths, told one after the other.
fn writing_both<T: Word, U: Word>(
    lens: [usize; 2],
    call: impl FnOnce(&mut [T], &mut [U]) -> u32,
) -> Answer {
    let mut second = number(0);
    let mut answer = writing(lens[0], |one| {
        second = writing(lens[1], |two| call(one, two));
        second.number
    });
    answer.out.append(&mut second.out);
    answer.out_as_before &= second.out_as_before;
    answer.harm |= second.harm;
    answer
}

/// A call that changes a slice with these words.
fn changing<T: Word>(words: &[T], call: impl FnOnce(&mut [T]) -> u32) -> Answer {
    let mut lent = Guarded::new(words);
    let number = call(&mut lent);
    let out = bits(&lent);
    let out_as_before = out == bits(words);
    Answer { number, out, out_as_before, harm: !lent.canary_is_whole() }
}

fn bits<T: Word>(words: &[T]) -> Vec<u64> {
    words.iter().map(|word| word.bits()).collect()
}
