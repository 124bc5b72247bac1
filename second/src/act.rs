//! What a run is made of: calls, and what the caller does to the slices between calls.

use crate::station::Shape;
use std::fmt;

/// The six lent slices as plain copies.
#[derive(Clone, PartialEq, Default)]
pub struct Buffers {
    pub cells: Vec<u8>,
    pub boxes: Vec<i32>,
    pub state: Vec<i32>,
    pub rows: Vec<i32>,
    pub log: Vec<u8>,
    pub session: Vec<u64>,
}

/// Which of the six.
#[derive(Clone, Copy, Debug, PartialEq)]
pub enum Slice {
    Cells,
    Boxes,
    State,
    Rows,
    Log,
    Session,
}

pub const SLICES: [Slice; 6] =
    [Slice::Cells, Slice::Boxes, Slice::State, Slice::Rows, Slice::Log, Slice::Session];

#[derive(Clone)]
pub enum Act {
    /// The caller lends these from now on.
    Lend(Buffers),
    /// The caller writes words, each cut to the width of the slice; what lies outside is dropped.
    Put {
        slice: Slice,
        at: usize,
        words: Vec<u64>,
    },
    /// The caller lends this slice at another length, new words being 0.
    Resize {
        slice: Slice,
        len: usize,
    },
    /// The caller keeps a copy of all six, or lends the copy it kept.
    Keep,
    Restore,
    Open {
        yard: Shape,
        reading: u64,
    },
    Reading(u64),
    Deliver(Vec<u8>),
    Replay {
        yard: Shape,
        steps: u32,
        log: Vec<u8>,
    },
    /// `out` is the length of the slice for the answer, here and below.
    Digest {
        out: usize,
    },
    Shown {
        carrier: u32,
        out: usize,
    },
    RopeStep {
        kinds: Vec<u32>,
        numbers: Vec<f64>,
        point: Vec<f64>,
    },
    ReadRecord {
        record: Vec<u8>,
        out: usize,
    },
    WriteRecord {
        step: u32,
        carrier: u32,
        lever: u32,
        out: usize,
    },
    LogSound(Vec<u8>),
    StepRecords {
        log: Vec<u8>,
        step: u32,
        out: usize,
    },
    /// `out` and `count` are the lengths of the slices for the log and for its count.
    Merge {
        b: u32,
        one: Vec<u8>,
        two: Vec<u8>,
        out: usize,
        count: usize,
    },
    LoadStep {
        stiffness: u32,
        load: Vec<i32>,
    },
}

impl Act {
    /// The entry that is called, if one is.
    pub fn entry(&self) -> Option<&'static str> {
        match self {
            Act::Open { .. } => Some("open"),
            Act::Reading(_) => Some("reading"),
            Act::Deliver(_) => Some("deliver"),
            Act::Replay { .. } => Some("replay"),
            Act::Digest { .. } => Some("digest"),
            Act::Shown { .. } => Some("shown"),
            Act::RopeStep { .. } => Some("rope_step"),
            Act::ReadRecord { .. } => Some("read_record"),
            Act::WriteRecord { .. } => Some("write_record"),
            Act::LogSound(_) => Some("log_sound"),
            Act::StepRecords { .. } => Some("step_records"),
            Act::Merge { .. } => Some("merge"),
            Act::LoadStep { .. } => Some("load_step"),
            Act::Lend(_) | Act::Put { .. } | Act::Resize { .. } | Act::Keep | Act::Restore => None,
        }
    }
}

/// Words printed in short: equal neighbours are counted.
pub struct Short<'a, T>(pub &'a [T]);

impl<T: fmt::Debug + PartialEq> fmt::Debug for Short<'_, T> {
    fn fmt(&self, f: &mut fmt::Formatter) -> fmt::Result {
        write!(f, "[")?;
        for (k, run) in self.0.chunk_by(|a, b| a == b).enumerate() {
            let space = if k == 0 { "" } else { " " };
            match run.len() {
                1 => write!(f, "{space}{:?}", run[0])?,
                n => write!(f, "{space}{:?}*{n}", run[0])?,
            }
        }
        write!(f, "]")
    }
}

impl fmt::Debug for Buffers {
    fn fmt(&self, f: &mut fmt::Formatter) -> fmt::Result {
        write!(f, "cells {:?} boxes {:?}", Short(&self.cells), Short(&self.boxes))?;
        write!(f, " state {:?} rows {:?}", Short(&self.state), Short(&self.rows))?;
        write!(f, " log {:?} session {:?}", Short(&self.log), Short(&self.session))
    }
}

impl fmt::Debug for Act {
    fn fmt(&self, f: &mut fmt::Formatter) -> fmt::Result {
        match self {
            Act::Lend(buffers) => write!(f, "lend {buffers:?}"),
            Act::Put { slice, at, words } => write!(f, "put {slice:?} {at} {:?}", Short(words)),
            Act::Resize { slice, len } => write!(f, "resize {slice:?} to {len}"),
            Act::Keep => write!(f, "keep"),
            Act::Restore => write!(f, "restore"),
            Act::Open { yard: Shape { w, h, b }, reading } => {
                write!(f, "open {w} {h} {b} at {reading}")
            }
            Act::Reading(reading) => write!(f, "reading {reading}"),
            Act::Deliver(record) => write!(f, "deliver {:?}", Short(record)),
            Act::Replay { yard: Shape { w, h, b }, steps, log } => {
                write!(f, "replay {w} {h} {b} to {steps} of {:?}", Short(log))
            }
            Act::Digest { out } => write!(f, "digest into {out}"),
            Act::Shown { carrier, out } => write!(f, "shown {carrier} into {out}"),
            Act::RopeStep { kinds, numbers, point } => {
                write!(f, "rope_step of {point:?} by {kinds:?} {numbers:?}")
            }
            Act::ReadRecord { record, out } => {
                write!(f, "read_record {:?} into {out}", Short(record))
            }
            Act::WriteRecord { step, carrier, lever, out } => {
                write!(f, "write_record {step} {carrier} {lever} into {out}")
            }
            Act::LogSound(log) => write!(f, "log_sound {:?}", Short(log)),
            Act::StepRecords { log, step, out } => {
                write!(f, "step_records {step} of {:?} into {out}", Short(log))
            }
            Act::Merge { b, one, two, out, count } => {
                let [one, two] = [one, two].map(|log| Short(log));
                write!(f, "merge for {b} {one:?} and {two:?} into {out} and {count}")
            }
            Act::LoadStep { stiffness, load } => write!(f, "load_step {stiffness} of {load:?}"),
        }
    }
}
