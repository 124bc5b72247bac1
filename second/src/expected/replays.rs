//! Replay: document 01's examples, refusals, and a walk through the practice yard.

use super::session::{replay, title, Session};
use super::Paper;
use crate::worlds::record;

/// Records of carrier 0: the step and the lever.
const TURNS: [(u32, u8); 25] = [
    (0, 1),
    (1, 9),
    (3, 5),
    (4, 9),
    (8, 5),
    (20, 1),
    (30, 5),
    (31, 1),
    (40, 3),
    (60, 1),
    (80, 7),
    (90, 6),
    (104, 9),
    (120, 8),
    (140, 4),
    (150, 2),
    (160, 0),
    (180, 7),
    (186, 9),
    (200, 2),
    (230, 5),
    (236, 3),
    (240, 8),
    (270, 9),
    (290, 5),
];

const STOPS: [u32; 16] = [0, 1, 8, 9, 28, 29, 32, 33, 34, 46, 98, 104, 125, 155, 190, 300];

pub fn write(paper: &Paper) {
    replays(paper);
    walk(paper);
}

fn replays(paper: &Paper) {
    title(paper, "replay: the program's two examples, 13, and 13 before 5");
    let [first, second] = [record(0, 0, 1), record(2, 0, 9)];
    let two = [&first[..], &second].concat();
    let descending = [&second[..], &first].concat();
    replay(paper, 3, &two);
    replay(paper, 0, &[]);
    replay(paper, 2, &two);
    replay(paper, 180_000, &two);
    replay(paper, 180_001, &two);
    replay(paper, 3, &first[..7]);
    replay(paper, 3, &record(0, 1, 1));
    replay(paper, 3, &descending);
    replay(paper, 180_001, &record(0, 0, 10));
}

fn walk(paper: &Paper) {
    title(paper, "a walk of 300 steps: the wall, each edge of the yard, every lever");
    let mut k = Session::practice(paper, 0);
    for (step, lever) in TURNS {
        k = k.deliver(step, 0, lever);
    }
    for stop in STOPS {
        k.replay(stop);
    }
}
