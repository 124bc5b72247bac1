//! 'Numbers given back': records, worlds, lengths and sessions that are refused.

use super::session::{sevens, title, Session};
use super::Paper;
use crate::act::Buffers;
use crate::numbers::DONE;
use crate::station::{word, Lent, Shape};
use crate::worlds::{record, World};

pub fn write(paper: &Paper) {
    records(paper);
    worlds(paper);
    lengths(paper);
    sessions(paper);
    clocks(paper);
    rows(paper);
}

/// 12 steps made and one record held.
fn twelve<'p>(paper: &'p Paper) -> Session<'p> {
    let k = Session::practice(paper, 0).deliver(0, 0, 1).reading(250_000);
    k.digest();
    k
}

fn records(paper: &Paper) {
    title(paper, "2, 3, 4, 5, then 6");
    let k = twelve(paper);
    let k = k.deliver_bytes("7 bytes", &record(0, 0, 1)[..7]);
    let k = k.deliver_bytes("9 bytes", &[&record(0, 0, 1)[..], &[0]].concat());
    let mut tail = record(180_000, 1, 10);
    tail[7] = 1;
    let k = k.deliver_bytes("a last byte of 1", &tail);
    let k = k.deliver(180_000, 1, 10).deliver(180_000, 0, 10);
    let k = k.deliver(180_000, 0, 9).deliver(0, 0, 2);
    k.digest();
    k.deliver(179_999, 0, 9).digest();
}

/// Opening with W, H and B.
fn sized<'p>(k: &Session<'p>, w: u32, h: u32, b: u32) -> Session<'p> {
    let World { cells, boxes, .. } = World::practice();
    k.open(&format!("open with {w} {h} {b}"), Shape { w, h, b }, 0, &cells, &boxes)
}

fn celled<'p>(k: &Session<'p>, name: &str, cells: &[u8]) -> Session<'p> {
    let World { shape, boxes, .. } = World::practice();
    k.open(&format!("open with {name}"), shape, 0, cells, &boxes)
}

fn boxed<'p>(k: &Session<'p>, name: &str, boxes: &[i32]) -> Session<'p> {
    let World { shape, cells, .. } = World::practice();
    k.open(&format!("open with {name}"), shape, 0, &cells, boxes)
}

fn worlds(paper: &Paper) {
    title(paper, "9, and the session on these buffers goes on");
    let mut k = twelve(paper);
    for (w, h, b) in [(0, 3, 1), (65, 3, 1), (4, 0, 1), (4, 65, 1), (4, 3, 0), (4, 3, 33)] {
        k = sized(&k, w, h, b);
    }
    let k = celled(&k, "a cell of 2", &[0, 0, 0, 0, 0, 0, 0, 2, 0, 0, 0, 0]);
    let k = boxed(&k, "width 0", &[0, 256, 0, 256]);
    let k = boxed(&k, "height 1025", &[0, 0, 256, 1025]);
    let k = boxed(&k, "x -1", &[-1, 256, 256, 256]);
    let k = boxed(&k, "a carrier in the wall", &[513, 256, 256, 256]);
    k.digest();
}

fn lengths(paper: &Paper) {
    title(paper, "10, after the ranges and before the cells");
    let k = sized(&sized(&twelve(paper), 5, 3, 1), 4, 3, 2);
    let k = celled(&k, "two cells of 2", &[2, 2]);
    let k = boxed(&k, "three words of boxes", &[0, 256, 0]);
    k.digest();
    one_missing(paper, |lent| {
        lent.state.pop();
        format!("{} state words", lent.state.len())
    });
    one_missing(paper, |lent| {
        lent.rows.pop();
        format!("{} row words", lent.rows.len())
    });
    one_missing(paper, |lent| {
        lent.log.pop();
        format!("{} log bytes", lent.log.len())
    });
}

/// Opening with a word or a byte too few, by the name that `cut` gives.
fn one_missing(paper: &Paper, cut: fn(&mut Buffers) -> String) {
    let world = World::practice();
    let mut lent = sevens(&world);
    let name = cut(&mut lent);
    let number = paper.station.open(world.shape, 0, &mut Lent::of(&mut lent));
    assert_ne!(number, DONE);
    paper.line(format_args!("open with {name}: refused {number}"));
}

fn sessions(paper: &Paper) {
    title(paper, "14: the session or a buffer isn't sound");
    let k = twelve(paper);
    lever_ten(&k.with_state([0, 256, 0, 0, 10]));
    k.with_state([0, 256, 201, 0, 0]).digest_as("speed 201, ");
    k.with_state([513, 256, 0, 0, 0]).digest_as("in the wall, ");
    k.with(|lent| lent.log[16_383] = 1).digest_as("a last log byte of 1, ");
    k.with(|lent| lent.session[word::B] = 2).digest_as("B 2, ");
    for held in [0, 2, 2049, 1] {
        let name = format!("held {held}, ");
        k.with(|lent| lent.session[word::HELD] = held).digest_as(&name);
    }
}

fn lever_ten(k: &Session) {
    k.digest_as("lever 10, ");
    k.shown(1);
    k.reading(0).deliver_bytes("7 bytes", &record(0, 0, 1)[..7]).digest();
}

fn clocks(paper: &Paper) {
    title(paper, "14: the clock's words");
    let k = twelve(paper);
    for (last, remainder, cut, steps) in [
        (250_000, 10_000, 0, 12),
        (250_000, 10_000, 1, 12),
        (250_001, 10_000, 0, 12),
        (250_000, 30_000, 0, 11),
        (3_600_020_000, 0, 0, 180_001),
        (3_600_000_000, 0, 0, 180_000),
    ] {
        let k = k.with_clock(last, remainder, cut, steps);
        k.digest_as(&k.clock_name());
    }
}

fn rows(paper: &Paper) {
    title(paper, "14 for a row, only where it is used: lever 10 in rows 5 and 11");
    let k = twelve(paper).with_row(5, 10).with_row(11, 10);
    k.digest();
    k.shown(1);
    k.shown(0);
    let k = k.deliver(5, 0, 2).deliver(11, 0, 2).deliver(12, 0, 2);
    k.digest();
    let k = k.deliver(6, 0, 2);
    k.digest();
    k.shown(0);
    k.reading(270_000).deliver(11, 0, 9).digest();
}
