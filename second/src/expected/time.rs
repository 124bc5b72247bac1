//! 'The clock' and the shown place: readings.

use super::session::{title, Session};
use super::Paper;

pub fn write(paper: &Paper) {
    grouped(paper);
    cut(paper);
    backward(paper);
    end(paper);
    between(paper);
}

fn grouped(paper: &Paper) {
    title(paper, "readings 0, 7000, 14000, 21000 do as 0, 21000; an equal one makes no step");
    let many = Session::practice(paper, 0).deliver(0, 0, 1).reading(7000).reading(14_000);
    let all = many.reading(21_000).reading(21_000);
    all.digest();
    all.shown(0);
    let one = Session::practice(paper, 0).deliver(0, 0, 1).reading(21_000);
    one.digest();
    one.shown(0);
}

fn cut(paper: &Paper) {
    title(paper, "what a gap has above 250000 is cut, and nothing of the remainder");
    let k = Session::practice(paper, 1000).reading(251_001).reading(501_001);
    k.reading(u64::MAX).digest();
    Session::practice(paper, 0).reading(19_999).reading(269_999).digest();
}

fn backward(paper: &Paper) {
    title(paper, "a reading below the last");
    let k = Session::practice(paper, 5000).deliver(0, 0, 1).reading(255_000);
    k.digest();
    k.reading(254_999).reading(0).digest();
}

/// A sound session of 179,990 steps that no opening made: its rows hold zeros.
fn end(paper: &Paper) {
    title(paper, "179990 steps made: eleven due are refused whole, ten are made");
    let k = Session::practice(paper, 0).deliver(179_995, 0, 2);
    let k = k.with_clock(3_599_800_000, 0, 0, 179_990);
    k.digest();
    let k = k.reading(3_600_020_000).reading(3_600_000_000);
    k.digest();
    let k = k.reading(3_600_019_999).reading(3_600_020_000);
    k.digest();
    k.deliver(179_935, 0, 3).deliver(179_936, 0, 3).digest();
}

fn between(paper: &Paper) {
    title(paper, "p 12, c 36, remainder 10000: shown 24.0; p where the remainder is 0 or n is 0");
    let k = Session::practice(paper, 0).deliver(0, 0, 1);
    k.shown(0);
    let k = k.reading(10_000);
    k.shown(0);
    let k = k.reading(40_000);
    k.shown(0);
    let k = k.reading(50_000);
    k.shown(0);
    k.shown(1);
    k.reading(59_999).shown(0);
}
