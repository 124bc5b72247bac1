//! 'Going back': late records, repeats, orders, and the log when it is full.

use super::session::{title, Session};
use super::Paper;

pub fn write(paper: &Paper) {
    window(paper);
    held(paper);
    orders(paper);
    full(paper);
}

/// 100 steps made, and the carrier on its way.
fn under_way<'p>(paper: &'p Paper) -> Session<'p> {
    let k = Session::practice(paper, 0).deliver(0, 0, 1).deliver(30, 0, 4);
    k.deliver(60, 0, 9).deliver(92, 0, 8).hundred()
}

fn window(paper: &Paper) {
    title(paper, "100 steps made: step 36 is taken, step 35 is LATE; a repeat is HELD");
    let k = under_way(paper);
    k.digest();
    let k = k.deliver(35, 0, 7);
    k.digest();
    let k = k.deliver(36, 0, 7);
    k.digest();
    k.replay(100);
    let k = k.deliver(36, 0, 7);
    k.digest();
    k.reading(2_020_000).deliver(36, 0, 7).deliver(36, 0, 4).digest();
}

fn held(paper: &Paper) {
    title(paper, "100 steps made, step 35 already held: the same lever is HELD, another 6");
    let k = Session::practice(paper, 0).deliver(35, 0, 3).deliver(90, 0, 8).hundred();
    k.digest();
    k.deliver(35, 0, 3).deliver(35, 0, 4).digest();
}

fn orders(paper: &Paper) {
    title(paper, "two late records, in both orders");
    let k = under_way(paper).deliver(40, 0, 6).deliver(95, 0, 9);
    k.digest();
    k.replay(100);
    let k = under_way(paper).deliver(95, 0, 9).deliver(40, 0, 6);
    k.digest();
    k.reading(2_250_000).digest();
}

fn full(paper: &Paper) {
    title(paper, "2048 held: another is refused; 1, 6 and 7 come before 8");
    let mut k = Session::practice(paper, 0);
    for step in 100..2148 {
        k = k.put(step, 0, (step % 10) as u8);
    }
    k.digest();
    let k = k.deliver(2148, 0, 1).deliver(100, 0, 0).deliver(100, 0, 1).hundred();
    k.digest();
    let k = k.deliver(35, 0, 1).deliver(36, 0, 1).reading(2_100_000);
    k.digest();
    k.replay(105);
}
