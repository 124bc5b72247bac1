//! Two carriers in the cells of the practice yard.

use super::session::{title, Session};
use super::Paper;
use crate::station::Shape;
use crate::worlds::World;

pub fn write(paper: &Paper) {
    title(paper, "two carriers, two late records, in both orders: levers come back with places");
    tell(&twelve(paper).deliver(5, 1, 4).deliver(6, 0, 1));
    let k = twelve(paper).deliver(6, 0, 1).deliver(5, 1, 4);
    tell(&k);
    tell(&k.deliver(5, 1, 4).deliver(5, 1, 5).deliver(5, 2, 4));
}

/// 12 steps made under two records for carrier 0.
fn twelve<'p>(paper: &'p Paper) -> Session<'p> {
    let shape = Shape { w: 4, h: 3, b: 2 };
    let boxes = vec![0, 256, 256, 256, 300, 100, 200, 100];
    let world = World { shape, boxes, ..World::practice() };
    let k = Session::of(paper, world, "open two carriers at 0");
    k.deliver(0, 0, 2).deliver(8, 0, 9).reading(250_000)
}

/// The digest, one of all that is lent, and both shown places.
fn tell(k: &Session) {
    k.digest();
    k.shown(0);
    k.shown(1);
}
