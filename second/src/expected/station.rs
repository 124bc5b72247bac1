//! Of `second/examples/station.c` and `station.rs`: a session of the practice yard.

use super::Paper;
use crate::act::Buffers;
use crate::numbers::DONE;
use crate::station::{word, Lent};
use crate::worlds::World;

struct Yard<'p> {
    paper: &'p Paper<'p>,
    world: World,
    lent: Buffers,
}

pub fn write(paper: &Paper) {
    let world = World::practice();
    let lent = world.lend();
    let mut yard = Yard { paper, world, lent };
    yard.open();
    yard.deliver(0, 0, 1);
    yard.read_clock(100_000);
    yard.read_clock(110_000);
    yard.shown();
    yard.deliver(2, 0, 9);
    yard.deliver(2, 0, 9);
    yard.deliver(2, 0, 3);
    yard.digest();
    yard.replay(5);
    yard.digest();
    yard.read_clock(5000);
}

impl Yard<'_> {
    fn state(&self) {
        let names = ["x", "y", "u", "v", "lever"];
        let words = names.iter().zip(&self.lent.state);
        let words: String = words.map(|(name, word)| format!(" {name} {word}")).collect();
        self.paper.line(format_args!("  carrier 0:{words}"));
    }

    fn open(&mut self) {
        let number = self.paper.station.open(self.world.shape, 0, &mut Lent::of(&mut self.lent));
        self.paper.line(format_args!("open: {number}"));
        self.state();
    }

    fn read_clock(&mut self, reading: u64) {
        let number = self.paper.station.reading(reading, &mut Lent::of(&mut self.lent));
        let [steps, remainder] = [word::STEPS, word::REMAINDER].map(|k| self.lent.session[k]);
        let clock = format_args!("steps {steps}, remainder {remainder}").to_string();
        self.paper.line(format_args!("reading {reading}: {number}, {clock}"));
        self.state();
    }

    fn deliver(&mut self, step: u32, carrier: u32, lever: u32) {
        let mut record = [0; 8];
        assert_eq!(self.paper.station.write_record(step, carrier, lever, &mut record), DONE);
        let number = self.paper.station.deliver(&record, &mut Lent::of(&mut self.lent));
        let name = format!("deliver step {step} carrier {carrier} lever {lever}");
        self.paper.line(format_args!("{name}: {number}"));
        self.state();
    }

    fn shown(&mut self) {
        let mut place = [0.0; 2];
        let number = self.paper.station.shown(0, &Lent::of(&mut self.lent), &mut place);
        self.paper.line(format_args!("shown: {number}, {:.3} {:.3}", place[0], place[1]));
    }

    fn digest(&mut self) {
        let mut digest = [0];
        let number = self.paper.station.digest(&Lent::of(&mut self.lent), &mut digest);
        self.paper.line(format_args!("digest: {number}, {:08x}", digest[0]));
    }

    /// Of the held part of the log only.
    fn replay(&mut self, steps: u32) {
        let held = self.lent.session[word::HELD] as usize * 8;
        let log = self.lent.log[..held].to_vec();
        let lent = &mut Lent::of(&mut self.lent);
        let number = self.paper.station.replay(self.world.shape, steps, lent, &log);
        self.paper.line(format_args!("replay to {steps} steps: {number}"));
        self.state();
    }
}
