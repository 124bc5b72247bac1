//! 'The program': a log in the practice yard.

use crate::numbers::DONE;
use crate::station::Lent;
use crate::worlds::World;
use crate::Station;
use std::fmt::Write;

/// More bytes of input than this are refused.
const MOST_BYTES: usize = 16_384;

/// What the program writes for this input.
pub fn written(station: &dyn Station, log: &[u8]) -> String {
    let refused = "refused 13\n".to_string();
    if log.len() > MOST_BYTES || station.log_sound(log) == 0 {
        return refused;
    }
    let steps = past_the_last(station, log);
    replayed(station, log, steps).unwrap_or(refused)
}

/// One step past the last record's; 0 for an empty log.
fn past_the_last(station: &dyn Station, log: &[u8]) -> u32 {
    let mut record = [0; 3];
    match log.last_chunk::<8>() {
        Some(last) if station.read_record(last, &mut record) == DONE => record[0] + 1,
        _ => 0,
    }
}

/// `steps N` and a line for each carrier, after so many steps in the practice yard.
fn replayed(station: &dyn Station, log: &[u8], steps: u32) -> Option<String> {
    let world = World::practice();
    let mut buffers = world.lend();
    let number = station.replay(world.shape, steps, &mut Lent::of(&mut buffers), log);
    (number == DONE).then(|| {
        let carriers = buffers.state.chunks(buffers.state.len() / world.shape.b as usize);
        let mut text = format!("steps {steps}\n");
        for (number, words) in carriers.enumerate() {
            write!(text, "{number}").unwrap();
            words.iter().for_each(|word| write!(text, " {word}").unwrap());
            text.push('\n');
        }
        text
    })
}
