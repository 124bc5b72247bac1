//! 'Two stations, one log' (document 02, §9): the program of `wuthracomb merge`.

use crate::numbers::DONE;
use crate::Station;

/// The bytes of a log buffer.
const BYTES: usize = 16_384;

/// Where no world is given, B is taken as this.
const CARRIERS: u32 = 32;

/// The merged log; nothing where the merge is refused.
pub fn written(station: &dyn Station, one: &[u8], two: &[u8]) -> Vec<u8> {
    let (mut log, mut count) = (vec![0; BYTES], [0]);
    match station.merge(CARRIERS, one, two, &mut log, &mut count) {
        DONE => log[..8 * count[0] as usize].to_vec(),
        _ => Vec::new(),
    }
}
