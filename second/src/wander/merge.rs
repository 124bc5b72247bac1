//! Runs of mergings of two logs.

use super::Wander;
use crate::act::Act;
use crate::pair::Difference;

const MOST_RECORDS: u64 = 2048;
const LOG_BYTES: usize = 16_384;

/// Which of the two logs have a record.
#[derive(Clone, Copy, PartialEq)]
enum Of {
    One,
    Two,
    Both,
}

impl Wander<'_> {
    /// Mergings of two logs, mostly sound and mostly with the same lever where both have a record.
    pub fn merges(&mut self, times: u64) -> Result<(), Difference> {
        for _ in 0..times {
            let carriers = self.random.pick(&[self.carriers(), 1, 3, 32]);
            let [mut one, mut two] = self.two_logs(carriers);
            match self.random.below(8) {
                0 => one = self.damaged_log(one),
                1 => two = self.damaged_log(two),
                2 => [one, two] = [one, two].map(|log| self.damaged_log(log)),
                _ => {}
            }
            let (b, out, count) = (self.merged_b(carriers), self.buffer_len(), self.out(1));
            self.act(Act::Merge { b, one, two, out, count })?;
        }
        Ok(())
    }

    /// Two sound logs for so many carriers.
    fn two_logs(&mut self, carriers: u64) -> [Vec<u8>; 2] {
        let any = 1 + self.random.below(2 * MOST_RECORDS);
        let total = self.random.pick(&[0, 1, 2, 3, 9, 9, 40, 40, any, 2047, 2048, 2049, 4096]);
        let records = self.sound_log(total, carriers);
        let (mut one, mut two, mut shared) = (Vec::new(), Vec::new(), Vec::new());
        for (record, of) in records.chunks(8).zip(self.shares(total)) {
            if of == Of::Both {
                shared.push(two.len());
            }
            if of != Of::Two {
                one.extend(record);
            }
            if of != Of::One {
                two.extend(record);
            }
        }
        if !shared.is_empty() && self.random.one_in(3) {
            self.other_lever(&mut two, &shared);
        }
        [one, two]
    }

    /// Of so many records, which log has each: neither more than 2,048, mixed or in three parts.
    fn shares(&mut self, total: u64) -> Vec<Of> {
        let any = self.random.below(total + 1);
        let both = self.random.pick(&[0, any, total]).min(2 * MOST_RECORDS - total);
        let (alone, room) = (total - both, MOST_RECORDS - both);
        let (fewest, most) = (alone.saturating_sub(room), alone.min(room));
        let any = fewest + self.random.below(most - fewest + 1);
        let one = self.random.pick(&[fewest, any, any, most]);
        let parts = [(Of::One, one), (Of::Both, both), (Of::Two, alone - one)];
        let parts = parts.into_iter().flat_map(|(of, times)| (0..times).map(move |_| of));
        let mut shares: Vec<Of> = parts.collect();
        match self.random.below(4) {
            0 => {}
            1 => shares.reverse(),
            _ => self.random.shuffle(&mut shares),
        }
        shares
    }

    /// Another lever in one of these records of a log: the first, the last or any.
    fn other_lever(&mut self, log: &mut [u8], records: &[usize]) {
        let any = self.random.pick(records);
        let at = self.random.pick(&[records[0], any, records[records.len() - 1]]) + 5;
        log[at] = (log[at] + 1 + self.random.below(9) as u8) % 10;
    }

    /// Mostly the B of the logs.
    fn merged_b(&mut self, carriers: u64) -> u32 {
        let any = self.any_u32();
        match self.random.below(10) {
            0 => self.random.pick(&[0, 33, any, 1 << 8 | 1, 1 << 31]),
            1 => self.random.pick(&[1, 32, carriers as u32 - 1, carriers as u32 + 1]),
            _ => carriers as u32,
        }
    }

    /// The length of a log buffer, mostly the right one.
    fn buffer_len(&mut self) -> usize {
        let len = LOG_BYTES;
        match self.random.below(10) {
            0 => self.random.pick(&[0, 1, 8, len / 2, len - 8, len - 1, len + 1, len + 8, 2 * len]),
            _ => len,
        }
    }
}
