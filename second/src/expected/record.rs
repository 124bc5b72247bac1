//! Of `crates/record_test`: records and logs, sound and damaged in each way that document 01 names.

use super::answers::{hex, refusal};
use super::Paper;
use crate::numbers::DONE;
use crate::worlds::record;

pub fn write(paper: &Paper) {
    sound_logs(paper);
    damaged_logs(paper);
    full_logs(paper);
    parts(paper);
    records_read(paper);
    records_written(paper);
}

/// Records one after the other.
fn log_of<const N: usize>(records: [(u32, u8, u8); N]) -> Vec<u8> {
    records.iter().flat_map(|&(step, carrier, lever)| record(step, carrier, lever)).collect()
}

fn sound_logs(paper: &Paper) {
    log(paper, "empty", &[]);
    log(paper, "one record of zeros", &[0; 8]);
    log(paper, "the last place, the brake", &log_of([(179_999, 31, 9)]));
    log(paper, "by carrier", &log_of([(0, 0, 1), (0, 1, 2)]));
    log(paper, "by step", &log_of([(0, 5, 1), (1, 0, 2)]));
}

fn damaged_logs(paper: &Paper) {
    log(paper, "seven bytes", &[0; 7]);
    log(paper, "a record and a half", &log_of([(0, 0, 0), (1, 0, 0)])[..12]);
    log(paper, "seventh byte", &[0, 0, 0, 0, 0, 0, 1, 0]);
    log(paper, "eighth byte", &[0, 0, 0, 0, 0, 0, 0, 1]);
    log(paper, "carrier 32", &log_of([(0, 32, 0)]));
    log(paper, "lever 10", &log_of([(0, 0, 10)]));
    log(paper, "step 180000", &log_of([(180_000, 0, 0)]));
    log(paper, "one place twice", &log_of([(0, 0, 1), (0, 0, 2)]));
    log(paper, "step descends", &log_of([(1, 0, 1), (0, 5, 2)]));
    log(paper, "carrier descends", &log_of([(0, 1, 1), (0, 0, 2)]));
}

fn full_logs(paper: &Paper) {
    let mut bytes: Vec<u8> = (0..2049).flat_map(|step| record(step, 0, 0)).collect();
    log(paper, "2048 records", &bytes[..8 * 2048]);
    log(paper, "2049 records", &bytes);
    bytes[8 * 2047] = 0;
    log(paper, "2048 records, the last out of order", &bytes[..8 * 2048]);
}

fn parts(paper: &Paper) {
    let three = log_of([(0, 0, 1), (0, 3, 2), (2, 1, 9)]);
    for step in [0, 1, 2, 3, u32::MAX] {
        part(paper, &format!("step {step}"), &three, step);
    }
    part(paper, "step 0 of an unsound log", &log_of([(0, 0, 10)]), 0);
}

fn records_read(paper: &Paper) {
    read(paper, "nothing", &[]);
    read(paper, "nine bytes", &[0; 9]);
    read(paper, "example L", &record(258, 3, 9));
    read(paper, "a damaged tail, carrier 32, lever 10", &[0, 0, 0, 0, 32, 10, 1, 0]);
    read(paper, "carrier 32, lever 10, step 180000", &record(180_000, 32, 10));
    read(paper, "lever 10, step 180000", &record(180_000, 31, 10));
    read(paper, "step 180000", &record(180_000, 31, 9));
}

fn records_written(paper: &Paper) {
    written(paper, "example L", 258, 3, 9);
    written(paper, "carrier 32, lever 10, step 180000", 180_000, 32, 10);
    written(paper, "lever 10, step 180000", 180_000, 31, 10);
    written(paper, "step 180000", 180_000, 31, 9);
    written(paper, "the last place, the brake", 179_999, 31, 9);
    written(paper, "lever 265", 0, 0, 265);
}

fn log(paper: &Paper, name: &str, bytes: &[u8]) {
    let sound = if paper.station.log_sound(bytes) == 1 { "sound" } else { "unsound" };
    paper.line(format_args!("log, {name}: {sound}"));
}

fn part(paper: &Paper, name: &str, bytes: &[u8], step: u32) {
    let mut out = [0; 2];
    paper.station.step_records(bytes, step, &mut out);
    let [start, end] = out.map(|at| at as usize);
    paper.line(format_args!("part, {name}:{}", hex(&bytes[start..end])));
}

fn read(paper: &Paper, name: &str, bytes: &[u8]) {
    let mut out = [0; 3];
    let answer = match paper.station.read_record(bytes, &mut out) {
        DONE => format!(" {} {} {}", out[0], out[1], out[2]),
        number => refusal(number),
    };
    paper.line(format_args!("read, {name}:{answer}"));
}

fn written(paper: &Paper, name: &str, step: u32, carrier: u32, lever: u32) {
    let mut out = [0; 8];
    let answer = match paper.station.write_record(step, carrier, lever, &mut out) {
        DONE => hex(&out),
        number => refusal(number),
    };
    paper.line(format_args!("written, {name}:{answer}"));
}
