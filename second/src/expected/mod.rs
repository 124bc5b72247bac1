//! What every test program, example log and example session is expected to write, made anew from
//! the model: the inputs and the words of the lines stand here, each number is computed.
//!
//! `cargo run --release --no-default-features --bin expected` writes the files of [`OUTPUTS`].

mod answers;
mod digest;
mod late;
mod merged;
mod pair;
mod program;
mod record;
mod refused;
mod replays;
mod session;
mod station;
mod time;

use crate::Station;
use std::cell::RefCell;
use std::fmt::Display;
use std::path::{Path, PathBuf};

/// Each file, and the parts that it has, in its order.
const OUTPUTS: &[(&str, &[Part])] = &[
    ("crates/record_test/stdout", &[record::write]),
    ("crates/digest_test/stdout", &[digest::write]),
    ("crates/late_test/stdout", &[late::write, pair::write, replays::write]),
    ("crates/time_test/stdout", &[time::write]),
    ("crates/refused_test/stdout", &[refused::write]),
    ("second/examples/station.out", &[station::write]),
];

/// Folders of logs, with what the program writes for each beside it.
const LOGS: &[(&str, &str)] = &[("examples", "out")];

/// Crates that are the program itself: their `stdin` is the log.
const PROGRAMS: &[&str] = &["crates/rerun"];

/// Crates that are the program of `wuthracomb merge`: the two logs stand in `data`.
const MERGES: &[&str] = &["crates/one_log"];

type Part = fn(&Paper);

/// What lines are written on, and the station that makes the calls.
pub struct Paper<'s> {
    station: &'s dyn Station,
    text: RefCell<String>,
}

impl<'s> Paper<'s> {
    fn new(station: &'s dyn Station) -> Paper<'s> {
        Paper { station, text: RefCell::default() }
    }

    fn write(&self, text: impl Display) {
        *self.text.borrow_mut() += &text.to_string();
    }

    fn line(&self, text: impl Display) {
        self.write(format_args!("{text}\n"));
    }
}

/// Every file of the tree that is made here, with what it is to have.
pub fn all(tree: &Path, station: &dyn Station) -> std::io::Result<Vec<(PathBuf, Vec<u8>)>> {
    let mut files = Vec::new();
    for (file, parts) in OUTPUTS {
        let paper = Paper::new(station);
        parts.iter().for_each(|write| write(&paper));
        files.push((tree.join(file), paper.text.into_inner().into_bytes()));
    }
    for folder in PROGRAMS {
        let log = std::fs::read(tree.join(folder).join("stdin"))?;
        files
            .push((tree.join(folder).join("stdout"), program::written(station, &log).into_bytes()));
    }
    for folder in MERGES {
        let read = |name| std::fs::read(tree.join(folder).join("data").join(name));
        let log = merged::written(station, &read("one.log")?, &read("two.log")?);
        files.push((tree.join(folder).join("stdout"), log));
    }
    for (folder, extension) in LOGS {
        for log in files_with(&tree.join(folder), "log")? {
            let text = program::written(station, &std::fs::read(&log)?);
            files.push((log.with_extension(extension), text.into_bytes()));
        }
    }
    Ok(files)
}

/// The files of the tree that such a program or log has, made here or not.
pub fn present(tree: &Path) -> std::io::Result<Vec<PathBuf>> {
    let mut files = Vec::new();
    for entry in std::fs::read_dir(tree.join("crates"))? {
        files.push(entry?.path().join("stdout"));
    }
    files.retain(|file| file.is_file());
    files.sort();
    for (folder, extension) in LOGS {
        files.extend(files_with(&tree.join(folder), extension)?);
    }
    Ok(files)
}

fn files_with(folder: &Path, extension: &str) -> std::io::Result<Vec<PathBuf>> {
    let mut files = Vec::new();
    for entry in std::fs::read_dir(folder)? {
        files.push(entry?.path());
    }
    files.retain(|file| file.extension().is_some_and(|of| of == extension));
    files.sort();
    Ok(files)
}
