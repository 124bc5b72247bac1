//! `expected [--check]`: makes anew, from the model alone, what every test program, example log and
//! example session is expected to write. With `--check` nothing is written: a file that has
//! something else, or that nothing here makes, is named, and the status is 1.

use second::expected;
use second::model::Model;
use std::path::Path;
use std::{env, fs, io, process};

fn main() -> io::Result<()> {
    let words: Vec<String> = env::args().skip(1).collect();
    let check = match words.iter().map(String::as_str).collect::<Vec<_>>()[..] {
        [] => false,
        ["--check"] => true,
        _ => {
            eprintln!("usage: expected [--check]");
            process::exit(2);
        }
    };
    let tree = Path::new(env!("CARGO_MANIFEST_DIR")).join("..");
    let tree = tree.canonicalize()?;
    let made = expected::all(&tree, &Model)?;
    let mut faults = 0;
    for file in expected::present(&tree)? {
        if !made.iter().any(|(path, _)| *path == file) {
            println!("expected: nothing makes {}", name(&tree, &file));
            faults += 1;
        }
    }
    for (path, text) in &made {
        let present = fs::read(path).unwrap_or_default();
        if present == *text {
            continue;
        }
        if check {
            println!("expected: {}: {}", name(&tree, path), difference(&present, text));
            faults += 1;
        } else {
            fs::write(path, text)?;
            println!("expected: wrote {}", name(&tree, path));
        }
    }
    let lines: usize =
        made.iter().map(|(_, text)| String::from_utf8_lossy(text).lines().count()).sum();
    println!("expected: {} files, {lines} lines, {faults} faults", made.len());
    process::exit(i32::from(faults > 0));
}

fn name(tree: &Path, file: &Path) -> String {
    file.strip_prefix(tree).unwrap_or(file).display().to_string()
}

/// The first line that differs.
fn difference(present: &[u8], text: &[u8]) -> String {
    let (present, text) = (String::from_utf8_lossy(present), String::from_utf8_lossy(text));
    let mut lines = present.lines();
    for (k, line) in text.lines().enumerate() {
        match lines.next() {
            Some(other) if other == line => {}
            Some(other) => return format!("line {} is '{other}', not '{line}'", k + 1),
            None => return format!("line {} is missing: '{line}'", k + 1),
        }
    }
    "has more lines, or another end".to_string()
}
