//! Writes the planted copies of the model (feature `plants`).

use std::env;
use std::fs;
use std::path::{Path, PathBuf};

fn main() {
    let home = PathBuf::from(env::var("CARGO_MANIFEST_DIR").unwrap());
    println!("cargo:rerun-if-changed=build.rs");
    if env::var("CARGO_FEATURE_PLANTS").is_ok() {
        write_plants(&home, Path::new(&env::var("OUT_DIR").unwrap()));
    }
}

/// A copy of the model for each file of plants/, and the list of them.
fn write_plants(home: &Path, out: &Path) {
    println!("cargo:rerun-if-changed=plants");
    println!("cargo:rerun-if-changed=src/model");
    let mut modules = String::new();
    let mut list = String::new();
    for file in sorted_files(&home.join("plants")) {
        let name = file.file_name().unwrap().to_str().unwrap();
        let plant = Plant::read(&fs::read_to_string(&file).unwrap());
        let folder = out.join("plants").join(name);
        write_plant(&plant, name, &home.join("src/model"), &folder);
        let module = name.replace('-', "_");
        let path = folder.join("mod.rs");
        modules += &format!("#[allow(warnings, clippy::all)]\n#[path = {path:?}]\n");
        modules += &format!("mod {module};\n");
        list += &format!("    ({name:?}, {:?}, &{module}::Model),\n", plant.breaks);
    }
    let list = format!("pub const PLANTS: &[(&str, &str, &dyn crate::Station)] = &[\n{list}];\n");
    fs::write(out.join("plants.rs"), modules + &list).unwrap();
}

/// A planted bug: the sentence that it breaks, and texts to be replaced in one file.
struct Plant {
    breaks: String,
    file: String,
    edits: Vec<(String, String)>,
}

impl Plant {
    /// Lines `# `, `file: `, then edits: a line `old: ` and under it lines `new: `.
    fn read(text: &str) -> Plant {
        let mut plant = Plant { breaks: String::new(), file: String::new(), edits: Vec::new() };
        for line in text.lines() {
            let (key, rest) = line.split_once(' ').unwrap_or((line, ""));
            match key {
                "#" => plant.breaks = rest.to_string(),
                "file:" => plant.file = rest.to_string(),
                "old:" => plant.edits.push((rest.to_string(), String::new())),
                "new:" => plant.edits.last_mut().expect("an old text").1 += &format!("{rest}\n"),
                _ => panic!("no such line: {line}"),
            }
        }
        plant
    }
}

fn write_plant(plant: &Plant, name: &str, model: &Path, folder: &Path) {
    fs::create_dir_all(folder).unwrap();
    for file in sorted_files(model) {
        let mut text = fs::read_to_string(&file).unwrap();
        if file.ends_with(&plant.file) {
            for (old, new) in &plant.edits {
                let times = text.matches(old.as_str()).count();
                assert_eq!(times, 1, "plants/{name}: the text stands {times} times: {old}");
                text = text.replace(old.as_str(), new);
            }
        }
        fs::write(folder.join(file.file_name().unwrap()), text).unwrap();
    }
}

fn sorted_files(folder: &Path) -> Vec<PathBuf> {
    let entries = fs::read_dir(folder).unwrap();
    let mut files: Vec<PathBuf> = entries.map(|entry| entry.unwrap().path()).collect();
    files.sort();
    files
}
