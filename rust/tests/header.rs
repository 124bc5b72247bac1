//! `src/raw.rs` declares what `include/wuthracomb.h` does, with its arguments in its order;
//! `src/lib.rs` has a function with slices for each, and each number and limit.

const HEADER: &str = include_str!("../../include/wuthracomb.h");
const RAW: &str = include_str!("../src/raw.rs");
const LIB: &str = include_str!("../src/lib.rs");

/// A function: its name, then its arguments as name and type.
type Function = (String, Vec<(String, String)>);

fn words(text: &str) -> String {
    text.split_whitespace().collect::<Vec<_>>().join(" ")
}

/// The header without comments and directives.
fn declarations() -> String {
    let mut text = HEADER.to_string();
    while let Some(start) = text.find("/*") {
        let end = start + text[start..].find("*/").expect("an end of comment") + 2;
        text.replace_range(start..end, " ");
    }
    text.lines().filter(|line| !line.starts_with('#')).collect::<Vec<_>>().join(" ")
}

/// `const uint8_t *cells` as the name `cells` with the type `*const u8`.
fn of_c(argument: &str) -> (String, String) {
    let argument = words(argument);
    let name_at = argument.rfind([' ', '*']).expect("a type and a name") + 1;
    let (of, name) = argument.split_at(name_at);
    let number = |of: &str| match of {
        "double" => "f64".to_string(),
        "size_t" => "usize".to_string(),
        _ => of.replacen("uint", "u", 1).replacen("int", "i", 1).replace("_t", ""),
    };
    let of = match of.trim().strip_suffix('*').map(str::trim) {
        None => number(of.trim()),
        Some(of) => match of.strip_prefix("const ") {
            Some(of) => format!("*const {}", number(of)),
            None => format!("*mut {}", number(of)),
        },
    };
    (name.to_string(), of)
}

fn of_rust(argument: &str) -> (String, String) {
    let (name, of) = argument.split_once(':').expect("a name and a type");
    (name.trim().to_string(), words(of))
}

/// Each `START name(arguments) END`.
fn functions(
    text: &str,
    start: &str,
    end: &str,
    of: fn(&str) -> (String, String),
) -> Vec<Function> {
    let mut found = Vec::new();
    for part in text.split(start).skip(1) {
        let (name, rest) = part.split_once('(').expect("arguments");
        let (arguments, after) = rest.split_once(')').expect("an end of arguments");
        assert!(after.trim_start().starts_with(end), "{name} has another type");
        let arguments = arguments.split(',').filter(|argument| !argument.trim().is_empty());
        found.push((name.trim().to_string(), arguments.map(of).collect()));
    }
    found
}

/// A pointer with the length after it is a slice.
fn with_slices((name, arguments): &Function) -> Function {
    let name = name.strip_prefix("wuthracomb_").expect("the header's prefix").to_string();
    let mut slices = Vec::new();
    let mut arguments = arguments.iter();
    while let Some((name, of)) = arguments.next() {
        let slice = match of.strip_prefix("*const ") {
            Some(of) => format!("&[{of}]"),
            None => match of.strip_prefix("*mut ") {
                Some(of) => format!("&mut [{of}]"),
                None => {
                    slices.push((name.clone(), of.clone()));
                    continue;
                }
            },
        };
        assert_eq!(arguments.next(), Some(&(format!("{name}_len"), "usize".to_string())));
        slices.push((name.clone(), slice));
    }
    (name, slices)
}

fn same(found: Vec<Function>, wanted: &[Function]) {
    for (found, wanted) in found.iter().zip(wanted) {
        assert_eq!(found, wanted);
    }
    assert_eq!(found.len(), wanted.len());
}

#[test]
fn functions_are_the_headers() {
    let header = functions(&declarations(), "uint32_t wuthracomb_", ";", of_c);
    let header: Vec<Function> =
        header.into_iter().map(|(name, of)| (format!("wuthracomb_{name}"), of)).collect();
    assert!(header.len() >= 10);
    assert_eq!(header.len(), declarations().matches(';').count());
    same(functions(RAW, "pub fn ", "-> u32;", of_rust), &header);
    let slices: Vec<Function> = header.iter().map(with_slices).collect();
    same(functions(LIB, "pub fn ", "-> u32 {", of_rust), &slices);
}

#[test]
fn constants_are_the_headers() {
    let mut header = Vec::new();
    for line in HEADER.lines().filter_map(|line| line.strip_prefix("#define WUTHRACOMB_")) {
        let mut words = line.split_whitespace();
        let (name, value) = (words.next().unwrap(), words.next());
        if let Some(value) = value {
            header.push((name, value.trim_end_matches('u')));
        }
    }
    let mut lib = Vec::new();
    for line in LIB.lines().filter_map(|line| line.strip_prefix("pub const ")) {
        let (name, rest) = line.split_once(':').expect("a type");
        let (_, value) = rest.split_once('=').expect("a value");
        lib.push((name, value.trim().trim_end_matches(';')));
    }
    assert!(header.len() >= 40);
    assert_eq!(lib, header);
}
