//! Of `crates/digest_test`: FNV-1a of published texts and of states. `model/digest.rs` holds the
//! same function to what its authors publish.

use super::Paper;
use crate::model::fnv1a;

const TEXTS: [&str; 18] = [
    "",
    "a",
    "b",
    "c",
    "d",
    "e",
    "f",
    "fo",
    "foo",
    "foob",
    "fooba",
    "foobar",
    "chongo",
    "chongo was here!",
    "curds and whey",
    "hello",
    "127.0.0.1",
    "feedfacedeadbeef",
];

const FOUR_BYTES: [[u8; 4]; 3] =
    [[0xff, 0x00, 0x00, 0x01], [0x01, 0x00, 0x00, 0xff], [0xcc, 0x24, 0x31, 0xc4]];

/// Steps made, and the words of a state.
const STATES: [(u32, [i32; 5]); 2] = [(0, [0, 256, 0, 0, 0]), (3, [50, 256, 14, 0, 9])];

pub fn write(paper: &Paper) {
    for text in TEXTS {
        paper.line(format_args!("{:08x} \"{text}\"", fnv1a(text.bytes())));
        paper.line(format_args!("{:08x} \"{text}\" and 00", fnv1a(text.bytes().chain([0]))));
    }
    for kind in ["u32", "i32"] {
        for bytes in FOUR_BYTES {
            let name = bytes.map(|byte| format!("{byte:02x}")).join(" ");
            paper.line(format_args!("{:08x} {name} as {kind}", fnv1a(bytes)));
        }
    }
    for (steps, words) in STATES {
        let digest = fnv1a(steps.to_le_bytes().into_iter().chain(bytes_of(&words)));
        let words = words.map(|word| word.to_string()).join(" ");
        paper.line(format_args!("{digest:08x} steps {steps}, state {words}"));
    }
}

/// Words as a digest takes them.
pub fn bytes_of(words: &[i32]) -> impl Iterator<Item = u8> + '_ {
    words.iter().flat_map(|word| word.to_le_bytes())
}
