//! The independent second program: documents 01 and 02 written a second time, compared with the
//! library.
//!
//! `model` is the documents as plainly as they can be said; `fast` is a hand-written Rust program to
//! measure the library against; `library` is the library itself. All three are a [`Station`].
//! `pair` does the same calls with the model and another station and compares everything after
//! each; `wander` makes random runs of such calls, `shrink` finds the smallest that differs.
//! `expected` makes from the model what the test programs of `crates/` are to write.

pub mod act;
pub mod coverage;
pub mod desk;
pub mod expected;
pub mod fast;
pub mod guarded;
#[cfg(feature = "library")]
pub mod library;
pub mod model;
pub mod numbers;
pub mod pair;
pub mod random;
pub mod shrink;
pub mod side;
pub mod station;
pub mod wander;
pub mod worlds;

pub use station::Station;

/// The stations to hold against the model.
pub fn others() -> Vec<&'static dyn Station> {
    vec![
        &fast::Fast,
        #[cfg(feature = "library")]
        &library::Library,
    ]
}

/// Copies of the model with a bug in each, with the sentence that it breaks.
#[cfg(feature = "plants")]
pub mod plants {
    include!(concat!(env!("OUT_DIR"), "/plants.rs"));
}
