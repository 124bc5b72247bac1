//! The plain model: document 01 written out, one file for each of its sections, and requests of
//! document 02.
//!
//! It walks unit by unit, reads the log into a sorted map, and writes to a lent slice only after
//! the last refusal. It is meant to be read beside the document, not to be fast. `plants/` has
//! edits of these files, each a bug that the comparison has to find.

mod calls;
mod clock;
mod digest;
mod levers;
mod load;
mod log;
mod merge;
mod record;
mod rope;
mod session;
mod shown;
mod step;
mod world;
mod yard;

pub use calls::Model;
pub use digest::fnv1a;
