//! The oracle: the Rust bridge as it was published, behind the records of document 01.
//!
//! `bridge` and `protocol` are the source with the few edits that README.md lists; `profile`, `drivers`,
//! `describe` and `state` hold what those two need of their neighbours. The rest is the record layer around
//! them: `names` (strings as numbers), `records` (profile, events, saved records), `line` (calls and
//! answers), `session` (one event with its outcome), `recording` (cases for replay), and what makes and checks
//! cases: `random`, `cases`, `device`, `generate`, `named`, `catching`, `primitives`, `examined`, `table`,
//! `expect`, `hashes`.

#[macro_use]
mod branch;

// Left in the lines of the source, marks and all.
#[rustfmt::skip]
pub mod bridge;
pub mod cases;
pub mod catching;
pub mod counters;
pub mod describe;
pub mod device;
pub mod drivers;
pub mod examined;
pub mod expect;
pub mod generate;
pub mod hashes;
pub mod line;
pub mod named;
pub mod names;
pub mod primitives;
pub mod profile;
#[rustfmt::skip]
pub mod protocol;
pub mod random;
pub mod recording;
pub mod records;
pub mod session;
pub mod state;
pub mod stored;
pub mod table;
