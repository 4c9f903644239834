//! Small stand-ins for the modules of rs-matter that the source names. The comparison rests on them: docs/DIFFERENCES.md has
//! a row for each.
#[macro_use]
mod macros;
pub mod dm;
pub mod error;
pub mod persist;
pub mod tlv;
pub mod utils;
