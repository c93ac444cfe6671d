//! What the tests and the long comparison hand to the library: texts made by the
//! grammar, right and damaged, states and tables made by hand, and buffers that are
//! watched on every side. All of it comes from one random number generator, so that a
//! seed gives the same again.

pub mod characters;
pub mod damaged;
mod lent;
pub mod lines;
pub mod made;
pub mod random;
pub mod strings;
pub mod tables;
pub mod trees;
pub mod tsv8;

pub use lent::{Item, Lent};
