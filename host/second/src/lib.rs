//! The second program: document 01's reading, sheet checking, annotating and patching,
//! written from the paper alone, to be compared with the proved program answer by answer.
//!
//! It works in whole passes over whole lists: all tokens of a text first ([`tokens`]), then the
//! grammar over that list ([`reader`]), a sheet as two ordered maps ([`sheet`]), an annotation
//! entry by entry ([`annotate`]) and a patch slot by slot ([`patch`]).
//!
//! The rest serves the comparison: [`case`] holds one input of any operation and its outcome,
//! [`generate`] makes such inputs from a seed, [`shrink`] makes a telling one smaller, and
//! [`laws`] are statements about outcomes that this program checks on itself.
#![forbid(unsafe_code)]

pub mod address;
pub mod annotate;
pub mod bytes;
pub mod case;
pub mod generate;
pub mod kinds;
pub mod laws;
pub mod listing;
pub mod names;
pub mod numbers;
pub mod patch;
pub mod random;
pub mod reader;
pub mod refusal;
pub mod rows;
pub mod sheet;
pub mod shrink;
pub mod tokens;

pub use annotate::{annotate, Counts};
pub use case::{case, outcome, touched_arcs, Answer, Case, Outcome};
pub use kinds::Kind;
pub use listing::listing;
pub use patch::patch;
pub use reader::{read_cell, read_file, Cell, Entry, File, Group, Part, Path, Rooms};
pub use refusal::Refusal;
pub use sheet::{check_sheet, encode, Arc, ArcKey, Sheet};
