//! What the command `boomcrutch` says and makes, over the proved functions, on any machine; the benchmark and the comparison
//! use it, too. The command itself, with its files and the calls of the system, is the program in `main.rs`.
//!
//! What is proved is behind [`proved`]. What stands here is plain Rust: arguments, text for people ([`listing`], [`sheet`],
//! [`report`], [`explain`]) and the making of starting sheets ([`blank`]).

pub mod arguments;
pub mod blank;
pub mod explain;
pub mod listing;
pub mod names;
pub mod report;
pub mod rooms;
pub mod sheet;
