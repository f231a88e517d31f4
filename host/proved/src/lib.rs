//! The proved functions, as safe Rust: one module that declares them, shared by the command, the comparison and the
//! benchmark.
//!
//! None of them asks anything of its caller: every byte string, table length and number has its answer. What a call from
//! outside Rattle still owes (slices that are readable, tables that overlap nothing) is what `&[u8]` and `&mut [u64]` say.
//!
//! A group of functions that the library at hand lacks is left out by its cargo feature. [`has`] tells; the functions of
//! such a group stop the program.

mod exports;
mod records;

pub use exports::{ReadAnswer, ResultAnswer, SheetAnswer};
pub use records::{
    cell, cells, entries, entry, Cell, Edge, Entry, Group, Kind, Part, Path, ABSENT, CELL_WORDS, ENTRY_WORDS,
};

/// "text longer than 16,777,216 bytes" is refusal 1; a sheet has the same limit.
pub const LIMIT: usize = 16_777_216;

/// The groups of functions, by the names of their cargo features.
#[derive(Clone, Copy, Debug, PartialEq, Eq)]
pub enum Functions {
    Read,
    Cell,
    Sheet,
    Annotate,
    Patch,
}

/// Whether this program was built with these functions.
pub const fn has(functions: Functions) -> bool {
    match functions {
        Functions::Read => cfg!(feature = "read"),
        Functions::Cell => cfg!(feature = "cell"),
        Functions::Sheet => cfg!(feature = "sheet"),
        Functions::Annotate => cfg!(feature = "annotate"),
        Functions::Patch => cfg!(feature = "patch"),
    }
}

/// The header's texts: the keyword of each, in the order of their numbers.
pub const HEADER_TEXTS: [&str; 7] = ["SDFVERSION", "DESIGN", "DATE", "VENDOR", "PROGRAM", "VERSION", "PROCESS"];

/// The lent room for one text: cells of [`CELL_WORDS`] words, entries of [`ENTRY_WORDS`].
pub struct Tables<'t> {
    pub cells: &'t mut [u64],
    pub entries: &'t mut [u64],
}

/// How many tokens a text has before what ends them.
pub fn count_tokens(text: &[u8]) -> usize {
    unsafe { exports::boomcrutch_count_tokens(text.as_ptr(), text.len()) }
}

/// Reads a file into tables.
pub fn read_file(text: &[u8], tables: &mut Tables) -> ReadAnswer {
    let Tables { cells, entries } = tables;
    unsafe {
        exports::boomcrutch_read_file(
            text.as_ptr(),
            text.len(),
            cells.as_mut_ptr(),
            cells.len(),
            entries.as_mut_ptr(),
            entries.len(),
        )
    }
}

/// Reads a single cell, with the divider (`/` if `slash`) and the time scale of its file, 0 to 17. Another scale is answered
/// with number 255 at place 0.
pub fn read_cell(text: &[u8], slash: bool, scale: u64, tables: &mut Tables) -> ReadAnswer {
    let Tables { cells, entries } = tables;
    unsafe {
        exports::boomcrutch_read_cell(
            text.as_ptr(),
            text.len(),
            u64::from(slash),
            scale,
            cells.as_mut_ptr(),
            cells.len(),
            entries.as_mut_ptr(),
            entries.len(),
        )
    }
}

/// Judges the form of a sheet.
pub fn check_sheet(sheet: &[u8]) -> SheetAnswer {
    unsafe { exports::boomcrutch_check_sheet(sheet.as_ptr(), sheet.len()) }
}

/// Annotates the starting sheet with a file; the annotated sheet is in `out`.
pub fn annotate(start: &[u8], text: &[u8], tables: &mut Tables, out: &mut [u8]) -> ResultAnswer {
    let Tables { cells, entries } = tables;
    unsafe {
        exports::boomcrutch_annotate(
            start.as_ptr(),
            start.len(),
            text.as_ptr(),
            text.len(),
            cells.as_mut_ptr(),
            cells.len(),
            entries.as_mut_ptr(),
            entries.len(),
            out.as_mut_ptr(),
            out.len(),
        )
    }
}

/// What a patch is given, the current sheet and the tables apart.
#[derive(Clone, Copy)]
pub struct Swap<'g> {
    pub start: &'g [u8],
    pub file: &'g [u8],
    /// The outgoing cell's number, from 1.
    pub number: u64,
    pub incoming: &'g [u8],
}

/// Patches the current sheet.
pub fn patch(swap: Swap, current: &mut [u8], tables: &mut Tables, incoming_tables: &mut Tables) -> ResultAnswer {
    let Swap { start, file, number, incoming } = swap;
    unsafe {
        exports::boomcrutch_patch(
            start.as_ptr(),
            start.len(),
            file.as_ptr(),
            file.len(),
            number,
            incoming.as_ptr(),
            incoming.len(),
            current.as_mut_ptr(),
            current.len(),
            tables.cells.as_mut_ptr(),
            tables.cells.len(),
            tables.entries.as_mut_ptr(),
            tables.entries.len(),
            incoming_tables.cells.as_mut_ptr(),
            incoming_tables.cells.len(),
            incoming_tables.entries.as_mut_ptr(),
            incoming_tables.entries.len(),
        )
    }
}
