//! One input of any of the operations, and the outcome as plain data: what the two programs are
//! compared by.

use crate::annotate::{annotate_and_read, Counts};
use crate::patch::{arcs_in_question, patch_and_read, Given};
use crate::reader::{read_cell, read_file, File, Rooms};
use crate::refusal::Refusal;
use crate::sheet::check_sheet;

pub use crate::generate::case;

/// All inputs of one call.
#[derive(Clone, Debug, PartialEq, Eq)]
pub enum Case {
    ReadFile {
        text: Vec<u8>,
        rooms: Rooms,
    },
    ReadCell {
        text: Vec<u8>,
        divider: u8,
        scale: u32,
        rooms: Rooms,
    },
    CheckSheet {
        bytes: Vec<u8>,
    },
    Annotate {
        start: Vec<u8>,
        text: Vec<u8>,
        rooms: Rooms,
        /// The output sheet as lent.
        out: Vec<u8>,
    },
    Patch {
        start: Vec<u8>,
        file: Vec<u8>,
        number: u64,
        incoming: Vec<u8>,
        current: Vec<u8>,
        file_rooms: Rooms,
        incoming_rooms: Rooms,
    },
}

/// The answer of a call.
#[derive(Clone, Copy, Debug, PartialEq, Eq)]
pub enum Answer {
    Read(Counts),
    Sheet { instances: usize, arcs: usize },
    Annotated(Counts),
    Patched { file: Counts, incoming: Counts },
    Refused(Refusal),
}

/// What a call leaves.
#[derive(Clone, Debug, PartialEq, Eq)]
pub struct Outcome {
    pub answer: Answer,
    /// The tables of the text, or of a patch's file; none: as lent.
    pub tables: Option<File>,
    /// The tables of a patch's incoming text; none: as lent.
    pub incoming_tables: Option<File>,
    /// The output or current sheet's bytes at the end.
    pub sheet: Option<Vec<u8>>,
}

/// Runs this program on a case.
pub fn outcome(case: &Case) -> Outcome {
    match case {
        Case::ReadFile { text, rooms } => read_outcome(read_file(text, rooms.cells, rooms.entries)),
        Case::ReadCell { text, divider, scale, rooms } => read_outcome(read_cell(text, *divider, *scale, *rooms)),
        Case::CheckSheet { bytes } => sheet_outcome(bytes),
        Case::Annotate { start, text, rooms, out } => {
            let mut sheet = out.clone();
            let (answer, tables) = annotate_and_read(start, text, rooms.cells, rooms.entries, &mut sheet);
            let answer = answer.map_or_else(Answer::Refused, Answer::Annotated);
            Outcome { answer, tables, incoming_tables: None, sheet: Some(sheet) }
        }
        Case::Patch { start, file, number, incoming, current, file_rooms, incoming_rooms } => {
            let (file_rooms, incoming_rooms) = (*file_rooms, *incoming_rooms);
            let given = Given { start, file, number: *number, incoming, file_rooms, incoming_rooms };
            patch_outcome(given, current.clone())
        }
    }
}

/// How many arcs a patch is about: those that the outgoing or the incoming cell supplies anything
/// to. None in other cases, and in a patch that is refused before.
pub fn touched_arcs(case: &Case) -> usize {
    let Case::Patch { start, file, number, incoming, current, file_rooms, incoming_rooms } = case else {
        return 0;
    };
    let (file_rooms, incoming_rooms) = (*file_rooms, *incoming_rooms);
    arcs_in_question(Given { start, file, number: *number, incoming, file_rooms, incoming_rooms }, current)
}

fn read_outcome(read: Result<File, Refusal>) -> Outcome {
    let answer = match &read {
        Ok(file) => Answer::Read(Counts::of(file)),
        Err(refusal) => Answer::Refused(*refusal),
    };
    Outcome { answer, tables: read.ok(), incoming_tables: None, sheet: None }
}

fn sheet_outcome(bytes: &[u8]) -> Outcome {
    let answer = match check_sheet(bytes) {
        Ok(sheet) => Answer::Sheet { instances: sheet.instances.len(), arcs: sheet.arcs.len() },
        Err(()) => Answer::Refused(Refusal::in_file(10, 0)),
    };
    Outcome { answer, tables: None, incoming_tables: None, sheet: None }
}

fn patch_outcome(given: Given, mut current: Vec<u8>) -> Outcome {
    let (answer, tables) = patch_and_read(given, &mut current);
    let answer = match answer {
        Ok((file, incoming)) => Answer::Patched { file, incoming },
        Err(refusal) => Answer::Refused(refusal),
    };
    Outcome { answer, tables: tables.file, incoming_tables: tables.incoming, sheet: Some(current) }
}
