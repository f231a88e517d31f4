//! Annotating: the entries of a file applied to a sheet, one after the other (document 01,
//! "Annotating").

use crate::address::Addresses;
use crate::numbers::LIMIT;
use crate::reader::{read_file, Entry, File, Group};
use crate::refusal::Refusal;
use crate::rows::supplied;
use crate::sheet::{check_sheet, write_values, Sheet, VALUES};

/// How many cells and entries a text has.
#[derive(Clone, Copy, Debug, PartialEq, Eq)]
pub struct Counts {
    pub cells: usize,
    pub entries: usize,
}

impl Counts {
    pub fn of(file: &File) -> Counts {
        Counts { cells: file.cells.len(), entries: file.entries.len() }
    }
}

/// Annotates the starting sheet with a file. "Annotating writes an output sheet apart from the
/// starting one; after 12 to 16 it equals the starting sheet." After 1 to 11 it isn't touched.
pub fn annotate(
    start: &[u8],
    text: &[u8],
    cell_room: usize,
    entry_room: usize,
    out: &mut [u8],
) -> Result<Counts, Refusal> {
    annotate_and_read(start, text, cell_room, entry_room, out).0
}

/// The same, and the tables if the text was read: "those of a text already read keep its reading".
pub fn annotate_and_read(
    start: &[u8],
    text: &[u8],
    cell_room: usize,
    entry_room: usize,
    out: &mut [u8],
) -> (Result<Counts, Refusal>, Option<File>) {
    // "In annotating: 10, 11, text, then cell by cell"
    let read = || {
        let sheet = check_sheet(start).map_err(|()| Refusal::in_file(10, 0))?;
        if out.len() != start.len() {
            return Err(Refusal::in_file(11, 0));
        }
        Ok((sheet, read_file(text, cell_room, entry_room)?))
    };
    let (sheet, file) = match read() {
        Ok(read) => read,
        Err(refusal) => return (Err(refusal), None),
    };
    out.copy_from_slice(start);
    let answer = annotated_values(&sheet, text, &file).map(|values| {
        for (arc, values) in sheet.arcs.values().zip(&values) {
            write_values(out, arc.place, values);
        }
        Counts::of(&file)
    });
    (answer, Some(file))
}

/// The values of one arc.
type ArcValues = [Option<i64>; VALUES];

/// The values of all arcs after the whole file, or the first refusal from 12 to 16. "Cells and
/// entries go in file order."
fn annotated_values(sheet: &Sheet, text: &[u8], file: &File) -> Result<Vec<ArcValues>, Refusal> {
    let addresses = Addresses::new(sheet);
    let mut values: Vec<ArcValues> = sheet.arcs.values().map(|arc| arc.values).collect();
    for (cell, entries) in file.cells_with_entries() {
        let instances = addresses.instances(text, file, cell).map_err(|number| Refusal::in_file(number, cell.place))?;
        for entry in entries {
            let arcs: Vec<Vec<usize>> = instances.iter().map(|path| addresses.arcs(text, file, entry, path)).collect();
            apply(entry, &arcs, &mut values).map_err(|number| Refusal::in_file(number, entry.place))?;
        }
    }
    Ok(values)
}

/// Applies one entry to the arcs it addresses, given instance by instance: "for one entry 14, 15,
/// 16", each judged over all its arcs before the next.
fn apply(entry: &Entry, arcs: &[Vec<usize>], values: &mut [ArcValues]) -> Result<(), u8> {
    // "some addressed instance lacks the arc (DEVICE: has no such arc at all)"
    if arcs.iter().any(Vec::is_empty) {
        return Err(14);
    }
    let supplied = supplied(entry);
    let slots: Vec<(usize, usize, i64)> = arcs
        .iter()
        .flatten()
        .flat_map(|&arc| supplied.iter().map(move |&(slot, number)| (arc, slot, number)))
        .collect();
    if entry.group == Group::Increment {
        // "INCREMENT supplies a number to an empty value"
        if slots.iter().any(|&(arc, slot, _)| values[arc][slot].is_none()) {
            return Err(15);
        }
        // "a sum beyond 10^15 either way"
        let sum = |arc: usize, slot: usize, number: i64| values[arc][slot].unwrap_or(0) + number;
        if slots.iter().any(|&(arc, slot, number)| sum(arc, slot, number).abs() > LIMIT) {
            return Err(16);
        }
    }
    for (arc, slot, number) in slots {
        let before = match entry.group {
            Group::Increment => values[arc][slot].unwrap_or(0),
            Group::Absolute | Group::Check => 0,
        };
        values[arc][slot] = Some(before + number);
    }
    Ok(())
}
