//! Statements that hold for every outcome, whatever the case. Most of them tie two operations
//! together, so that an error in one of them shows.

use std::collections::{BTreeMap, BTreeSet};

use crate::address::Addresses;
use crate::annotate::annotate;
use crate::case::{outcome, Answer, Case, Outcome};
use crate::numbers::LIMIT;
use crate::patch::{new_text, patch};
use crate::reader::{read_cell, read_file, Cell, Entry, File, Group, Part, Path, Rooms};
use crate::refusal::Refusal;
use crate::rows::supplied;
use crate::sheet::{check_sheet, encode, write_value, Sheet};

/// The first law that a case breaks.
pub fn broken(case: &Case) -> Option<&'static str> {
    let outcome = outcome(case);
    match case {
        Case::ReadFile { text, .. } => broken_reading(text, &outcome, |text| read_file(text, usize::MAX, usize::MAX)),
        Case::ReadCell { text, divider, scale, .. } => {
            let rooms = Rooms { cells: usize::MAX, entries: usize::MAX };
            broken_reading(text, &outcome, |text| read_cell(text, *divider, *scale, rooms))
        }
        Case::CheckSheet { bytes } => broken_sheet(bytes),
        Case::Annotate { start, out, .. } => broken_annotation(start, out, &outcome),
        Case::Patch { .. } => broken_patch(case, &outcome),
    }
}

fn law(holds: bool, text: &'static str) -> Option<&'static str> {
    (!holds).then_some(text)
}

/// "the tokens before begin some carried file": what stands before a refused token is refused
/// only for its end, or is all there should be.
fn broken_reading(
    text: &[u8],
    outcome: &Outcome,
    read: impl Fn(&[u8]) -> Result<File, Refusal>,
) -> Option<&'static str> {
    let Answer::Refused(refusal) = outcome.answer else {
        return law(read(text).ok() == outcome.tables, "more room changes nothing that was read");
    };
    let before = read(text.get(..refusal.place).unwrap_or(text));
    match (refusal.number, before) {
        (1, _) => None,
        (2 | 4, Ok(_)) => None,
        // inside a string or comment, or a backslash that an illegal byte follows
        (2, Err(earlier)) => law(
            earlier.number == 3 || (earlier.number, earlier.place) == (4, refusal.place),
            "nothing is refused before a 2",
        ),
        (3, Ok(_)) => None,
        (3..=9, Err(earlier)) => law((earlier.number, earlier.place) == (4, refusal.place), "a prefix is viable"),
        _ => Some("a refused word stands in a text that isn't whole yet"),
    }
}

fn broken_sheet(bytes: &[u8]) -> Option<&'static str> {
    law(check_sheet(bytes).map_or(true, |sheet| encode(&sheet) == bytes), "a sheet written is the sheet read")
}

fn broken_annotation(start: &[u8], out: &[u8], outcome: &Outcome) -> Option<&'static str> {
    let sheet = outcome.sheet.as_deref().unwrap_or(&[]);
    match outcome.answer {
        Answer::Refused(Refusal { number: 12..=16, .. }) => {
            law(sheet == start && outcome.tables.is_some(), "12 to 16 leave the starting sheet and the tables")
        }
        Answer::Refused(_) => law(sheet == out && outcome.tables.is_none(), "1 to 11 leave all as lent"),
        _ => broken_sheet(sheet).or_else(|| law(same_keys(start, sheet), "annotating leaves the records")),
    }
}

fn same_keys(one: &[u8], other: &[u8]) -> bool {
    let keys = |bytes| check_sheet(bytes).map(|sheet| (sheet.instances, sheet.arcs.into_keys().collect::<Vec<_>>()));
    keys(one).is_ok() && keys(one) == keys(other)
}

fn broken_patch(case: &Case, outcome: &Outcome) -> Option<&'static str> {
    let Case::Patch { start, file, number, incoming, current, file_rooms, incoming_rooms } = case else {
        return None;
    };
    let sheet = outcome.sheet.as_deref().unwrap_or(&[]);
    if let Answer::Refused(_) = outcome.answer {
        if sheet != current {
            return Some("a refused patch keeps the current sheet");
        }
    }
    let (Some(old), Some(cell)) = (&outcome.tables, &outcome.incoming_tables) else {
        return None;
    };
    let Some(new) = new_text(file, old, *number, incoming, cell) else {
        return Some("both texts are read only if there is such a cell");
    };
    if !spliced(file, old, *number, incoming, cell, &new) {
        return Some("a word of the new file is the same word as the one its bytes come from");
    }
    let in_order = patch_in_order(start, (file, old), *number, (incoming, cell), current);
    let same = match (&in_order, outcome.answer) {
        (Ok(patched), Answer::Patched { .. }) => patched == sheet,
        (Err(expected), Answer::Refused(refusal)) => *expected == refusal,
        _ => false,
    };
    if !same {
        return Some("slot by slot and entry by entry are the same");
    }
    let patch =
        |sheet: &mut [u8]| patch(start, file, *number, incoming, sheet, *file_rooms, *incoming_rooms).map(|_| ());
    let map = |place| place_in_new(old, *number, cell, place);
    law(demand_3(start, file, &new, patch, map), "demand 3")
}

/// Reads the new file and compares it with what both texts said.
fn spliced(file_text: &[u8], file: &File, number: u64, text: &[u8], incoming: &File, new: &[u8]) -> bool {
    let Ok(read) = read_file(new, usize::MAX, usize::MAX) else {
        return false;
    };
    let mut cells: Vec<(Vec<u8>, Vec<Spelled>)> = spelled(file_text, file);
    cells[number as usize - 1] = spelled(text, incoming).remove(0);
    cells == spelled(new, &read) && read.divider == file.divider && read.scale == file.scale
}

/// An entry with the bytes of its names.
type Spelled = (Entry, Vec<u8>, Vec<u8>);

/// The cells' types and paths, and the entries, without any places.
fn spelled(text: &[u8], file: &File) -> Vec<(Vec<u8>, Vec<Spelled>)> {
    let name = |part: Option<Part>| part.map_or(Vec::new(), |part| part.of(text).to_vec());
    let entry = |entry: &Entry| {
        let bare = Entry { place: 0, end1: None, end2: None, ..entry.clone() };
        (bare, name(entry.end1), name(entry.end2))
    };
    let cell = |cell: &Cell| match cell.path {
        Path::Star => [cell.type_text.of(text), b"\0*"].concat(),
        Path::Top => [cell.type_text.of(text), b"\0."].concat(),
        Path::Path(part) => [cell.type_text.of(text), b"\0", part.of(text)].concat(),
    };
    let cells = file.cells_with_entries().into_iter();
    cells.map(|(head, entries)| (cell(head), entries.iter().map(entry).collect())).collect()
}

/// Where a place of one of the two texts comes to stand in the new file.
fn place_in_new(file: &File, number: u64, incoming: &File, refusal: Refusal) -> Option<usize> {
    let out = file.cells.get(usize::try_from(number).ok()?.checked_sub(1)?)?.whole;
    let in_ = incoming.cells.first()?.whole;
    match refusal.incoming {
        true => Some(refusal.place - in_.start + out.start),
        false if refusal.place < out.start => Some(refusal.place),
        false => Some(refusal.place - out.end + out.start + (in_.end - in_.start)),
    }
}

/// Whether demand 3 says anything about a case: a patch of which both texts are read, the file one
/// that annotates.
pub fn demand_3_speaks(case: &Case, outcome: &Outcome) -> bool {
    match case {
        Case::Patch { start, file, .. } if outcome.incoming_tables.is_some() => {
            annotate(start, file, usize::MAX, usize::MAX, &mut start.clone()).is_ok()
        }
        _ => false,
    }
}

/// Demand 3: if annotating the starting sheet with the file succeeds, patching the result equals
/// annotating the starting sheet with the new file, refusals at the same word.
fn demand_3(
    start: &[u8],
    file: &[u8],
    new: &[u8],
    patch: impl Fn(&mut [u8]) -> Result<(), Refusal>,
    place_in_new: impl Fn(Refusal) -> Option<usize>,
) -> bool {
    let mut patched = start.to_vec();
    if annotate(start, file, usize::MAX, usize::MAX, &mut patched).is_err() {
        return true;
    }
    let mut annotated = start.to_vec();
    match (patch(&mut patched), annotate(start, new, usize::MAX, usize::MAX, &mut annotated)) {
        (Ok(()), Ok(_)) => patched == annotated,
        (Err(one), Err(other)) => one.number == other.number && place_in_new(one) == Some(other.place),
        _ => false,
    }
}

/// A patch done entry by entry, as an annotation that looks at the slots in question only: the
/// same answer as slot by slot.
fn patch_in_order(
    start: &[u8],
    file: (&[u8], &File),
    number: u64,
    incoming: (&[u8], &File),
    current: &[u8],
) -> Result<Vec<u8>, Refusal> {
    let sheet = check_sheet(start).unwrap_or_default();
    let addresses = Addresses::new(&sheet);
    let outgoing = number as usize - 1;
    let slots = |text: (&[u8], &File), cell: usize| supplied_slots(&addresses, text, cell);
    let in_question: BTreeSet<_> = slots(file, outgoing).into_iter().chain(slots(incoming, 0)).collect();
    let mut values = starting_values(&sheet, &in_question);
    for cell in 0..file.1.cells.len() {
        match cell == outgoing {
            true => apply_cell(&addresses, incoming, 0, true, &mut values)?,
            false => apply_cell(&addresses, file, cell, false, &mut values)?,
        }
    }
    let places: Vec<usize> = sheet.arcs.values().map(|arc| arc.place).collect();
    let mut patched = current.to_vec();
    for ((arc, slot), value) in values {
        write_value(&mut patched, places[arc], slot, value);
    }
    Ok(patched)
}

type Values = BTreeMap<(usize, usize), Option<i64>>;

fn starting_values(sheet: &Sheet, slots: &BTreeSet<(usize, usize)>) -> Values {
    let arcs: Vec<_> = sheet.arcs.values().collect();
    slots.iter().map(|&(arc, slot)| ((arc, slot), arcs[arc].values[slot])).collect()
}

fn supplied_slots(addresses: &Addresses, (text, file): (&[u8], &File), cell: usize) -> Vec<(usize, usize)> {
    let (cell, entries) = file.cells_with_entries()[cell];
    let mut slots = Vec::new();
    for path in addresses.instances(text, file, cell).unwrap_or_default() {
        for entry in entries {
            for arc in addresses.arcs(text, file, entry, path) {
                slots.extend(supplied(entry).into_iter().map(|(slot, _)| (arc, slot)));
            }
        }
    }
    slots
}

fn apply_cell(
    addresses: &Addresses,
    (text, file): (&[u8], &File),
    cell: usize,
    incoming: bool,
    values: &mut Values,
) -> Result<(), Refusal> {
    let (cell, entries) = file.cells_with_entries()[cell];
    let instances = match addresses.instances(text, file, cell) {
        Ok(instances) => instances,
        Err(number) if incoming => return Err(Refusal { number, place: cell.place, incoming }),
        Err(_) => return Ok(()),
    };
    for entry in entries {
        let refused = |number| Refusal { number, place: entry.place, incoming };
        let arcs: Vec<_> = instances.iter().map(|path| addresses.arcs(text, file, entry, path)).collect();
        if incoming && arcs.iter().any(Vec::is_empty) {
            return Err(refused(14));
        }
        let arcs: Vec<usize> = arcs.into_iter().flatten().collect();
        apply_entry(entry, &arcs, values).map_err(refused)?;
    }
    Ok(())
}

fn apply_entry(entry: &Entry, arcs: &[usize], values: &mut Values) -> Result<(), u8> {
    let numbers = supplied(entry);
    let mut new = Vec::new();
    for &arc in arcs {
        for &(slot, number) in &numbers {
            let Some(&value) = values.get(&(arc, slot)) else {
                continue;
            };
            match (entry.group, value) {
                (Group::Increment, None) => return Err(15),
                (Group::Increment, Some(value)) => new.push(((arc, slot), value + number)),
                _ => new.push(((arc, slot), number)),
            }
        }
    }
    if new.iter().any(|(_, sum)| sum.abs() > LIMIT) {
        return Err(16);
    }
    values.extend(new.into_iter().map(|(slot, sum)| (slot, Some(sum))));
    Ok(())
}
