//! Patching: one cell of the file is swapped for the incoming one, and every slot that either of
//! them supplies gets its whole history in the new file (document 01, "Patching").
//!
//! This goes slot by slot, not entry by entry as annotating does: for each slot in question the
//! list of all steps that the new file has for it, run from the starting value. The refusal is the
//! earliest one of all slots' histories and of the incoming cell.

use std::collections::{BTreeMap, BTreeSet};

use crate::address::Addresses;
use crate::annotate::Counts;
use crate::numbers::LIMIT;
use crate::reader::{read_cell, read_file, Cell, Entry, File, Group, Rooms};
use crate::refusal::Refusal;
use crate::rows::supplied;
use crate::sheet::{check_sheet, write_value, Arc, Sheet, VALUE_BYTES};

/// What a patch is given, the current sheet apart.
#[derive(Clone, Copy)]
pub struct Given<'g> {
    pub start: &'g [u8],
    pub file: &'g [u8],
    /// "cell number from 1"
    pub number: u64,
    pub incoming: &'g [u8],
    pub file_rooms: Rooms,
    pub incoming_rooms: Rooms,
}

/// The counts of the file and of the incoming text.
pub type PatchCounts = (Counts, Counts);

/// The tables of both texts, each if it was read.
#[derive(Clone, Debug, Default, PartialEq, Eq)]
pub struct PatchTables {
    pub file: Option<File>,
    pub incoming: Option<File>,
}

/// Patches the current sheet. "A refused patch keeps the current sheet."
pub fn patch(
    start: &[u8],
    file: &[u8],
    number: u64,
    incoming: &[u8],
    current: &mut [u8],
    file_rooms: Rooms,
    incoming_rooms: Rooms,
) -> Result<PatchCounts, Refusal> {
    patch_and_read(Given { start, file, number, incoming, file_rooms, incoming_rooms }, current).0
}

/// The same, and the tables.
pub fn patch_and_read(given: Given, current: &mut [u8]) -> (Result<PatchCounts, Refusal>, PatchTables) {
    let mut tables = PatchTables::default();
    let answer = patch_into(given, current, &mut tables);
    (answer, tables)
}

/// Patches the current sheet, and leaves the tables of what was read.
fn patch_into(given: Given, current: &mut [u8], tables: &mut PatchTables) -> Result<PatchCounts, Refusal> {
    let (sheet, file, incoming, outgoing) = judged(given, current, tables)?;
    let swap = Swap { addresses: Addresses::new(&sheet), given, file, incoming, outgoing };
    let arcs: Vec<&Arc> = sheet.arcs.values().collect();
    for ((arc, slot), value) in swap.new_values(&arcs)? {
        write_value(current, arcs[arc].place, slot, value);
    }
    Ok((Counts::of(file), Counts::of(incoming)))
}

/// The starting sheet, the reading of both texts, and the outgoing cell's number from 0. "In
/// patching: 10, 11, 18, file, 17, incoming text, then as annotating."
fn judged<'t>(
    given: Given,
    current: &[u8],
    tables: &'t mut PatchTables,
) -> Result<(Sheet, &'t File, &'t File, usize), Refusal> {
    let sheet = check_sheet(given.start).map_err(|()| Refusal::in_file(10, 0))?;
    if current.len() != given.start.len() {
        return Err(Refusal::in_file(11, 0));
    }
    if !same_records(given.start, &sheet, current) {
        return Err(Refusal::in_file(18, 0));
    }
    let file = tables.file.insert(read_file(given.file, given.file_rooms.cells, given.file_rooms.entries)?);
    let outgoing = usize::try_from(given.number).ok().and_then(|number| number.checked_sub(1));
    let Some(outgoing) = outgoing.filter(|&number| number < file.cells.len()) else {
        return Err(Refusal::in_file(17, 0));
    };
    let cell = read_cell(given.incoming, file.divider, file.scale, given.incoming_rooms)?;
    Ok((sheet, file, tables.incoming.insert(cell), outgoing))
}

/// How many arcs have a slot that the outgoing or the incoming cell supplies; none if the patch is
/// refused before that is asked.
pub fn arcs_in_question(given: Given, current: &[u8]) -> usize {
    let mut tables = PatchTables::default();
    let Ok((sheet, file, incoming, outgoing)) = judged(given, current, &mut tables) else {
        return 0;
    };
    let swap = Swap { addresses: Addresses::new(&sheet), given, file, incoming, outgoing };
    let (old_cells, new_cells) = swap.old_and_new_cells();
    let slots = swap.slots_in_question(&old_cells[outgoing], &new_cells[outgoing]);
    slots.into_keys().map(|(arc, _)| arc).collect::<BTreeSet<usize>>().len()
}

/// Whether the current sheet's records differ from the starting ones in nothing but values: with
/// the starting values written over its own it is the starting sheet.
fn same_records(start: &[u8], sheet: &Sheet, current: &[u8]) -> bool {
    let mut copy = current.to_vec();
    for arc in sheet.arcs.values() {
        let values = arc.place..arc.place + VALUE_BYTES;
        if let (Some(room), Some(bytes)) = (copy.get_mut(values.clone()), start.get(values)) {
            room.copy_from_slice(bytes);
        }
    }
    copy == start
}

/// The bytes of the new file: "the new file takes its bytes from `(` to `)`", the incoming cell's
/// for the outgoing one's. None if there is no such cell.
pub fn new_text(file_text: &[u8], file: &File, number: u64, text: &[u8], incoming: &File) -> Option<Vec<u8>> {
    let index = usize::try_from(number).ok()?.checked_sub(1)?;
    let out = file.cells.get(index)?.whole;
    let in_ = incoming.cells.first()?.whole;
    Some([file_text.get(..out.start)?, in_.of(text), file_text.get(out.end..)?].concat())
}

/// An arc's number and a slot's number within it.
type Slot = (usize, usize);

/// Where something happens in the new file: the cell's number, then 0 for the cell itself or the
/// entry's number from 1.
type Moment = (usize, usize);

/// One thing that the new file does to one slot.
struct Step {
    moment: Moment,
    /// The entry's keyword, and whether that is in the incoming text.
    place: usize,
    incoming: bool,
    group: Group,
    number: i64,
}

/// A cell with its entries, and the text they stand in.
struct Source<'a> {
    text: &'a [u8],
    file: &'a File,
    cell: &'a Cell,
    entries: &'a [Entry],
    incoming: bool,
}

impl Source<'_> {
    fn refusal(&self, number: u8, place: usize) -> Refusal {
        Refusal { number, place, incoming: self.incoming }
    }
}

/// Refusals with the moments at which they occur: the least of them is the one to give. At one
/// moment that is the one with the lowest number.
type Refusals = Vec<(Moment, Refusal)>;

/// What the swap is about, once both texts are read.
struct Swap<'a> {
    addresses: Addresses<'a>,
    given: Given<'a>,
    file: &'a File,
    incoming: &'a File,
    /// The outgoing cell's number, from 0.
    outgoing: usize,
}

impl<'a> Swap<'a> {
    /// The new value of every slot that the outgoing or the incoming cell supplies.
    fn new_values(&self, arcs: &[&Arc]) -> Result<BTreeMap<Slot, Option<i64>>, Refusal> {
        let (old_cells, new_cells) = self.old_and_new_cells();
        let mut histories = self.slots_in_question(&old_cells[self.outgoing], &new_cells[self.outgoing]);
        for (number, cell) in new_cells.iter().enumerate() {
            for (slot, step) in self.steps(number, cell) {
                histories.entry(slot).and_modify(|history| history.push(step));
            }
        }
        let mut refusals = self.addressing_refusals(&new_cells[self.outgoing]);
        let values = run_all(histories, arcs, &mut refusals);
        match refusals.into_iter().min_by_key(|(moment, refusal)| (*moment, refusal.number)) {
            Some((_, refusal)) => Err(refusal),
            None => Ok(values),
        }
    }

    /// The cells of the file, and those of the new file.
    fn old_and_new_cells(&self) -> (Vec<Source<'a>>, Vec<Source<'a>>) {
        let old_cells = self.cells(self.file, self.given.file, false);
        let mut new_cells = self.cells(self.file, self.given.file, false);
        for (new, old) in self.cells(self.incoming, self.given.incoming, true).into_iter().zip(self.outgoing..) {
            new_cells[old] = new;
        }
        (old_cells, new_cells)
    }

    /// The slots that the outgoing or the incoming cell supplies, with no history yet.
    fn slots_in_question(&self, old: &Source, new: &Source) -> BTreeMap<Slot, Vec<Step>> {
        let steps = [old, new].into_iter().flat_map(|cell| self.steps(self.outgoing, cell));
        steps.map(|(slot, _)| (slot, Vec::new())).collect()
    }

    fn cells<'t>(&self, file: &'t File, text: &'t [u8], incoming: bool) -> Vec<Source<'t>> {
        let cells = file.cells_with_entries().into_iter();
        cells.map(|(cell, entries)| Source { text, file, cell, entries, incoming }).collect()
    }

    /// All that a cell supplies, in order. A cell that 12 or 13 refuses "supplies nothing, nor does
    /// an entry where its arc is lacking".
    fn steps(&self, number: usize, source: &Source) -> Vec<(Slot, Step)> {
        let instances = self.addresses.instances(source.text, source.file, source.cell).unwrap_or_default();
        let mut steps = Vec::new();
        for (entry, moment) in source.entries.iter().zip((1..).map(|entry| (number, entry))) {
            let supplied = supplied(entry);
            for path in &instances {
                for arc in self.addresses.arcs(source.text, source.file, entry, path) {
                    steps.extend(supplied.iter().map(|&(slot, number)| {
                        let (place, incoming, group) = (entry.place, source.incoming, entry.group);
                        ((arc, slot), Step { moment, place, incoming, group, number })
                    }));
                }
            }
        }
        steps
    }

    /// Refusals 12 to 14, judged "on the incoming cell only".
    fn addressing_refusals(&self, incoming: &Source) -> Refusals {
        let instances = match self.addresses.instances(incoming.text, incoming.file, incoming.cell) {
            Ok(instances) => instances,
            Err(number) => return vec![((self.outgoing, 0), incoming.refusal(number, incoming.cell.place))],
        };
        let lacks = |entry: &Entry| {
            instances.iter().any(|path| self.addresses.arcs(incoming.text, incoming.file, entry, path).is_empty())
        };
        let entries = (1..).zip(incoming.entries).filter(|(_, entry)| lacks(entry));
        entries.map(|(number, entry)| ((self.outgoing, number), incoming.refusal(14, entry.place))).collect()
    }
}

/// Runs every history from its starting value; where one stops, that is one more refusal.
fn run_all(
    histories: BTreeMap<Slot, Vec<Step>>,
    arcs: &[&Arc],
    refusals: &mut Refusals,
) -> BTreeMap<Slot, Option<i64>> {
    let mut values = BTreeMap::new();
    for (slot, history) in histories {
        match run(arcs[slot.0].values[slot.1], &history) {
            Ok(value) => {
                values.insert(slot, value);
            }
            Err(refused) => refusals.push(refused),
        }
    }
    values
}

/// What a history makes of a starting value, or 15 or 16 with its moment.
fn run(start: Option<i64>, history: &[Step]) -> Result<Option<i64>, (Moment, Refusal)> {
    let mut value = start;
    for step in history {
        let refused = |number| (step.moment, Refusal { number, place: step.place, incoming: step.incoming });
        let sum = match step.group {
            Group::Absolute | Group::Check => step.number,
            Group::Increment => value.ok_or(refused(15))? + step.number,
        };
        if sum.abs() > LIMIT {
            return Err(refused(16));
        }
        value = Some(sum);
    }
    Ok(value)
}
