//! A starting sheet for a file: every instance and every arc that the file names, all values empty.
//!
//! This is plain Rust over the proved tables, and itself unproved; the proved function judges the sheet's form.

use std::collections::{BTreeMap, BTreeSet};

use proved::{cells, entries, Cell, Entry, Kind, Path, ReadAnswer, LIMIT};

use crate::names::{full_name, with_dots};
use crate::rooms::Rooms;
use crate::sheet::{encode_empty, instance_bytes, ArcKey, HEAD_BYTES};

/// Why a file has no starting sheet.
#[derive(Debug, PartialEq, Eq)]
pub enum NoSheet {
    /// Two cells give one instance two types: the places of their CELL words.
    TwoTypes { first: usize, second: usize },
    /// The sheet would be longer than a sheet may be.
    TooLong,
}

/// The starting sheet for a text that was read.
pub fn blank(text: &[u8], rooms: &Rooms, answer: &ReadAnswer) -> Result<Vec<u8>, NoSheet> {
    let file = File { text, slash: answer.slash == 1 };
    let instances = file.instances(rooms, answer)?;
    let mut sheet = Sheet::new(&instances);
    let mut under_star: BTreeMap<&[u8], BTreeSet<ArcKey>> = BTreeMap::new();
    let mut left = entries(&rooms.entries, answer.entries);
    for cell in cells(&rooms.cells, answer.cells) {
        let named = left.by_ref().take(cell.entries).filter(|entry| entry.kind != Kind::DEVICE);
        match file.path(&cell) {
            Some(path) => named.map(|entry| file.arc(&path, &entry)).try_for_each(|arc| sheet.add(arc))?,
            None => {
                let arcs = under_star.entry(cell.type_text.of(text)).or_default();
                arcs.extend(named.map(|entry| file.arc(b"", &entry)));
            }
        }
    }
    // "`*` means every instance of that type": of those that the file names anywhere.
    for (path, Instance { type_text, .. }) in &instances {
        for arc in under_star.get(type_text).into_iter().flatten() {
            sheet.add(below(path, arc))?;
        }
    }
    let types = instances.into_iter().map(|(path, instance)| (path, instance.type_text.to_vec())).collect();
    Ok(encode_empty(&types, &sheet.arcs))
}

/// A text and its divider.
struct File<'t> {
    text: &'t [u8],
    slash: bool,
}

struct Instance<'t> {
    type_text: &'t [u8],
    /// Where the first cell that names it has its CELL word.
    place: usize,
}

impl<'t> File<'t> {
    /// The cell's path, empty at the top level; none for `*`.
    fn path(&self, cell: &Cell) -> Option<Vec<u8>> {
        match cell.path {
            Path::Top => Some(Vec::new()),
            Path::Path(part) => Some(with_dots(part.of(self.text), self.slash)),
            Path::Star => None,
        }
    }

    /// All instances that the file names, by their paths.
    fn instances(&self, rooms: &Rooms, answer: &ReadAnswer) -> Result<BTreeMap<Vec<u8>, Instance<'t>>, NoSheet> {
        let mut instances = BTreeMap::new();
        for cell in cells(&rooms.cells, answer.cells) {
            let Some(path) = self.path(&cell) else {
                continue;
            };
            let type_text = cell.type_text.of(self.text);
            let known = instances.entry(path).or_insert(Instance { type_text, place: cell.place });
            if known.type_text != type_text {
                return Err(NoSheet::TwoTypes { first: known.place, second: cell.place });
            }
        }
        Ok(instances)
    }

    /// The arc that an entry names in the instance with this path.
    fn arc(&self, path: &[u8], entry: &Entry) -> ArcKey {
        let end = |part: proved::Part| full_name(path, &with_dots(part.of(self.text), self.slash));
        ArcKey {
            kind: entry.kind.0 as u8,
            end1: entry.end1.map(end).unwrap_or_default(),
            edge1: entry.edge1.0 as u8,
            end2: entry.end2.map(end).unwrap_or_default(),
            edge2: entry.edge2.0 as u8,
        }
    }
}

/// An arc named at the top level, as the instance with this path has it.
fn below(path: &[u8], arc: &ArcKey) -> ArcKey {
    let end = |name: &[u8]| if name.is_empty() { Vec::new() } else { full_name(path, name) };
    ArcKey { end1: end(&arc.end1), end2: end(&arc.end2), ..arc.clone() }
}

/// The arcs so far, and how long the sheet is with them.
struct Sheet {
    arcs: BTreeSet<ArcKey>,
    length: usize,
}

impl Sheet {
    fn new(instances: &BTreeMap<Vec<u8>, Instance>) -> Sheet {
        let bytes = |(path, instance): (&Vec<u8>, &Instance)| instance_bytes(path, instance.type_text);
        Sheet { arcs: BTreeSet::new(), length: HEAD_BYTES + instances.iter().map(bytes).sum::<usize>() }
    }

    fn add(&mut self, arc: ArcKey) -> Result<(), NoSheet> {
        let bytes = arc.record_bytes();
        if self.arcs.insert(arc) {
            self.length += bytes;
        }
        match self.length > LIMIT {
            true => Err(NoSheet::TooLong),
            false => Ok(()),
        }
    }
}
