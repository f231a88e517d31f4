//! Which instances a cell applies to, and which arcs an entry addresses there (document 01,
//! "Annotating"). Values play no part in it.

use std::collections::BTreeMap;

use crate::kinds::Kind;
use crate::names::{all_but_last, full_name, with_dots};
use crate::reader::{Cell, Entry, File, Part, Path};
use crate::sheet::{ArcKey, Sheet};

/// A sheet's records, to be found by what files say. Arcs go by their number in the sheet.
pub struct Addresses<'s> {
    sheet: &'s Sheet,
    /// The instances of each type, by their paths.
    instances_of_type: BTreeMap<&'s [u8], Vec<&'s [u8]>>,
    arcs: BTreeMap<&'s ArcKey, usize>,
    /// The IOPATH arcs by their second end.
    paths_to: BTreeMap<&'s [u8], Vec<usize>>,
    /// The IOPATH arcs by all but the last component of their second end.
    paths_below: BTreeMap<Vec<u8>, Vec<usize>>,
}

impl<'s> Addresses<'s> {
    pub fn new(sheet: &'s Sheet) -> Addresses<'s> {
        let mut instances_of_type: BTreeMap<&[u8], Vec<&[u8]>> = BTreeMap::new();
        for (path, type_text) in &sheet.instances {
            instances_of_type.entry(type_text).or_default().push(path);
        }
        let arcs = sheet.arcs.keys().zip(0..).collect();
        let mut paths_to: BTreeMap<&[u8], Vec<usize>> = BTreeMap::new();
        let mut paths_below: BTreeMap<Vec<u8>, Vec<usize>> = BTreeMap::new();
        let iopath = Kind::Iopath.facts().number;
        for (number, key) in sheet.arcs.keys().enumerate().filter(|(_, key)| key.kind == iopath) {
            paths_to.entry(&key.end2).or_default().push(number);
            paths_below.entry(all_but_last(&key.end2)).or_default().push(number);
        }
        Addresses { sheet, instances_of_type, arcs, paths_to, paths_below }
    }

    /// "A cell with a path applies to that instance, whose `IN` type must equal the CELLTYPE text;
    /// `INSTANCE` alone means path length 0; `*` means every instance of that type". The paths, or
    /// refusal 12 or 13.
    pub fn instances(&self, text: &[u8], file: &File, cell: &Cell) -> Result<Vec<&'s [u8]>, u8> {
        let wanted_type = cell.type_text.of(text);
        let wanted_path = match cell.path {
            Path::Star => return Ok(self.instances_of_type.get(wanted_type).cloned().unwrap_or_default()),
            Path::Top => Vec::new(),
            Path::Path(part) => with_dots(part.of(text), file.divider),
        };
        match self.sheet.instances.get_key_value(&wanted_path) {
            None => Err(12),
            Some((_, type_text)) if type_text != wanted_type => Err(13),
            Some((path, _)) => Ok(vec![path]),
        }
    }

    /// The arcs that an entry addresses in one instance; none if the instance lacks them.
    pub fn arcs(&self, text: &[u8], file: &File, entry: &Entry, path: &[u8]) -> Vec<usize> {
        let full = |part: Part| full_name(path, &with_dots(part.of(text), file.divider));
        let end1 = entry.end1.map(full);
        if entry.kind == Kind::Device {
            return self.device(end1, path);
        }
        // "An entry addresses the arc of its kind, edges and full names."
        let key = ArcKey {
            kind: entry.kind.facts().number,
            end1: end1.unwrap_or_default(),
            edge1: entry.edge1,
            end2: entry.end2.map(full).unwrap_or_default(),
            edge2: entry.edge2,
        };
        self.arcs.get(&key).copied().into_iter().collect()
    }

    /// "DEVICE addresses every IOPATH arc ending at the named port; without a port, every one whose
    /// second end is the instance path plus one component."
    fn device(&self, port: Option<Vec<u8>>, path: &[u8]) -> Vec<usize> {
        let found = match port {
            Some(port) => self.paths_to.get(port.as_slice()),
            None => self.paths_below.get(path),
        };
        found.cloned().unwrap_or_default()
    }
}
