//! The timing sheet as two ordered maps, and its bytes (document 01, "The timing sheet").

use std::collections::BTreeMap;

use crate::bytes::is_legal;
use crate::kinds::{kind_of_number, Facts};
use crate::names::{is_name, Use};
use crate::numbers::LIMIT;

/// "at most 16,777,216 bytes"
const SHEET_LIMIT: usize = 16_777_216;

/// "The least 64-bit number means empty".
const EMPTY: i64 = i64::MIN;

/// "18 values of 8 bytes"
pub const VALUES: usize = 18;
pub const VALUE_BYTES: usize = 8 * VALUES;

/// What tells an arc. The order of the fields is the order of the records: "`AR` records rise
/// strictly by kind, first end, first edge, second end, second edge (bytes unsigned, a prefix
/// first)".
#[derive(Clone, Debug, PartialEq, Eq, PartialOrd, Ord)]
pub struct ArcKey {
    pub kind: u8,
    pub end1: Vec<u8>,
    pub edge1: u8,
    pub end2: Vec<u8>,
    pub edge2: u8,
}

/// "The 18 values are six rows of three sets, row first."
#[derive(Clone, Debug, PartialEq, Eq)]
pub struct Arc {
    pub values: [Option<i64>; VALUES],
    /// Where the values stand in the sheet's bytes.
    pub place: usize,
}

#[derive(Clone, Debug, Default, PartialEq, Eq)]
pub struct Sheet {
    /// Types by paths: "`IN` records rise strictly by path bytes".
    pub instances: BTreeMap<Vec<u8>, Vec<u8>>,
    pub arcs: BTreeMap<ArcKey, Arc>,
}

/// Decides whether the bytes are a sheet: if not, that is "10: starting sheet not of the form
/// above".
// The refusal has one number and one place, so there is nothing to hand out with it.
#[allow(clippy::result_unit_err)]
pub fn check_sheet(bytes: &[u8]) -> Result<Sheet, ()> {
    if bytes.len() > SHEET_LIMIT {
        return Err(());
    }
    sheet(&mut Cursor { bytes, place: 0 }).ok_or(())
}

/// "`HD`, once, first: u16 format 1, u32 instances, u32 arcs", then "all `IN` before all `AR`".
fn sheet(cursor: &mut Cursor) -> Option<Sheet> {
    cursor.mark(b"HD")?;
    let format = cursor.number(2)?;
    let instances = cursor.number(4)?;
    let arcs = cursor.number(4)?;
    if format != 1 {
        return None;
    }
    let mut sheet = Sheet::default();
    for _ in 0..instances {
        let (path, type_text) = instance(cursor)?;
        let rises = sheet.instances.last_key_value().is_none_or(|(last, _)| *last < path);
        if !rises {
            return None;
        }
        sheet.instances.insert(path, type_text);
    }
    for _ in 0..arcs {
        let (key, arc) = arc(cursor)?;
        let rises = sheet.arcs.last_key_value().is_none_or(|(last, _)| *last < key);
        if !rises {
            return None;
        }
        sheet.arcs.insert(key, arc);
    }
    (cursor.place == cursor.bytes.len()).then_some(sheet)
}

/// "`IN`: u16 length and path (0 to 1,024), u16 length and type (0 to 1,024)"
fn instance(cursor: &mut Cursor) -> Option<(Vec<u8>, Vec<u8>)> {
    cursor.mark(b"IN")?;
    let path = cursor.text(1_024)?;
    let type_text = cursor.text(1_024)?;
    // "Ends, and paths that aren't empty, have a name's shape with `.`".
    let path_fits = path.is_empty() || is_name(path, b'.', Use::Instance);
    (path_fits && is_string_content(type_text)).then(|| (path.to_vec(), type_text.to_vec()))
}

/// "`AR`: u8 kind, u8 edge, u16 length and first end, u8 edge, u16 length and second end (ends 1
/// to 2,049), 18 values of 8 bytes, two's complement"
fn arc(cursor: &mut Cursor) -> Option<(ArcKey, Arc)> {
    cursor.mark(b"AR")?;
    let facts = kind_of_number(cursor.byte()?)?;
    let edge1 = cursor.byte()?;
    let end1 = cursor.text(2_049)?.to_vec();
    let edge2 = cursor.byte()?;
    let end2 = cursor.text(2_049)?.to_vec();
    let place = cursor.place;
    let key = ArcKey { kind: facts.number, end1, edge1, end2, edge2 };
    let arc = Arc { values: values(cursor)?, place };
    (key_fits(facts, &key) && values_fit(facts, &arc.values)).then_some((key, arc))
}

/// "PORT, WIDTH and PERIOD have second edge 0 and second length 0; edges that a kind can't carry
/// are 0." An empty end has no name's shape.
fn key_fits(facts: &Facts, key: &ArcKey) -> bool {
    let edge_fits = |edge: u8, allowed: bool| edge <= if allowed { 8 } else { 0 };
    let second_end_fits = match facts.ends {
        2 => is_name(&key.end2, b'.', Use::End),
        _ => key.end2.is_empty(),
    };
    edge_fits(key.edge1, facts.edges[0])
        && edge_fits(key.edge2, facts.edges[1])
        && is_name(&key.end1, b'.', Use::End)
        && second_end_fits
}

/// "every other value is within 10^15 either way, and not below zero in a check that takes
/// unsigned values. Checks use row 1, two-value checks rows 1 and 2; their other rows are empty."
fn values_fit(facts: &Facts, values: &[Option<i64>; VALUES]) -> bool {
    let least = if facts.signed { -LIMIT } else { 0 };
    let fits = |(slot, value): (usize, &Option<i64>)| match value {
        Some(value) => slot / 3 < facts.values && (least..=LIMIT).contains(value),
        None => true,
    };
    values.iter().enumerate().all(fits)
}

fn values(cursor: &mut Cursor) -> Option<[Option<i64>; VALUES]> {
    let mut values = [None; VALUES];
    for value in &mut values {
        let number = cursor.number(8)? as i64;
        *value = (number != EMPTY).then_some(number);
    }
    Some(values)
}

/// "a type is legal string content": legal bytes, no bare quote, no backslash without a byte after
/// it.
fn is_string_content(text: &[u8]) -> bool {
    let mut place = 0;
    while let Some(&byte) = text.get(place) {
        if byte == b'"' {
            return false;
        }
        place += if byte == b'\\' { 2 } else { 1 };
    }
    place == text.len() && text.iter().all(|&byte| is_legal(byte))
}

/// A walk over the bytes; every step is none if the sheet ends before it does.
struct Cursor<'b> {
    bytes: &'b [u8],
    place: usize,
}

impl<'b> Cursor<'b> {
    fn take(&mut self, length: usize) -> Option<&'b [u8]> {
        let taken = self.bytes.get(self.place..self.place + length)?;
        self.place += length;
        Some(taken)
    }

    /// "a two-byte mark before each record"
    fn mark(&mut self, mark: &[u8; 2]) -> Option<()> {
        (self.take(2)? == mark).then_some(())
    }

    /// A number of this many bytes, "big-endian".
    fn number(&mut self, length: usize) -> Option<u64> {
        Some(self.take(length)?.iter().fold(0, |sum, &byte| sum << 8 | u64::from(byte)))
    }

    fn byte(&mut self) -> Option<u8> {
        Some(self.take(1)?[0])
    }

    /// "u16 length and" the text of that length, if it isn't over the limit.
    fn text(&mut self, limit: usize) -> Option<&'b [u8]> {
        let length = self.number(2)? as usize;
        if length > limit {
            return None;
        }
        self.take(length)
    }
}

/// The bytes of a sheet.
pub fn encode(sheet: &Sheet) -> Vec<u8> {
    let mut bytes = b"HD\0\x01".to_vec();
    bytes.extend((sheet.instances.len() as u32).to_be_bytes());
    bytes.extend((sheet.arcs.len() as u32).to_be_bytes());
    for (path, type_text) in &sheet.instances {
        bytes.extend(b"IN");
        push_text(&mut bytes, path);
        push_text(&mut bytes, type_text);
    }
    for (key, arc) in &sheet.arcs {
        bytes.extend(b"AR");
        bytes.extend([key.kind, key.edge1]);
        push_text(&mut bytes, &key.end1);
        bytes.push(key.edge2);
        push_text(&mut bytes, &key.end2);
        bytes.extend(value_bytes(&arc.values));
    }
    bytes
}

/// Writes one arc's values over those that stand at a place of the sheet's bytes.
pub fn write_values(bytes: &mut [u8], place: usize, values: &[Option<i64>; VALUES]) {
    if let Some(room) = bytes.get_mut(place..place + VALUE_BYTES) {
        room.copy_from_slice(&value_bytes(values));
    }
}

/// Writes one value, the slot counted from 0 within its arc's 18.
pub fn write_value(bytes: &mut [u8], place: usize, slot: usize, value: Option<i64>) {
    let start = place + 8 * slot;
    if let Some(room) = bytes.get_mut(start..start + 8) {
        room.copy_from_slice(&value.unwrap_or(EMPTY).to_be_bytes());
    }
}

fn value_bytes(values: &[Option<i64>; VALUES]) -> Vec<u8> {
    values.iter().flat_map(|value| value.unwrap_or(EMPTY).to_be_bytes()).collect()
}

fn push_text(bytes: &mut Vec<u8>, text: &[u8]) {
    bytes.extend((text.len() as u16).to_be_bytes());
    bytes.extend(text);
}
