//! A timing sheet as text, and its bytes (document 01, "The timing sheet"). Whether bytes are a sheet is for the proved
//! function to say; here they are only taken apart and put together.

use std::collections::{BTreeMap, BTreeSet};
use std::io::{self, Write};

use proved::{Edge, Kind};

use crate::listing::write_value;

/// The least 64-bit number means empty.
const EMPTY: i64 = i64::MIN;

/// The values of an arc: six rows of three sets, each of 8 bytes.
pub const VALUE_BYTES: usize = 144;

/// What tells an arc, in the order of the records: "kind, first end, first edge, second end, second edge".
#[derive(Clone, Debug, PartialEq, Eq, PartialOrd, Ord)]
pub struct ArcKey {
    pub kind: u8,
    pub end1: Vec<u8>,
    pub edge1: u8,
    pub end2: Vec<u8>,
    pub edge2: u8,
}

impl ArcKey {
    /// How many bytes the arc's record takes.
    pub fn record_bytes(&self) -> usize {
        2 + 2 + 2 + self.end1.len() + 1 + 2 + self.end2.len() + VALUE_BYTES
    }
}

/// How many bytes an instance's record takes.
pub fn instance_bytes(path: &[u8], type_text: &[u8]) -> usize {
    2 + 2 + path.len() + 2 + type_text.len()
}

/// How many bytes stand before the first record.
pub const HEAD_BYTES: usize = 12;

/// The bytes of a sheet with these instances (types by paths) and arcs, all values empty.
pub fn encode_empty(instances: &BTreeMap<Vec<u8>, Vec<u8>>, arcs: &BTreeSet<ArcKey>) -> Vec<u8> {
    let mut bytes = b"HD\0\x01".to_vec();
    bytes.extend((instances.len() as u32).to_be_bytes());
    bytes.extend((arcs.len() as u32).to_be_bytes());
    for (path, type_text) in instances {
        bytes.extend(b"IN");
        push_text(&mut bytes, path);
        push_text(&mut bytes, type_text);
    }
    for arc in arcs {
        bytes.extend([b'A', b'R', arc.kind, arc.edge1]);
        push_text(&mut bytes, &arc.end1);
        bytes.push(arc.edge2);
        push_text(&mut bytes, &arc.end2);
        bytes.extend(EMPTY.to_be_bytes().repeat(18));
    }
    bytes
}

fn push_text(bytes: &mut Vec<u8>, text: &[u8]) {
    bytes.extend((text.len() as u16).to_be_bytes());
    bytes.extend(text);
}

/// One record of a sheet.
pub enum Record<'s> {
    Instance { path: &'s [u8], type_text: &'s [u8] },
    Arc { kind: u8, edge1: u8, end1: &'s [u8], edge2: u8, end2: &'s [u8], values: &'s [u8] },
}

/// The records of a sheet, in order; of bytes that are none, as far as they look like records.
pub fn records(sheet: &[u8]) -> impl Iterator<Item = Record<'_>> {
    let mut rest = sheet.get(HEAD_BYTES..).unwrap_or(&[]);
    std::iter::from_fn(move || record(&mut rest))
}

fn record<'s>(rest: &mut &'s [u8]) -> Option<Record<'s>> {
    match rest.split_off(..2)? {
        b"IN" => Some(Record::Instance { path: text(rest)?, type_text: text(rest)? }),
        b"AR" => Some(Record::Arc {
            kind: *rest.split_off_first()?,
            edge1: *rest.split_off_first()?,
            end1: text(rest)?,
            edge2: *rest.split_off_first()?,
            end2: text(rest)?,
            values: rest.split_off(..VALUE_BYTES)?,
        }),
        _ => None,
    }
}

/// A u16 length and a text of that length.
fn text<'s>(rest: &mut &'s [u8]) -> Option<&'s [u8]> {
    let length = rest.split_off(..2)?;
    rest.split_off(..usize::from(length[0]) << 8 | usize::from(length[1]))
}

/// The type of the instance with this path.
pub fn type_of<'s>(sheet: &'s [u8], wanted: &[u8]) -> Option<&'s [u8]> {
    records(sheet).find_map(|record| match record {
        Record::Instance { path, type_text } if path == wanted => Some(type_text),
        _ => None,
    })
}

/// Writes a sheet as text: a line with the counts, then one for each record, in the manner of the listing. Delays have
/// all six rows of values, checks the one or two that they use.
pub fn write_sheet(out: &mut impl Write, sheet: &[u8], instances: u64, arcs: u64) -> io::Result<()> {
    writeln!(out, "instances {instances} arcs {arcs}")?;
    for record in records(sheet) {
        match record {
            Record::Instance { path, type_text } => {
                out.write_all(b"IN ")?;
                out.write_all(type_text)?;
                out.write_all(b" ")?;
                out.write_all(if path.is_empty() { b"." } else { path })?;
            }
            Record::Arc { kind, edge1, end1, edge2, end2, values } => {
                let kind = Kind(u64::from(kind));
                write!(out, "AR {} {} ", kind.keyword(), Edge(u64::from(edge1)).word())?;
                out.write_all(end1)?;
                write!(out, " {} ", Edge(u64::from(edge2)).word())?;
                out.write_all(if end2.is_empty() { b"-" } else { end2 })?;
                write_rows(out, values, kind.rows())?;
            }
        }
        out.write_all(b"\n")?;
    }
    Ok(())
}

fn write_rows(out: &mut impl Write, values: &[u8], rows: usize) -> io::Result<()> {
    for row in values.chunks_exact(24).take(rows) {
        out.write_all(b" ")?;
        write_value(out, [0, 8, 16].map(|place| value(&row[place..place + 8])))?;
    }
    Ok(())
}

/// Eight bytes as a value, if it isn't empty.
fn value(bytes: &[u8]) -> Option<i64> {
    let number = bytes.iter().fold(0u64, |sum, byte| sum << 8 | u64::from(*byte)) as i64;
    (number != EMPTY).then_some(number)
}
