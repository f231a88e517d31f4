//! The listing program (document 01, "One listing in full").

use crate::kinds::edge_word;
use crate::reader::{read_file, Cell, Entry, File, Part, Path, Value};
use crate::refusal::Refusal;

/// "takes standard input up to 65,536 bytes (longer: refusal 1 at 0)"
const LISTING_LIMIT: usize = 65_536;

/// What the listing program prints: it "has room for 64 cells and 256 entries".
pub fn listing(text: &[u8]) -> Vec<u8> {
    listing_with_rooms(text, 64, 256)
}

/// The same with other rooms.
pub fn listing_with_rooms(text: &[u8], cell_room: usize, entry_room: usize) -> Vec<u8> {
    let read = match text.len() > LISTING_LIMIT {
        true => Err(Refusal::in_file(1, 0)),
        false => read_file(text, cell_room, entry_room),
    };
    match read {
        Ok(file) => file_lines(text, &file),
        // "A refusal prints only `refused N at P`."
        Err(refusal) => format!("refused {} at {}\n", refusal.number, refusal.place).into_bytes(),
    }
}

fn file_lines(text: &[u8], file: &File) -> Vec<u8> {
    let counts = format!("cells {} entries {}\n", file.cells.len(), file.entries.len());
    let mut lines = counts.into_bytes();
    for (cell, entries) in file.cells_with_entries() {
        push_line(&mut lines, &cell_words(text, cell));
        for entry in entries {
            push_line(&mut lines, &entry_words(text, entry));
        }
    }
    lines
}

fn push_line(lines: &mut Vec<u8>, words: &[Vec<u8>]) {
    lines.extend(words.join(&b' '));
    lines.push(b'\n');
}

/// "`C` gives type and path (`.` for the top, `*` as itself)."
fn cell_words(text: &[u8], cell: &Cell) -> Vec<Vec<u8>> {
    let path = match cell.path {
        Path::Top => b".",
        Path::Star => b"*",
        Path::Path(part) => part.of(text),
    };
    vec![b"C".to_vec(), cell.type_text.of(text).to_vec(), path.to_vec()]
}

/// "Other lines: group, kind, edge, end, edge, end, values; names as written, `-` for a missing
/// edge or end, `_` for absent."
fn entry_words(text: &[u8], entry: &Entry) -> Vec<Vec<u8>> {
    let end = |part: Option<Part>| part.map_or(b"-".as_slice(), |part| part.of(text)).to_vec();
    let mut words = vec![
        vec![entry.group.letter()],
        entry.kind.facts().keyword.into(),
        edge_word(entry.edge1).into(),
        end(entry.end1),
        edge_word(entry.edge2).into(),
        end(entry.end2),
    ];
    words.extend(entry.values.iter().map(value_word));
    words
}

fn value_word(value: &Value) -> Vec<u8> {
    let number = |number: &Option<i64>| number.map_or("_".to_string(), |number| number.to_string());
    value.iter().map(number).collect::<Vec<_>>().join(":").into_bytes()
}
