//! The notation of the examples: pieces of texts and sheets, and what the operations print.
//! Each helper is named as in the examples.
#![allow(non_snake_case, dead_code)]

use second::kinds::{edge_word, kind_of_number};
use second::numbers::{decimal, time};
use second::{annotate, check_sheet, encode, listing::listing_with_rooms, patch};
use second::{Arc, ArcKey, Refusal, Rooms, Sheet};
use std::fmt::Write;

/// Bytes from a literal in which `\u{80}` to `\u{ff}` stand for single bytes.
pub fn bytes(text: &str) -> Vec<u8> {
    text.chars().map(|letter| letter as u8).collect()
}

/// A file with these cells.
pub fn F(cells: &[String]) -> String {
    FH("", cells)
}

/// A file with more header entries.
pub fn FH(head: &str, cells: &[String]) -> String {
    format!("(DELAYFILE(SDFVERSION\"4.0\"){head}{})", cells.concat())
}

/// A cell.
pub fn C(type_text: &str, path: &str, sections: &[String]) -> String {
    format!("(CELL(CELLTYPE\"{type_text}\")(INSTANCE {path}){})", sections.concat())
}

/// A DELAY with one ABSOLUTE group.
pub fn A(entries: &[&str]) -> String {
    format!("(DELAY(ABSOLUTE{}))", entries.concat())
}

/// A DELAY with one INCREMENT group.
pub fn I(entries: &[&str]) -> String {
    format!("(DELAY(INCREMENT{}))", entries.concat())
}

/// A TIMINGCHECK.
pub fn T(entries: &[&str]) -> String {
    format!("(TIMINGCHECK{})", entries.concat())
}

/// Any arc, all used values alike.
pub fn AR(kind: u8, edge1: u8, end1: &str, edge2: u8, end2: &str, value: Option<i64>) -> (ArcKey, Arc) {
    let facts = kind_of_number(kind).expect("a kind of the sheet");
    let values = std::array::from_fn(|slot| value.filter(|_| slot / 3 < facts.values));
    (ArcKey { kind, end1: bytes(end1), edge1, end2: bytes(end2), edge2 }, Arc { values, place: 0 })
}

/// A PORT arc.
pub fn P(end: &str, value: Option<i64>) -> (ArcKey, Arc) {
    AR(3, 0, end, 0, "", value)
}

/// An IOPATH arc.
pub fn IO(end1: &str, end2: &str, value: Option<i64>) -> (ArcKey, Arc) {
    AR(1, 0, end1, 0, end2, value)
}

/// An IOPATH arc with an edge.
pub fn IOE(end1: &str, end2: &str, value: Option<i64>, edge: u8) -> (ArcKey, Arc) {
    AR(1, edge, end1, 0, end2, value)
}

/// A starting sheet.
pub fn S(instances: &[(&str, &str)], arcs: &[(ArcKey, Arc)]) -> Vec<u8> {
    let instances = instances.iter().map(|(path, type_text)| (bytes(path), bytes(type_text))).collect();
    encode(&Sheet { instances, arcs: arcs.iter().cloned().collect() })
}

/// Prints the listing; behind a refusal stand the text's bytes from its place on.
pub fn L(text: &str) -> String {
    LR(text, 64, 256)
}

/// The same with other rooms.
pub fn LR(text: &str, cells: usize, entries: usize) -> String {
    let text = bytes(text);
    let printed = String::from_utf8_lossy(&listing_with_rooms(&text, cells, entries)).into_owned();
    match printed.strip_prefix("refused ") {
        None => printed,
        Some(rest) => {
            let place = rest.trim_end().rsplit(' ').next().expect("a place").parse().expect("a number");
            format!("{}: {}", printed.trim_end(), from(&text, place))
        }
    }
}

/// Ten bytes from a place on, as Python shows them; `(end)` at the end.
fn from(text: &[u8], place: usize) -> String {
    let bytes = &text[place..text.len().min(place + 10)];
    if bytes.is_empty() {
        return "(end)".into();
    }
    let show = |&byte: &u8| match byte {
        b'\\' => "\\\\".to_string(),
        b'\n' => "\\n".to_string(),
        0x20..=0x7E => (byte as char).to_string(),
        _ => format!("\\x{byte:02x}"),
    };
    bytes.iter().map(show).collect()
}

/// Annotates, and prints the first set of each row.
pub fn N(start: &[u8], file: &str) -> String {
    let text = bytes(file);
    let mut out = vec![b'?'; start.len()];
    match annotate(start, &text, 64, 256, &mut out) {
        Ok(_) => sheet_lines(&out),
        Err(refusal) => format!("refused {} at {}: {}", refusal.number, refusal.place, from(&text, refusal.place)),
    }
}

/// Patches the starting sheet, and prints.
pub fn X(start: &[u8], file: &str, number: u64, incoming: &str) -> String {
    XC(start, file, number, incoming, start)
}

/// Patches another current sheet.
pub fn XC(start: &[u8], file: &str, number: u64, incoming: &str, current: &[u8]) -> String {
    let (text, cell) = (bytes(file), bytes(incoming));
    let rooms = Rooms { cells: 64, entries: 256 };
    let mut sheet = current.to_vec();
    match patch(start, &text, number, &cell, &mut sheet, rooms, rooms) {
        Ok(_) => sheet_lines(&sheet),
        Err(refusal) => {
            assert_eq!(sheet, current, "a refused patch keeps the current sheet");
            let (which, read) = if refusal.incoming { ("incoming", cell) } else { ("file", text) };
            let place = refusal.place;
            format!("refused {} at {place} in {which}: {}", refusal.number, from(&read, place))
        }
    }
}

fn sheet_lines(bytes: &[u8]) -> String {
    let mut lines = String::new();
    for (key, arc) in check_sheet(bytes).expect("a sheet").arcs {
        let mut words = vec![kind_of_number(key.kind).expect("a kind").keyword.to_string()];
        for (edge, end) in [(key.edge1, &key.end1), (key.edge2, &key.end2)] {
            words.extend((edge != 0).then(|| edge_word(edge).to_string()));
            words.extend((!end.is_empty()).then(|| String::from_utf8_lossy(end).into_owned()));
        }
        words.extend(arc.values.iter().step_by(3).map(|value| value.map_or("_".into(), |value| value.to_string())));
        writeln!(lines, "{}", words.join(" ")).expect("writing to a string");
    }
    lines
}

/// Judges a sheet.
pub fn Q(bytes: &[u8]) -> &'static str {
    match check_sheet(bytes) {
        Ok(sheet) => {
            assert_eq!(encode(&sheet), bytes);
            "fine"
        }
        Err(()) => "refused 10 at 0",
    }
}

/// A word as a time: none if it isn't a number.
pub fn time_of(word: &str, signed: bool, scale: u32) -> Option<Result<i64, u8>> {
    Some(time(&decimal(word.as_bytes(), signed)?, scale).map_err(|reason| reason.number()))
}

/// The refusal of a text that isn't the incoming one.
pub fn refusal(number: u8, place: usize) -> Refusal {
    Refusal { number, place, incoming: false }
}
