//! A refusal in words, for people: where it is, the line with a caret, and what the cell and the entry say.

use std::fmt::Write;

use proved::{cell, entry, Cell, Entry, Part, Path, CELL_WORDS, ENTRY_WORDS};

use crate::explain;
use crate::names::{full_name, with_dots};
use crate::sheet::type_of;

/// How many bytes of a line are shown at most, and how many of them before the word.
const SHOWN: usize = 100;
const BEFORE: usize = 50;

/// How many bytes of a word are shown at most.
const WORD: usize = 60;

/// A refusal of a text.
pub struct Refused<'r> {
    pub number: u64,
    pub place: u64,
    /// Which text of a patch, as ` in file` or ` in incoming`; else nothing.
    pub which: &'r str,
    /// The text's file, and its bytes.
    pub name: &'r str,
    pub text: &'r [u8],
}

impl Refused<'_> {
    /// `FILE:LINE:COLUMN: refused N at P`, what that means, and the word with its line.
    pub fn words(&self) -> String {
        let place = (self.place as usize).min(self.text.len());
        let (line, column) = line_and_column(self.text, place);
        let short = explain::refusal(self.number).map_or("unknown", |refusal| refusal.short);
        let head = format!("{}:{line}:{column}: refused {} at {}{}", self.name, self.number, self.place, self.which);
        if matches!(self.number, 1 | 10 | 11 | 17 | 18) {
            return format!("{head}: {short}\n");
        }
        if place == self.text.len() {
            return format!("{head}: the text ends too soon\n{}", excerpt(self.text, place, line));
        }
        format!("{head}: {short}: {}\n{}", word_shown(self.text, place), excerpt(self.text, place, line))
    }
}

/// Both from 1; columns count bytes.
pub fn line_and_column(text: &[u8], place: usize) -> (usize, usize) {
    let before = &text[..place];
    let line = 1 + before.iter().filter(|byte| **byte == b'\n').count();
    (line, place - line_start(before) + 1)
}

fn line_start(before: &[u8]) -> usize {
    before.iter().rposition(|byte| *byte == b'\n').map_or(0, |newline| newline + 1)
}

/// How many bytes the word, string or byte at a place has: for the eye only.
fn word_length(text: &[u8], place: usize) -> usize {
    let rest = &text[place..];
    let in_word = |byte: &u8| byte.is_ascii_alphanumeric() || b"_$./[]+-\\:".contains(byte);
    match rest.first() {
        Some(b'"') => 1 + rest[1..].iter().position(|byte| *byte == b'"').map_or(0, |quote| quote + 1),
        Some(first) if in_word(first) && *first != b':' => {
            rest.iter().position(|byte| !in_word(byte)).unwrap_or(rest.len())
        }
        _ => 1,
    }
}

fn word_shown(text: &[u8], place: usize) -> String {
    let length = word_length(text, place);
    let shown: String = text[place..place + length.min(WORD)].escape_ascii().to_string();
    let shown = shown.replace("\\\\", "\\").replace("\\\"", "\"").replace("\\'", "'");
    if length > WORD {
        format!("{shown}...")
    } else {
        shown
    }
}

/// Bytes as a terminal may show them, one column each.
fn plain(bytes: &[u8]) -> String {
    let plain = |byte: &u8| match byte {
        b'\t' => ' ',
        0x20..=0x7E => *byte as char,
        _ => '?',
    };
    bytes.iter().map(plain).collect()
}

/// The line that a place is in, and a caret under each byte of the word there.
fn excerpt(text: &[u8], place: usize, line: usize) -> String {
    let start = line_start(&text[..place]);
    let end = text[place..].iter().position(|byte| *byte == b'\n').map_or(text.len(), |newline| place + newline);
    let end = if end > place && text[end - 1] == b'\r' { end - 1 } else { end };
    let from = start.max(place.saturating_sub(BEFORE));
    let to = end.min(from + SHOWN);
    let (cut_before, cut_after) = (if from > start { "..." } else { "" }, if to < end { "..." } else { "" });
    let carets = if place < text.len() { word_length(text, place).min(to.saturating_sub(place)).max(1) } else { 1 };
    let margin = format!("{line:>5}");
    format!(
        "{margin} | {cut_before}{}{cut_after}\n{} | {}{}\n",
        plain(&text[from..to]),
        " ".repeat(margin.len()),
        " ".repeat(cut_before.len() + place - from),
        "^".repeat(carets)
    )
}

/// What refusals 12 to 16 are about: the text that was read, and the starting sheet.
pub struct About<'r> {
    pub text: &'r [u8],
    pub slash: bool,
    /// The text's tables, with room behind the last record as lent: 0.
    pub cells: &'r [u64],
    pub entries: &'r [u64],
    pub start: &'r [u8],
}

/// A cell with its number, and its entry with its number, each from 1.
type Found<'r> = (usize, Cell, Option<(usize, Entry<'r>)>);

impl<'r> About<'r> {
    /// The cell, and for 14 to 16 the entry, whose keyword stands at a place. No keyword stands at 0.
    fn find(&self, place: u64) -> Option<Found<'r>> {
        let mut entries = self.entries.chunks_exact(ENTRY_WORDS).map(entry);
        let cells = self.cells.chunks_exact(CELL_WORDS).map(cell).take_while(|cell| cell.place != 0);
        for (number, cell) in (1..).zip(cells) {
            if cell.place as u64 == place {
                return Some((number, cell, None));
            }
            let its = (1..).zip(entries.by_ref().take(cell.entries));
            for (entry_number, entry) in its {
                if entry.place as u64 == place {
                    return Some((number, cell, Some((entry_number, entry))));
                }
            }
        }
        None
    }

    /// The cell and the entry in words.
    pub fn words(&self, number: u64, place: u64) -> String {
        let Some((cell_number, cell, entry)) = self.find(place) else {
            return String::new();
        };
        let mut words = format!("  cell {cell_number}: {}\n", self.cell_words(&cell));
        if let Some((entry_number, entry)) = entry {
            // Writing to a String cannot fail.
            let _ = writeln!(words, "  entry {entry_number} of this cell: {}", self.entry_words(&entry));
            if let (14, Some(path)) = (number, self.path(&cell)) {
                let _ = writeln!(words, "  the arc: {}", self.arc_words(&path, &entry));
            }
        }
        if let (13, Some(found)) = (number, self.path(&cell).and_then(|path| type_of(self.start, &path))) {
            let _ = writeln!(words, "  on the sheet its type is \"{}\"", plain(found));
        }
        words
    }

    fn cell_words(&self, cell: &Cell) -> String {
        let type_text = plain(cell.type_text.of(self.text));
        match cell.path {
            Path::Top => format!("type \"{type_text}\", the top level"),
            Path::Star => format!("type \"{type_text}\", every instance of this type (*)"),
            Path::Path(part) => format!("type \"{type_text}\", instance {}", plain(part.of(self.text))),
        }
    }

    fn entry_words(&self, entry: &Entry) -> String {
        let mut words = format!("{} {}", entry.group.word(), entry.kind.keyword());
        let ends = [(entry.edge1, entry.end1), (entry.edge2, entry.end2)];
        for (preposition, (edge, end)) in prepositions(entry).into_iter().zip(ends) {
            let Some(end) = end else {
                continue;
            };
            let edge = if edge.0 == 0 { String::new() } else { format!("{} ", edge.word()) };
            // Writing to a String cannot fail.
            let _ = write!(words, " {preposition} {edge}{}", plain(end.of(self.text)));
        }
        words
    }

    /// The full names of the arc that an entry addresses in the instance with this path.
    fn arc_words(&self, path: &[u8], entry: &Entry) -> String {
        let full = |part: Part| plain(&full_name(path, &with_dots(part.of(self.text), self.slash)));
        let ends: Vec<String> = [entry.end1, entry.end2].into_iter().flatten().map(full).collect();
        match (entry.kind, ends.is_empty()) {
            (proved::Kind::DEVICE, true) => format!("some IOPATH to a port of {}", plain(path)),
            (proved::Kind::DEVICE, false) => format!("some IOPATH to {}", ends.concat()),
            _ => format!("{} with the full names {}", entry.kind.keyword(), ends.join(" and ")),
        }
    }

    /// The path of the one instance that a cell applies to.
    fn path(&self, cell: &Cell) -> Option<Vec<u8>> {
        match cell.path {
            Path::Top => Some(Vec::new()),
            Path::Path(part) => Some(with_dots(part.of(self.text), self.slash)),
            Path::Star => None,
        }
    }
}

/// How the ends of an entry are told: a delay goes from one to the other, a check is of one against the other.
fn prepositions(entry: &Entry) -> [&'static str; 2] {
    match (entry.group.0, entry.end2) {
        (b'T', _) => ["of", "against"],
        (_, Some(_)) => ["from", "to"],
        (_, None) => ["at", ""],
    }
}

#[cfg(test)]
mod tests {
    use super::*;

    fn words(number: u64, place: u64, text: &[u8]) -> String {
        Refused { number, place, which: "", name: "f.sdf", text }.words()
    }

    #[test]
    fn word_and_line() {
        assert_eq!(
            words(4, 13, b"(DELAYFILE\r\n\t(sdfversion \"4.0\"))\r\n"),
            "f.sdf:2:2: refused 4 at 13: this cannot stand here: (\n    2 |  (sdfversion \"4.0\"))\n      |  ^\n"
        );
        assert_eq!(
            words(8, 3, b"a\n(abc_d\\.e)"),
            "f.sdf:2:2: refused 8 at 3: a word or string of more than 1,024 bytes: abc_d\\.e\n    \
             2 | (abc_d\\.e)\n      |  ^^^^^^^^\n"
        );
    }

    #[test]
    fn ends_and_odd_bytes() {
        assert_eq!(words(4, 3, b"ab\n"), "f.sdf:2:1: refused 4 at 3: the text ends too soon\n    2 | \n      | ^\n");
        assert!(words(4, 0, b"").starts_with("f.sdf:1:1: refused 4 at 0: the text ends too soon\n"));
        assert!(words(2, 1, b"a\x1bb").contains(": \\x1b\n    1 | a?b\n      |  ^\n"));
        assert_eq!(words(17, 0, b"x"), "f.sdf:1:1: refused 17 at 0: the file has no cell of that number\n");
    }

    #[test]
    fn long_lines_are_cut() {
        let text = [b"x ".repeat(500), b"y".repeat(2000), b" z".repeat(500)].concat();
        let words = words(8, 1000, &text);
        assert!(words.lines().all(|line| line.len() < 160), "{words}");
        let (line, carets) = (words.lines().nth(1).unwrap(), words.lines().nth(2).unwrap());
        assert_eq!(line.find('y'), carets.find('^'));
        assert!(line.ends_with("..."));
    }
}
