//! What a call leaves, in the words of the static library: by the library, and by the second program.

use proved::{Functions, Swap, Tables, ABSENT, CELL_WORDS, ENTRY_WORDS, HEADER_TEXTS};
use second::{outcome, Answer, Case, Cell, Entry, File, Kind, Part, Path, Refusal, Rooms};

/// Everything that a caller can see after a call.
#[derive(Debug)]
pub struct Left {
    /// The answer's words, as the C structs have them: the number first, 0 for none.
    pub answer: Vec<u64>,
    /// Some of the header's texts.
    pub header: Vec<(u64, u64)>,
    pub tokens: usize,
    pub tables: Lent,
    pub incoming_tables: Lent,
    pub sheet: Vec<u8>,
}

impl Left {
    /// What differs, if anything does.
    pub fn difference(&self, other: &Left) -> Option<&'static str> {
        let parts = [
            ("the answer", self.answer == other.answer),
            ("the header's texts", self.header == other.header),
            ("the number of tokens", self.tokens == other.tokens),
            ("the cells", self.tables.cells == other.tables.cells),
            ("the entries", self.tables.entries == other.tables.entries),
            ("the incoming cells", self.incoming_tables.cells == other.incoming_tables.cells),
            ("the incoming entries", self.incoming_tables.entries == other.incoming_tables.entries),
            ("the sheet", self.sheet == other.sheet),
        ];
        parts.into_iter().find(|(_, same)| !same).map(|(name, _)| name)
    }
}

/// What a lent table holds before the call, word by word.
pub fn as_lent(word: usize) -> u64 {
    0xA5A5_5A5A_0F0F_F0F0 ^ (word as u64 * 0x1_0001)
}

/// Lent tables.
#[derive(Clone, Debug, Default, PartialEq, Eq)]
pub struct Lent {
    pub cells: Vec<u64>,
    pub entries: Vec<u64>,
}

impl Lent {
    /// Tables for these rooms, with some words too few for one more record, all holding a pattern.
    fn new(text: &[u8], rooms: Rooms) -> Lent {
        let pattern = |length: usize| (0..length).map(as_lent).collect();
        let (cells, entries) = (rooms.cells * CELL_WORDS, rooms.entries * ENTRY_WORDS);
        Lent { cells: pattern(cells + text.len() % CELL_WORDS), entries: pattern(entries + text.len() % ENTRY_WORDS) }
    }

    fn tables(&mut self) -> Tables<'_> {
        Tables { cells: &mut self.cells, entries: &mut self.entries }
    }

    /// Puts in what the second program read, if it did.
    fn fill(mut self, file: Option<&File>) -> Lent {
        for (cell, room) in file.iter().flat_map(|file| &file.cells).zip(self.cells.chunks_exact_mut(CELL_WORDS)) {
            room.copy_from_slice(&cell_words(cell));
        }
        for (entry, room) in file.iter().flat_map(|file| &file.entries).zip(self.entries.chunks_exact_mut(ENTRY_WORDS))
        {
            room.copy_from_slice(&entry_words(entry));
        }
        self
    }
}

/// "keyword place, type from, type to, sort of path (0 top level, 1 a path, 2 `*`), path from, path to, number of entries"
fn cell_words(cell: &Cell) -> [u64; CELL_WORDS] {
    let (sort, path) = match cell.path {
        Path::Top => (0, None),
        Path::Path(part) => (1, Some(part)),
        Path::Star => (2, None),
    };
    let [path_from, path_to] = part_words(path);
    let [type_from, type_to] = part_words(Some(cell.type_text));
    [cell.place as u64, type_from, type_to, sort, path_from, path_to, cell.entries as u64]
}

/// "kind, group, keyword place, edge1, from1, to1, edge2, from2, to2, how many values, then 6 x 3 values"
fn entry_words(entry: &Entry) -> [u64; ENTRY_WORDS] {
    let mut words = [ABSENT; ENTRY_WORDS];
    let kind = match entry.kind {
        Kind::Device => 4,
        kind => u64::from(kind.facts().number),
    };
    words[..3].copy_from_slice(&[kind, u64::from(entry.group.letter()), entry.place as u64]);
    words[3] = u64::from(entry.edge1);
    words[4..6].copy_from_slice(&part_words(entry.end1));
    words[6] = u64::from(entry.edge2);
    words[7..9].copy_from_slice(&part_words(entry.end2));
    words[9] = entry.values.len() as u64;
    for (word, number) in words[10..].iter_mut().zip(entry.values.iter().flatten()) {
        *word = number.map_or(ABSENT, |number| number as u64);
    }
    words
}

fn part_words(part: Option<Part>) -> [u64; 2] {
    part.map_or([0, 0], |part| [part.start as u64, part.end as u64])
}

/// What differs between the two programs on a case, if anything does. Where the library lacks the operation, only the
/// tokens of the text are compared.
pub fn difference(case: &Case) -> Option<&'static str> {
    match missing(case) {
        None => by_second(case).difference(&by_proved(case)),
        Some(_) => (second_tokens(case) != proved_tokens(case)).then_some("the number of tokens"),
    }
}

pub fn second_tokens(case: &Case) -> usize {
    second::tokens::tokens(text_of(case).0).list.len()
}

pub fn proved_tokens(case: &Case) -> usize {
    proved::count_tokens(text_of(case).0)
}

/// The feature without which a case cannot be run.
pub fn missing(case: &Case) -> Option<&'static str> {
    let (functions, feature) = match case {
        Case::ReadFile { .. } => (Functions::Read, "read"),
        Case::ReadCell { .. } => (Functions::Cell, "cell"),
        Case::CheckSheet { .. } => (Functions::Sheet, "sheet"),
        Case::Annotate { .. } => (Functions::Annotate, "annotate"),
        Case::Patch { .. } => (Functions::Patch, "patch"),
    };
    (!proved::has(functions)).then_some(feature)
}

/// The main text of a case, and the room for it.
fn text_of(case: &Case) -> (&[u8], Rooms) {
    match case {
        Case::ReadFile { text, rooms } | Case::ReadCell { text, rooms, .. } | Case::Annotate { text, rooms, .. } => {
            (text, *rooms)
        }
        Case::Patch { file, file_rooms, .. } => (file, *file_rooms),
        Case::CheckSheet { bytes } => (bytes, Rooms { cells: 0, entries: 0 }),
    }
}

/// The tables lent for a case, the main text's and the incoming one's.
fn lent(case: &Case) -> (Lent, Lent) {
    let (text, rooms) = text_of(case);
    let incoming = match case {
        Case::Patch { incoming, incoming_rooms, .. } => Lent::new(incoming, *incoming_rooms),
        _ => Lent::default(),
    };
    (Lent::new(text, rooms), incoming)
}

/// The sheet that a case lends to be written.
fn lent_sheet(case: &Case) -> Vec<u8> {
    match case {
        Case::Annotate { out, .. } => out.clone(),
        Case::Patch { current, .. } => current.clone(),
        _ => Vec::new(),
    }
}

pub fn by_second(case: &Case) -> Left {
    let outcome = outcome(case);
    let (tables, incoming_tables) = lent(case);
    Left {
        answer: answer_words(case, &outcome.answer, outcome.tables.as_ref()),
        header: second_header(case, outcome.tables.as_ref()),
        tokens: second_tokens(case),
        tables: tables.fill(outcome.tables.as_ref()),
        incoming_tables: incoming_tables.fill(outcome.incoming_tables.as_ref()),
        sheet: outcome.sheet.unwrap_or_default(),
    }
}

/// From, to of each of the header's texts: "a missing one, or a refused file: 0,0". A single cell has none.
fn second_header(case: &Case, file: Option<&File>) -> Vec<(u64, u64)> {
    let (Case::ReadFile { .. } | Case::ReadCell { .. }) = case else {
        return Vec::new();
    };
    let part = |keyword: &&str| {
        let found = file.and_then(|file| file.header.iter().find(|text| text.0 == *keyword));
        found.map_or((0, 0), |text| (text.1 as u64, text.2 as u64))
    };
    HEADER_TEXTS.iter().map(part).collect()
}

/// The answer as the C struct of this operation has it. After a refusal the rest is 0.
fn answer_words(case: &Case, answer: &Answer, file: Option<&File>) -> Vec<u64> {
    match *answer {
        Answer::Read(counts) => {
            let (slash, scale) = file.map_or((0, 0), |file| (u64::from(file.divider == b'/'), u64::from(file.scale)));
            vec![0, 0, counts.cells as u64, counts.entries as u64, slash, scale]
        }
        Answer::Sheet { instances, arcs } => vec![0, 0, instances as u64, arcs as u64],
        Answer::Annotated(_) | Answer::Patched { .. } => vec![0, 0, 0],
        Answer::Refused(refusal) => refusal_words(case, refusal),
    }
}

fn refusal_words(case: &Case, refusal: Refusal) -> Vec<u64> {
    let (number, place) = (u64::from(refusal.number), refusal.place as u64);
    match case {
        Case::ReadFile { .. } | Case::ReadCell { .. } => vec![number, place, 0, 0, 0, 0],
        Case::CheckSheet { .. } => vec![number, place, 0, 0],
        Case::Annotate { .. } | Case::Patch { .. } => vec![number, place, u64::from(refusal.incoming)],
    }
}

pub fn by_proved(case: &Case) -> Left {
    let (mut tables, mut incoming_tables) = lent(case);
    let mut sheet = lent_sheet(case);
    let (answer, header) = proved_answer(case, &mut tables.tables(), &mut incoming_tables.tables(), &mut sheet);
    Left { answer, header, tokens: proved_tokens(case), tables, incoming_tables, sheet }
}

/// The answer's numbers, and the places of the header's texts where a text is read.
fn proved_answer(
    case: &Case,
    tables: &mut Tables,
    incoming_tables: &mut Tables,
    sheet: &mut [u8],
) -> (Vec<u64>, Vec<(u64, u64)>) {
    let words = match case {
        Case::ReadFile { text, .. } => return read_words(proved::read_file(text, tables)),
        Case::ReadCell { text, divider, scale, .. } => {
            return read_words(proved::read_cell(text, *divider == b'/', u64::from(*scale), tables));
        }
        Case::CheckSheet { bytes } => {
            let answer = proved::check_sheet(bytes);
            vec![answer.number, answer.place, answer.instances, answer.arcs]
        }
        Case::Annotate { start, text, .. } => result_words(proved::annotate(start, text, tables, sheet)),
        Case::Patch { start, file, number, incoming, .. } => {
            let swap = Swap { start, file, number: *number, incoming };
            result_words(proved::patch(swap, sheet, tables, incoming_tables))
        }
    };
    (words, Vec::new())
}

fn read_words(answer: proved::ReadAnswer) -> (Vec<u64>, Vec<(u64, u64)>) {
    let header = answer.texts.chunks(2).map(|part| (part[0] as u64, part[1] as u64)).collect();
    (vec![answer.number, answer.place, answer.cells, answer.entries, answer.slash, answer.scale], header)
}

fn result_words(answer: proved::ResultAnswer) -> Vec<u64> {
    vec![answer.number, answer.place, answer.incoming]
}

#[cfg(test)]
mod tests {
    use super::*;

    /// A change of any part is a difference, and is named.
    #[test]
    fn every_part_counts() {
        let patch = |case: &Case| matches!(case, Case::Patch { .. }) && by_second(case).answer[0] == 0;
        let case = (0..).map(second::case).find(patch).unwrap();
        let changed = |change: fn(&mut Left)| {
            let mut left = by_second(&case);
            change(&mut left);
            by_second(&case).difference(&left)
        };
        assert_eq!(changed(|_| {}), None);
        assert_eq!(changed(|left| left.answer[1] += 1), Some("the answer"));
        assert_eq!(changed(|left| left.header.push((0, 0))), Some("the header's texts"));
        assert_eq!(changed(|left| left.tokens += 1), Some("the number of tokens"));
        assert_eq!(changed(|left| *left.tables.cells.last_mut().unwrap() ^= 1), Some("the cells"));
        assert_eq!(changed(|left| left.tables.entries.push(0)), Some("the entries"));
        assert_eq!(changed(|left| left.incoming_tables.cells[0] ^= 1), Some("the incoming cells"));
        assert_eq!(changed(|left| left.incoming_tables.entries.clear()), Some("the incoming entries"));
        assert_eq!(changed(|left| left.sheet[0] ^= 1), Some("the sheet"));
    }

    /// A refused text's tables, and the room behind the last record, are as lent.
    #[test]
    fn what_is_as_lent() {
        let lent = Lent::new(b"12", Rooms { cells: 1, entries: 1 });
        assert_eq!((lent.cells.len(), lent.entries.len()), (9, 30));
        assert!(lent.cells.iter().enumerate().all(|(place, word)| *word == as_lent(place)));
        let case = Case::ReadFile { text: b"(".to_vec(), rooms: Rooms { cells: 2, entries: 0 } };
        let left = by_second(&case);
        assert_eq!(left.answer, [4, 1, 0, 0, 0, 0]);
        assert_eq!(left.tables, Lent::new(b"(", Rooms { cells: 2, entries: 0 }));
    }
}
