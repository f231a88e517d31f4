//! The records of the lent tables, taken apart.

/// Words of a cell: keyword place, type from, type to, sort of path, path from, path to, number of entries.
pub const CELL_WORDS: usize = 7;

/// Words of an entry: kind, group, keyword place, edge, from, to, edge, from, to, how many values, six values of three.
pub const ENTRY_WORDS: usize = 28;

/// The word of a number that is absent, or of a value that was not written.
pub const ABSENT: u64 = 1 << 63;

/// A part of a text: the bytes from `from` up to, not including, `to`.
#[derive(Clone, Copy, Debug, PartialEq, Eq)]
pub struct Part {
    pub from: usize,
    pub to: usize,
}

impl Part {
    pub fn of(self, text: &[u8]) -> &[u8] {
        text.get(self.from..self.to).unwrap_or(&[])
    }
}

/// "INSTANCE with a path, nothing (the top level) or `*`"
#[derive(Clone, Copy, Debug, PartialEq, Eq)]
pub enum Path {
    Top,
    Path(Part),
    Star,
}

#[derive(Clone, Copy, Debug, PartialEq, Eq)]
pub struct Cell {
    /// Where the word CELL stands.
    pub place: usize,
    /// The CELLTYPE text, between the quotes.
    pub type_text: Part,
    pub path: Path,
    pub entries: usize,
}

/// A kind by its number in a sheet; DEVICE, which has no records there, is 4.
#[derive(Clone, Copy, Debug, PartialEq, Eq)]
pub struct Kind(pub u64);

impl Kind {
    pub const DEVICE: Kind = Kind(4);

    pub fn keyword(self) -> &'static str {
        match self.0 {
            1 => "IOPATH",
            2 => "INTERCONNECT",
            3 => "PORT",
            4 => "DEVICE",
            11 => "SETUP",
            12 => "HOLD",
            13 => "SETUPHOLD",
            14 => "RECOVERY",
            15 => "REMOVAL",
            16 => "RECREM",
            17 => "SKEW",
            18 => "BIDIRECTSKEW",
            19 => "WIDTH",
            20 => "PERIOD",
            21 => "NOCHANGE",
            _ => "?",
        }
    }

    /// How many rows of values a sheet's record of this kind uses.
    pub fn rows(self) -> usize {
        match self.0 {
            1..=4 => 6,
            13 | 16 | 18 | 21 => 2,
            _ => 1,
        }
    }
}

/// An edge by its number: 0 none, then posedge, negedge, 01, 10, 0z, z1, 1z, z0.
#[derive(Clone, Copy, Debug, PartialEq, Eq)]
pub struct Edge(pub u64);

impl Edge {
    /// The edge's word; `-` for none.
    pub fn word(self) -> &'static str {
        let words = ["-", "posedge", "negedge", "01", "10", "0z", "z1", "1z", "z0"];
        usize::try_from(self.0).ok().and_then(|number| words.get(number)).copied().unwrap_or("?")
    }
}

/// The group by its letter.
#[derive(Clone, Copy, Debug, PartialEq, Eq)]
pub struct Group(pub u8);

impl Group {
    pub fn word(self) -> &'static str {
        match self.0 {
            b'A' => "ABSOLUTE",
            b'I' => "INCREMENT",
            b'T' => "TIMINGCHECK",
            _ => "?",
        }
    }
}

#[derive(Clone, Copy, Debug, PartialEq, Eq)]
pub struct Entry<'t> {
    pub kind: Kind,
    pub group: Group,
    /// Where the entry's keyword stands.
    pub place: usize,
    pub edge1: Edge,
    pub end1: Option<Part>,
    pub edge2: Edge,
    pub end2: Option<Part>,
    /// The values that were written, three words each.
    values: &'t [u64],
}

impl<'t> Entry<'t> {
    /// Minimum, typical and maximum of each value that was written, in femtoseconds.
    pub fn values(self) -> impl Iterator<Item = [Option<i64>; 3]> + 't {
        self.values.chunks_exact(3).map(|three| [number(three[0]), number(three[1]), number(three[2])])
    }
}

fn number(word: u64) -> Option<i64> {
    (word != ABSENT).then_some(word as i64)
}

fn part(from: u64, to: u64) -> Part {
    Part { from: from as usize, to: to as usize }
}

/// An end: "a missing end is 0,0", and no end that was written is empty.
fn end(from: u64, to: u64) -> Option<Part> {
    (to != 0).then(|| part(from, to))
}

/// The cell in these [`CELL_WORDS`] words.
pub fn cell(words: &[u64]) -> Cell {
    let path = match words[3] {
        0 => Path::Top,
        1 => Path::Path(part(words[4], words[5])),
        _ => Path::Star,
    };
    Cell { place: words[0] as usize, type_text: part(words[1], words[2]), path, entries: words[6] as usize }
}

/// The entry in these [`ENTRY_WORDS`] words.
pub fn entry(words: &[u64]) -> Entry<'_> {
    let written = (words[9] as usize).min(6);
    Entry {
        kind: Kind(words[0]),
        group: Group(words[1] as u8),
        place: words[2] as usize,
        edge1: Edge(words[3]),
        end1: end(words[4], words[5]),
        edge2: Edge(words[6]),
        end2: end(words[7], words[8]),
        values: &words[10..10 + 3 * written],
    }
}

/// The first cells of a table, so many as were read.
pub fn cells(table: &[u64], count: u64) -> impl Iterator<Item = Cell> + '_ {
    table.chunks_exact(CELL_WORDS).take(count as usize).map(cell)
}

/// The first entries of a table, so many as were read.
pub fn entries(table: &[u64], count: u64) -> impl Iterator<Item = Entry<'_>> + '_ {
    table.chunks_exact(ENTRY_WORDS).take(count as usize).map(entry)
}
