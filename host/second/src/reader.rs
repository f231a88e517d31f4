//! Reading: the grammar of a file and of a cell, over the list of tokens (document 01, "The part
//! of SDF we carry", "What reading leaves", "Refusal numbers and their order").
//!
//! Tokens are judged from the first to the last, and each one as far as the paper goes before the
//! next: so the first refusal met is the one with the lowest place. For one word the order is 4 or
//! 5, then 6 or 7, then 8, then 9, which is "then the lowest number".

use crate::kinds::{Facts, Kind, EDGES, KINDS};
use crate::names::{is_name, Use};
use crate::numbers::{decimal, time, Decimal};
use crate::refusal::Refusal;
use crate::tokens::{tokens, Token, TokenKind, Tokens};

/// "text longer than 16,777,216 bytes"
pub const TEXT_LIMIT: usize = 16_777_216;

/// "word or string content over 1,024 bytes as written"
const WORD_LIMIT: usize = 1_024;

/// A part of a text: the bytes from `start` up to, not including, `end`.
#[derive(Clone, Copy, Debug, PartialEq, Eq)]
pub struct Part {
    pub start: usize,
    pub end: usize,
}

impl Part {
    pub fn of(self, text: &[u8]) -> &[u8] {
        text.get(self.start..self.end).unwrap_or(&[])
    }
}

/// "INSTANCE with a path, nothing (the top level) or `*`"
#[derive(Clone, Copy, Debug, PartialEq, Eq)]
pub enum Path {
    Top,
    Path(Part),
    Star,
}

/// "keyword place, type text, instance path, number of entries"
#[derive(Clone, Copy, Debug, PartialEq, Eq)]
pub struct Cell {
    pub place: usize,
    pub type_text: Part,
    pub path: Path,
    pub entries: usize,
    /// "its bytes from `(` to `)`", both included.
    pub whole: Part,
}

/// "group (A, I or T)"
#[derive(Clone, Copy, Debug, PartialEq, Eq)]
pub enum Group {
    Absolute,
    Increment,
    Check,
}

impl Group {
    pub fn letter(self) -> u8 {
        match self {
            Group::Absolute => b'A',
            Group::Increment => b'I',
            Group::Check => b'T',
        }
    }
}

/// "So each of the three numbers is supplied or absent."
pub type Value = [Option<i64>; 3];

/// "kind, group (A, I or T), keyword place, both ends with edges, and the values as written"
#[derive(Clone, Debug, PartialEq, Eq)]
pub struct Entry {
    pub kind: Kind,
    pub group: Group,
    pub place: usize,
    pub edge1: u8,
    pub end1: Option<Part>,
    pub edge2: u8,
    pub end2: Option<Part>,
    pub values: Vec<Value>,
}

/// What a text says: the header's texts ("the bytes between the quotes") by their keywords, the
/// divider, the time scale as a power of ten in femtoseconds, and the two lists.
#[derive(Clone, Debug, PartialEq, Eq)]
pub struct File {
    pub header: Vec<(&'static str, usize, usize)>,
    pub divider: u8,
    pub scale: u32,
    pub cells: Vec<Cell>,
    pub entries: Vec<Entry>,
}

impl File {
    /// Each cell with its own entries, in file order.
    pub fn cells_with_entries(&self) -> Vec<(&Cell, &[Entry])> {
        let mut rest: &[Entry] = &self.entries;
        let mut all = Vec::new();
        for cell in &self.cells {
            let (own, behind) = rest.split_at(cell.entries.min(rest.len()));
            all.push((cell, own));
            rest = behind;
        }
        all
    }
}

/// The rooms of the two lists that are lent for a text.
#[derive(Clone, Copy, Debug, PartialEq, Eq)]
pub struct Rooms {
    pub cells: usize,
    pub entries: usize,
}

/// Reads a whole file.
pub fn read_file(text: &[u8], cell_room: usize, entry_room: usize) -> Result<File, Refusal> {
    // "`.` unless DIVIDER says otherwise", "Without it, 1 ns."
    let rooms = Rooms { cells: cell_room, entries: entry_room };
    let mut reader = Reader::new(text, b'.', 6, rooms)?;
    reader.delay_file()?;
    reader.end()?;
    Ok(reader.file)
}

/// "The incoming text is one cell, white space and comments around it, read with the file's
/// divider and time scale (4 and 5 then speak of a cell)". The divider is `.` or `/`.
pub fn read_cell(text: &[u8], divider: u8, scale: u32, rooms: Rooms) -> Result<File, Refusal> {
    let cell = || {
        let mut reader = Reader::new(text, divider, scale, rooms)?;
        reader.cell()?;
        reader.end()?;
        Ok(reader.file)
    };
    cell().map_err(|refusal: Refusal| Refusal { incoming: true, ..refusal })
}

/// "Not carried yet"
const NOT_CARRIED: [&str; 10] =
    ["COND", "CONDELSE", "SCOND", "CCOND", "RETAIN", "PATHPULSE", "PATHPULSEPERCENT", "NETDELAY", "TIMINGENV", "LABEL"];

/// "DIVIDER takes `.` or `/`; VOLTAGE and TEMPERATURE a signed number or a bare signed triple;
/// TIMESCALE a number and a unit; the rest a quoted string."
#[derive(Clone, Copy)]
enum HeaderItem {
    Text,
    Divider,
    Numbers,
    Timescale,
}

/// "Header entries in this order, all but the first optional": the optional ones.
const OPTIONAL_HEADER: [(&str, HeaderItem); 10] = [
    ("DESIGN", HeaderItem::Text),
    ("DATE", HeaderItem::Text),
    ("VENDOR", HeaderItem::Text),
    ("PROGRAM", HeaderItem::Text),
    ("VERSION", HeaderItem::Text),
    ("DIVIDER", HeaderItem::Divider),
    ("VOLTAGE", HeaderItem::Numbers),
    ("PROCESS", HeaderItem::Text),
    ("TEMPERATURE", HeaderItem::Numbers),
    ("TIMESCALE", HeaderItem::Timescale),
];

/// "TIMESCALE takes 1, 10, 100, 1.0, 10.0 or 100.0", as powers of ten.
const SCALE_NUMBERS: [(&str, u32); 6] = [("1", 0), ("10", 1), ("100", 2), ("1.0", 0), ("10.0", 1), ("100.0", 2)];

/// "with s, ms, us, ns, ps or fs", as powers of ten in femtoseconds.
const SCALE_UNITS: [(&str, u32); 6] = [("s", 15), ("ms", 12), ("us", 9), ("ns", 6), ("ps", 3), ("fs", 0)];

struct Reader<'t> {
    text: &'t [u8],
    tokens: Tokens,
    /// The number of tokens already taken.
    taken: usize,
    rooms: Rooms,
    file: File,
}

type Read<T> = Result<T, Refusal>;

/// Tokens and words.
impl<'t> Reader<'t> {
    fn new(text: &'t [u8], divider: u8, scale: u32, rooms: Rooms) -> Read<Reader<'t>> {
        if text.len() > TEXT_LIMIT {
            return Err(Refusal::in_file(1, 0));
        }
        let file = File { header: Vec::new(), divider, scale, cells: Vec::new(), entries: Vec::new() };
        Ok(Reader { text, tokens: tokens(text), taken: 0, rooms, file })
    }

    fn next_is(&self, kind: TokenKind) -> bool {
        self.tokens.list.get(self.taken).is_some_and(|token| token.kind == kind)
    }

    fn bytes(&self, token: Token) -> &'t [u8] {
        self.text.get(token.start()..token.end()).unwrap_or(&[])
    }

    /// The bytes of the token with this number, if it is a word.
    fn word(&self, number: usize) -> Option<&'t [u8]> {
        let token = self.tokens.list.get(number)?;
        (token.kind == TokenKind::Word).then(|| self.bytes(*token))
    }

    /// The refusal of the next token: 4, or "5: as 4, but the token is a word from the "not
    /// carried" list right after `(`". Behind the last token: the refusal 2 or 3 found there, or
    /// "the text ends too soon".
    fn wrong(&self) -> Refusal {
        let Some(token) = self.tokens.list.get(self.taken) else {
            let (number, place) = self.tokens.fault.unwrap_or((4, self.text.len()));
            return Refusal::in_file(number, place);
        };
        let before = self.taken.checked_sub(1).and_then(|number| self.tokens.list.get(number));
        let after_open = before.is_some_and(|token| token.kind == TokenKind::Open);
        let listed = self.word(self.taken).is_some_and(|word| NOT_CARRIED.iter().any(|known| known.as_bytes() == word));
        Refusal::in_file(if after_open && listed { 5 } else { 4 }, token.start())
    }

    fn take(&mut self, kind: TokenKind) -> Read<Token> {
        if !self.next_is(kind) {
            return Err(self.wrong());
        }
        let token = self.tokens.list[self.taken];
        self.taken += 1;
        Ok(token)
    }

    fn open(&mut self) -> Read<Token> {
        self.take(TokenKind::Open)
    }

    fn close(&mut self) -> Read<Token> {
        self.take(TokenKind::Close)
    }

    /// Takes one of the words of a table: its place and what the table has for it.
    fn one_of<T: Copy>(&mut self, table: &[(&str, T)]) -> Read<(usize, T)> {
        let word = self.word(self.taken).unwrap_or(&[]);
        let Some(row) = table.iter().find(|row| row.0.as_bytes() == word) else {
            return Err(self.wrong());
        };
        Ok((self.take(TokenKind::Word)?.start(), row.1))
    }

    fn keyword(&mut self, keyword: &str) -> Read<usize> {
        Ok(self.one_of(&[(keyword, ())])?.0)
    }

    /// Nothing but white space and comments is left, and no refusal 2 or 3 in them.
    fn end(&self) -> Read<()> {
        if self.taken == self.tokens.list.len() && self.tokens.fault.is_none() {
            return Ok(());
        }
        Err(self.wrong())
    }

    /// At least one item in brackets, and further ones as long as brackets open.
    fn one_or_more(&mut self, item: fn(&mut Self) -> Read<()>) -> Read<()> {
        item(self)?;
        while self.next_is(TokenKind::Open) {
            item(self)?;
        }
        Ok(())
    }

    /// Refusal 8 for a part that begins, with its quote if it has one, at this place.
    fn not_too_long(&self, part: Part, place: usize) -> Read<Part> {
        if part.end - part.start > WORD_LIMIT {
            return Err(Refusal::in_file(8, place));
        }
        Ok(part)
    }
}

/// Strings, names and numbers.
impl Reader<'_> {
    /// A quoted string: "the bytes between the quotes".
    fn string(&mut self) -> Read<Part> {
        let token = self.take(TokenKind::Text)?;
        self.not_too_long(Part { start: token.start() + 1, end: token.end() - 1 }, token.start())
    }

    /// A word with a name's shape.
    fn name(&mut self, use_: Use) -> Read<Part> {
        let word = self.word(self.taken).unwrap_or(&[]);
        if !is_name(word, self.file.divider, use_) {
            return Err(self.wrong());
        }
        let token = self.take(TokenKind::Word)?;
        self.not_too_long(Part { start: token.start(), end: token.end() }, token.start())
    }

    /// A word with a number's shape, still of any length.
    fn number(&mut self, signed: bool) -> Read<(Part, Decimal)> {
        let word = self.word(self.taken).unwrap_or(&[]);
        let Some(number) = decimal(word, signed) else {
            return Err(self.wrong());
        };
        let token = self.take(TokenKind::Word)?;
        Ok((Part { start: token.start(), end: token.end() }, number))
    }

    /// "VOLTAGE and TEMPERATURE numbers are checked for shape only."
    fn shape_only(&mut self) -> Read<()> {
        let (part, _) = self.number(true)?;
        self.not_too_long(part, part.start).map(|_| ())
    }

    /// "So a word at a number's place is a number or one of two refusals (6 and 7), once its shape
    /// is right." Its length comes last.
    fn time(&mut self, signed: bool) -> Read<i64> {
        let (part, number) = self.number(signed)?;
        let time = time(&number, self.file.scale).map_err(|reason| Refusal::in_file(reason.number(), part.start))?;
        self.not_too_long(part, part.start)?;
        Ok(time)
    }

    /// "`n` or a triple `n:n:n` with both colons and at least one number": what stands between the
    /// brackets. A single number "fills all three sets".
    fn one_or_three<T: Copy>(&mut self, number: impl Fn(&mut Self) -> Read<T>) -> Read<[Option<T>; 3]> {
        let perhaps = |reader: &mut Self| match reader.next_is(TokenKind::Word) {
            true => number(reader).map(Some),
            false => Ok(None),
        };
        let first = perhaps(self)?;
        if first.is_some() && !self.next_is(TokenKind::Colon) {
            return Ok([first; 3]);
        }
        self.take(TokenKind::Colon)?;
        let second = perhaps(self)?;
        self.take(TokenKind::Colon)?;
        let third = perhaps(self)?;
        let triple = [first, second, third];
        if triple.iter().all(Option::is_none) {
            return Err(self.wrong());
        }
        Ok(triple)
    }

    /// "A value is `()`, `(n)` or a triple `(n:n:n)`".
    fn value(&mut self, signed: bool) -> Read<Value> {
        self.open()?;
        let value = match self.next_is(TokenKind::Close) {
            true => [None; 3],
            false => self.one_or_three(|reader| reader.time(signed))?,
        };
        self.close()?;
        Ok(value)
    }
}

/// The file and its header.
impl Reader<'_> {
    /// "A file: `(DELAYFILE`, the header, one or more cells, `)`."
    fn delay_file(&mut self) -> Read<()> {
        self.open()?;
        self.keyword("DELAYFILE")?;
        self.header_entry("SDFVERSION", HeaderItem::Text)?;
        for (keyword, item) in OPTIONAL_HEADER {
            // `(` alone decides nothing yet: a later header entry or a cell may follow it.
            if self.next_is(TokenKind::Open) && self.word(self.taken + 1) == Some(keyword.as_bytes()) {
                self.header_entry(keyword, item)?;
            }
        }
        self.one_or_more(Self::cell)?;
        self.close()?;
        Ok(())
    }

    fn header_entry(&mut self, keyword: &'static str, item: HeaderItem) -> Read<()> {
        self.open()?;
        self.keyword(keyword)?;
        match item {
            HeaderItem::Text => {
                let text = self.string()?;
                self.file.header.push((keyword, text.start, text.end));
            }
            HeaderItem::Divider => self.file.divider = self.one_of(&[(".", b'.'), ("/", b'/')])?.1,
            HeaderItem::Numbers => {
                self.one_or_three(Self::shape_only)?;
            }
            HeaderItem::Timescale => self.file.scale = self.timescale()?,
        }
        self.close()?;
        Ok(())
    }

    /// A number and a unit, "spaced or not": two words, or one.
    fn timescale(&mut self) -> Read<u32> {
        let word = self.word(self.taken).unwrap_or(&[]);
        for (number, number_power) in SCALE_NUMBERS {
            for (unit, unit_power) in SCALE_UNITS {
                if [number, unit].concat().as_bytes() == word {
                    self.take(TokenKind::Word)?;
                    return Ok(number_power + unit_power);
                }
            }
        }
        let (_, number_power) = self.one_of(&SCALE_NUMBERS)?;
        let (_, unit_power) = self.one_of(&SCALE_UNITS)?;
        Ok(number_power + unit_power)
    }
}

/// Cells, sections, groups and entries.
impl Reader<'_> {
    /// "A cell: CELLTYPE with a string; INSTANCE with a path, nothing (the top level) or `*`; then
    /// any number of DELAY and TIMINGCHECK sections".
    fn cell(&mut self) -> Read<()> {
        let open = self.open()?;
        let place = self.keyword("CELL")?;
        if self.file.cells.len() >= self.rooms.cells {
            return Err(Refusal::in_file(9, place));
        }
        self.open()?;
        self.keyword("CELLTYPE")?;
        let type_text = self.string()?;
        self.close()?;
        self.open()?;
        self.keyword("INSTANCE")?;
        let path = self.instance()?;
        self.close()?;
        let entries_before = self.file.entries.len();
        while self.next_is(TokenKind::Open) {
            self.section()?;
        }
        let close = self.close()?;
        let entries = self.file.entries.len() - entries_before;
        let whole = Part { start: open.start(), end: close.end() };
        self.file.cells.push(Cell { place, type_text, path, entries, whole });
        Ok(())
    }

    fn instance(&mut self) -> Read<Path> {
        if self.next_is(TokenKind::Star) {
            self.take(TokenKind::Star)?;
            return Ok(Path::Star);
        }
        match self.next_is(TokenKind::Word) {
            true => self.name(Use::Instance).map(Path::Path),
            false => Ok(Path::Top),
        }
    }

    /// "DELAY and TIMINGCHECK sections, each with at least one item"
    fn section(&mut self) -> Read<()> {
        self.open()?;
        let item = [("DELAY", Self::group as fn(&mut Self) -> Read<()>), ("TIMINGCHECK", Self::check)];
        let (_, item) = self.one_of(&item)?;
        self.one_or_more(item)?;
        self.close()?;
        Ok(())
    }

    /// "DELAY holds ABSOLUTE and INCREMENT groups of at least one IOPATH, INTERCONNECT, PORT or
    /// DEVICE."
    fn group(&mut self) -> Read<()> {
        self.open()?;
        let item = [("ABSOLUTE", Self::absolute as fn(&mut Self) -> Read<()>), ("INCREMENT", Self::increment)];
        let (_, item) = self.one_of(&item)?;
        self.one_or_more(item)?;
        self.close()?;
        Ok(())
    }

    fn absolute(&mut self) -> Read<()> {
        self.entry(Group::Absolute)
    }

    fn increment(&mut self) -> Read<()> {
        self.entry(Group::Increment)
    }

    fn check(&mut self) -> Read<()> {
        self.entry(Group::Check)
    }

    /// One entry, from `(` to `)`.
    fn entry(&mut self, group: Group) -> Read<()> {
        self.open()?;
        let in_check = group == Group::Check;
        let allowed: Vec<(&str, &Facts)> =
            KINDS.iter().filter(|facts| facts.check == in_check).map(|facts| (facts.keyword, facts)).collect();
        let (place, facts) = self.one_of(&allowed)?;
        if self.file.entries.len() >= self.rooms.entries {
            return Err(Refusal::in_file(9, place));
        }
        let (edge1, end1) = self.first_end(facts)?;
        let (edge2, end2) = self.second_end(facts)?;
        let values = self.values(facts)?;
        self.close()?;
        self.file.entries.push(Entry { kind: facts.kind, group, place, edge1, end1, edge2, end2, values });
        Ok(())
    }

    /// "DEVICE's port is optional."
    fn first_end(&mut self, facts: &Facts) -> Read<(u8, Option<Part>)> {
        if facts.kind == Kind::Device && !self.next_is(TokenKind::Word) {
            return Ok((0, None));
        }
        self.end_with_edge(facts.edges[0])
    }

    fn second_end(&mut self, facts: &Facts) -> Read<(u8, Option<Part>)> {
        match facts.ends {
            2 => self.end_with_edge(facts.edges[1]),
            _ => Ok((0, None)),
        }
    }

    /// An end: a name or, where an edge may stand, an edge and a name in brackets.
    fn end_with_edge(&mut self, edge_allowed: bool) -> Read<(u8, Option<Part>)> {
        if !edge_allowed || !self.next_is(TokenKind::Open) {
            return Ok((0, Some(self.name(Use::End)?)));
        }
        self.open()?;
        let (_, edge) = self.one_of(&EDGES)?;
        let name = self.name(Use::End)?;
        self.close()?;
        Ok((edge, Some(name)))
    }

    /// A delay's "list of 1 to 6 signed values", or as many values as the check takes.
    fn values(&mut self, facts: &Facts) -> Read<Vec<Value>> {
        let mut values = vec![self.value(facts.signed)?];
        while values.len() < facts.values && (facts.check || self.next_is(TokenKind::Open)) {
            values.push(self.value(facts.signed)?);
        }
        Ok(values)
    }
}
