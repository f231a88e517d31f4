//! The memory lent for a text's tables.

use proved::{Tables, CELL_WORDS, ENTRY_WORDS};

/// The least bytes a whole cell takes: `(CELL(CELLTYPE"")(INSTANCE))`.
const LEAST_CELL: usize = 28;

/// The least bytes a whole entry takes: `(DEVICE())`.
const LEAST_ENTRY: usize = 10;

/// How many cells and entries are wanted at most; none: as many as the text can need.
#[derive(Clone, Copy, Default)]
pub struct Wanted {
    pub cells: Option<u64>,
    pub entries: Option<u64>,
}

/// Tables for one text, all words 0.
pub struct Rooms {
    pub cells: Vec<u64>,
    pub entries: Vec<u64>,
}

impl Rooms {
    /// Rooms as wanted. More than the text can need is never made: no answer tells the difference.
    pub fn new(text: &[u8], wanted: Wanted) -> Rooms {
        let need = need(text);
        let room = |wanted: Option<u64>, need: usize| wanted.map_or(need, |number| need.min(capped(number)));
        Rooms {
            cells: vec![0; CELL_WORDS * room(wanted.cells, need.cells)],
            entries: vec![0; ENTRY_WORDS * room(wanted.entries, need.entries)],
        }
    }

    pub fn tables(&mut self) -> Tables<'_> {
        Tables { cells: &mut self.cells, entries: &mut self.entries }
    }
}

fn capped(number: u64) -> usize {
    usize::try_from(number).unwrap_or(usize::MAX)
}

/// How many cells and entries a text can open, at most.
#[derive(Debug, PartialEq, Eq)]
struct Need {
    cells: usize,
    entries: usize,
}

/// A cell or an entry opens with its keyword, and only behind whole ones: so the keywords are a bound, and so is the
/// length. Words in comments and strings count along, which does no harm.
fn need(text: &[u8]) -> Need {
    let mut need = Need { cells: 0, entries: 0 };
    for word in text.split(|byte| !byte.is_ascii_uppercase()) {
        match word {
            b"CELL" => need.cells += 1,
            b"IOPATH" | b"INTERCONNECT" | b"PORT" | b"DEVICE" | b"SETUP" | b"HOLD" | b"SETUPHOLD" | b"RECOVERY"
            | b"REMOVAL" | b"RECREM" | b"SKEW" | b"BIDIRECTSKEW" | b"WIDTH" | b"PERIOD" | b"NOCHANGE" => {
                need.entries += 1
            }
            _ => {}
        }
    }
    Need { cells: need.cells.min(text.len() / LEAST_CELL + 1), entries: need.entries.min(text.len() / LEAST_ENTRY + 1) }
}

#[cfg(test)]
mod tests {
    use super::*;

    #[test]
    fn bounds() {
        assert_eq!(
            need(b"(CELL(CELLTYPE\"\")(INSTANCE)(DELAY(ABSOLUTE(DEVICE())(PORT p()))))"),
            Need { cells: 1, entries: 2 }
        );
        assert_eq!(need(b""), Need { cells: 0, entries: 0 });
        assert_eq!(need(&b"PORT ".repeat(100)), Need { cells: 0, entries: 51 });
        assert_eq!(need(&b"CELL ".repeat(100)), Need { cells: 18, entries: 0 });
        let wanted = Wanted { cells: Some(u64::MAX), entries: Some(0) };
        let rooms = Rooms::new(b"(CELL(PORT", wanted);
        assert_eq!((rooms.cells.len(), rooms.entries.len()), (7, 0));
    }
}
