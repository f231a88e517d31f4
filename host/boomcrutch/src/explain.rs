//! The refusals in words (document 01, "Refusal numbers and their order").

/// One row of the table.
pub struct Refusal {
    pub number: u64,
    /// What is said beside the place.
    pub short: &'static str,
    /// What `explain` adds: where the place is, and what helps.
    pub more: &'static str,
}

/// The row of a number, if there is one.
pub fn refusal(number: u64) -> Option<&'static Refusal> {
    REFUSALS.iter().find(|refusal| refusal.number == number)
}

const fn row(number: u64, short: &'static str, more: &'static str) -> Refusal {
    Refusal { number, short, more }
}

pub static REFUSALS: [Refusal; 18] = [
    row(
        1,
        "the text is longer than 16,777,216 bytes",
        "The place is 0. A text of that length or less is read; a longer one is refused whatever it holds.",
    ),
    row(
        2,
        "an illegal byte, or a backslash with nothing to escape",
        "Legal bytes are tab, LF, CR and 0x20 to 0x7E, also in strings and comments.\n\
         Outside strings and comments a backslash takes the next byte along, which must be 0x21 to 0x7E.\n\
         The place is that byte, or the backslash.",
    ),
    row(
        3,
        "a comment or string that is never closed",
        "A string ends at the next quote without a backslash before it, a /* comment at the next */ wholly after it.\n\
         The place is the opening.",
    ),
    row(
        4,
        "this cannot stand here",
        "The tokens before this one begin some file that is carried, with this one none does; or the text ends too soon.\n\
         Keywords are upper case, edges and units lower case; a number begins with a digit, after a sign where one may stand.\n\
         In an incoming text the same is said of a single cell.\n\
         The place is the token, or the text's length.",
    ),
    row(
        5,
        "this word of SDF is not carried yet",
        "The words are COND, CONDELSE, SCOND, CCOND, RETAIN, PATHPULSE, PATHPULSEPERCENT, NETDELAY, TIMINGENV and LABEL.\n\
         The place is the word, right after its opening bracket.",
    ),
    row(
        6,
        "this time is not a whole number of femtoseconds",
        "A time is the number written times the TIMESCALE (1 ns without one), exactly, and is never rounded.\n\
         The place is the number.",
    ),
    row(
        7,
        "this time is beyond 10^15 femtoseconds",
        "A time is at most one second, 10^15 femtoseconds, either way. The place is the number.",
    ),
    row(
        8,
        "a word or string of more than 1,024 bytes",
        "Counted as written, each escaped pair as two. The place is the word, or the opening quote.",
    ),
    row(
        9,
        "no room for this cell or entry",
        "The rooms are given by --cells and --entries (and --incoming-cells, --incoming-entries for the incoming text).\n\
         Without these options they are as large as the text can need.\n\
         The place is the keyword of the first cell or entry that has no room.",
    ),
    row(
        10,
        "the sheet is not of a timing sheet's form",
        "A sheet has at most 16,777,216 bytes: HD with format 1 and both counts, then all IN records, then all AR records,\n\
         each in strictly rising order, names and values as they may be, and nothing behind the last one.\n\
         The place is 0.",
    ),
    row(
        11,
        "the current sheet is not as long as the starting one",
        "A patch is given the starting sheet and one with the same records. The place is 0.",
    ),
    row(
        12,
        "the starting sheet has no such instance",
        "A cell with a path applies to that instance, INSTANCE alone to the one with an empty path (the top level).\n\
         Paths are compared as written, after the divider is turned into `.`. The place is the word CELL.",
    ),
    row(
        13,
        "the instance has another type on the starting sheet",
        "The CELLTYPE text must equal the type of the IN record, byte by byte. The place is the word CELL.",
    ),
    row(
        14,
        "an addressed instance lacks the arc",
        "An entry addresses the arc of its kind, its edges and its full names; edges must be the same, none included.\n\
         A DEVICE needs at least one IOPATH arc that ends at its port (without a port: at a port of the instance).\n\
         Under * every instance of the type must have the arc. The place is the entry's keyword.",
    ),
    row(
        15,
        "an INCREMENT adds to a value that is empty",
        "An increment needs a number that is there already. The place is the entry's keyword.",
    ),
    row(
        16,
        "a sum beyond 10^15 femtoseconds",
        "Sums are judged at every step, either way; a later entry does not make up for it.\n\
         The place is the entry's keyword.",
    ),
    row(
        17,
        "the file has no cell of that number",
        "Cells are counted from 1 in file order, as `list` prints them. The place is 0.",
    ),
    row(
        18,
        "the current sheet has other records than the starting one",
        "Both sheets must be alike but for values: same instances, same arcs, same bytes. The place is 0.",
    ),
];

#[cfg(test)]
mod tests {
    use super::*;

    #[test]
    fn every_number_once() {
        let numbers: Vec<u64> = REFUSALS.iter().map(|refusal| refusal.number).collect();
        assert_eq!(numbers, (1..=18).collect::<Vec<u64>>());
        assert!(refusal(0).is_none() && refusal(19).is_none());
    }
}
