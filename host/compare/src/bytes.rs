//! Every byte value at every kind of place of a file, and pairs of bytes there: few enough to try them all.

use second::{Case, Rooms};

/// Small files with a place, `?`, where the class of what stands there decides: between tokens, in keywords, paths, brackets,
/// escaped pairs, strings and comments, and in, before and behind numbers.
const FILES: [&str; 23] = [
    "?(DELAYFILE(SDFVERSION\"4.0\")(CELL(CELLTYPE\"T\")(INSTANCE a)))",
    "(?DELAYFILE(SDFVERSION\"4.0\")(CELL(CELLTYPE\"T\")(INSTANCE a)))",
    "(DELAY?FILE(SDFVERSION\"4.0\")(CELL(CELLTYPE\"T\")(INSTANCE a)))",
    "(DELAYFILE?(SDFVERSION\"4.0\")(CELL(CELLTYPE\"T\")(INSTANCE a)))",
    "(DELAYFILE(SDFVERSION\"4.0\")(CELL(CELLTYPE\"T\")(INSTANCE a)))?",
    "(DELAYFILE(SDFVERSION\"4.?0\")(CELL(CELLTYPE\"T\")(INSTANCE a)))",
    "(DELAYFILE(SDFVERSION\"4.\\?0\")(CELL(CELLTYPE\"T\")(INSTANCE a)))",
    "(DELAYFILE(SDFVERSION\"4.0\")//?\n(CELL(CELLTYPE\"T\")(INSTANCE a)))",
    "(DELAYFILE(SDFVERSION\"4.0\")/*?*/(CELL(CELLTYPE\"T\")(INSTANCE a)))",
    "(DELAYFILE(SDFVERSION\"4.0\")/?/(CELL(CELLTYPE\"T\")(INSTANCE a)))",
    "(DELAYFILE(SDFVERSION\"4.0\")(CELL(CELLTYPE\"T\")(INSTANCE?)))",
    "(DELAYFILE(SDFVERSION\"4.0\")(CELL(CELLTYPE\"T\")(INSTANCE ?)))",
    "(DELAYFILE(SDFVERSION\"4.0\")(CELL(CELLTYPE\"T\")(INSTANCE a?b)))",
    "(DELAYFILE(SDFVERSION\"4.0\")(CELL(CELLTYPE\"T\")(INSTANCE a\\?b)))",
    "(DELAYFILE(SDFVERSION\"4.0\")(DIVIDER/)(CELL(CELLTYPE\"T\")(INSTANCE a?b)))",
    "(DELAYFILE(SDFVERSION\"4.0\")(DIVIDER/)(CELL(CELLTYPE\"T\")(INSTANCE a/?b)))",
    "(DELAYFILE(SDFVERSION\"4.0\")(CELL(CELLTYPE\"T\")(INSTANCE a)(DELAY(ABSOLUTE(PORT p[1?2](3))))))",
    "(DELAYFILE(SDFVERSION\"4.0\")(CELL(CELLTYPE\"T\")(INSTANCE a)(DELAY(ABSOLUTE(PORT p?(3))))))",
    "(DELAYFILE(SDFVERSION\"4.0\")(CELL(CELLTYPE\"T\")(INSTANCE a)(DELAY(ABSOLUTE(PORT p(?3))))))",
    "(DELAYFILE(SDFVERSION\"4.0\")(CELL(CELLTYPE\"T\")(INSTANCE a)(DELAY(ABSOLUTE(PORT p(3?4))))))",
    "(DELAYFILE(SDFVERSION\"4.0\")(CELL(CELLTYPE\"T\")(INSTANCE a)(DELAY(ABSOLUTE(PORT p(3.5?))))))",
    "(DELAYFILE(SDFVERSION\"4.0\")(CELL(CELLTYPE\"T\")(INSTANCE a)(DELAY(ABSOLUTE(PORT p(3:?4:5))))))",
    "(DELAYFILE(SDFVERSION\"4.0\")(CELL(CELLTYPE\"T\")(INSTANCE a)(TIMINGCHECK(WIDTH p(3:4.5?:5)))))",
];

/// A byte of each class, and more of those that names and numbers are made of.
const CLASSES: &[u8] = b"\0\n \"#$()*+-./09:A[\\]_ez~\x7f";

/// The cases: each file with each byte, and with each pair of those.
pub fn cases() -> impl Iterator<Item = Case> {
    FILES.into_iter().flat_map(|file| {
        let singles = (0..=u8::MAX).map(|byte| vec![byte]);
        let pairs = CLASSES.iter().flat_map(|&first| CLASSES.iter().map(move |&second| vec![first, second]));
        singles.chain(pairs).map(move |bytes| with(file, &bytes))
    })
}

/// The file with these bytes at its place.
fn with(file: &str, bytes: &[u8]) -> Case {
    let (before, behind) = file.split_once('?').expect("a file has a place");
    let text = [before.as_bytes(), bytes, behind.as_bytes()].concat();
    Case::ReadFile { text, rooms: Rooms { cells: 2, entries: 2 } }
}
