//! Texts and sheets near the limits take seconds at most.

mod notation;
use notation::*;
use second::{annotate, listing::listing_with_rooms, patch, read_file, Rooms};

/// A file of some 10 MB, and a sheet of some 15 MB that fits it.
fn large() -> (Vec<u8>, String) {
    let path = |number: usize| format!("top.block{}.u{number}", number % 97);
    let mut instances = Vec::new();
    let mut arcs = Vec::new();
    let mut cells = Vec::new();
    for number in 0..40_000 {
        let path = path(number);
        arcs.push(IO(&format!("{path}.a"), &format!("{path}.q"), Some(number as i64)));
        arcs.push(AR(11, 0, &format!("{path}.d"), 1, &format!("{path}.clk"), Some(1)));
        let delays = A(&["(IOPATH a q(0.250000:0.500000:0.750000)(1.500000:1.625000:1.750000))"]);
        let more = I(&["(DEVICE q(0.001))", "(IOPATH a q()(-0.125))"]);
        let checks = T(&["(SETUP d(posedge clk)(0.031250))"]);
        cells.push(C("T", &path, &[delays, more, checks]));
        instances.push(path);
    }
    let instances: Vec<(&str, &str)> = instances.iter().map(|path| (path.as_str(), "T")).collect();
    (S(&instances, &arcs), F(&cells))
}

#[test]
fn large_file() {
    let (start, text) = large();
    assert!((8_000_000..12_000_000).contains(&text.len()), "{}", text.len());
    assert!((14_000_000..=16_777_216).contains(&start.len()), "{}", start.len());
    let rooms = Rooms { cells: 40_000, entries: 160_000 };
    let mut out = vec![0; start.len()];
    annotate(&start, text.as_bytes(), rooms.cells, rooms.entries, &mut out).expect("annotated");
    let incoming = C("T", "*", &[A(&["(DEVICE(1))"])]);
    patch(&start, text.as_bytes(), 20_000, incoming.as_bytes(), &mut out, rooms, rooms).expect("patched");
}

/// Long runs of one byte, each a trap for a reader that looks back or ahead too often.
#[test]
fn long_runs() {
    let head = "(DELAYFILE(SDFVERSION\"4.0\")(CELL(CELLTYPE\"T\")(INSTANCE ";
    for run in
        ["(", "a", "a.", "/", "/*", "\"", "\\", "\\a", "[", ":", "*", "1", "//\n", "\"\"", "a ", "/**/", "a[1:0]."]
    {
        let text = head.to_string() + &run.repeat(16_000_000 / run.len());
        assert!(read_file(text.as_bytes(), 9, 9).is_err());
    }
    let digits = "1".repeat(8_000_000);
    for number in
        [digits.clone(), format!("0e{digits}"), format!("0.{}", "0".repeat(8_000_000)), format!("1e-{digits}")]
    {
        let text = F(&[C("T", "", &[A(&[&format!("(PORT p({number}))")])])]);
        assert!(read_file(text.as_bytes(), 9, 9).is_err());
    }
    assert_eq!(listing_with_rooms(&vec![b' '; 65_536], 0, 0), b"refused 4 at 65536\n");
}
