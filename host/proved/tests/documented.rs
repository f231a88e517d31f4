//! The example in docs/SHEET.md, byte by byte, is a sheet.

use std::path::Path;

use proved::Functions;

/// The rows `| place | bytes in hexadecimal | meaning |` of the document's example.
fn documented_sheet() -> Vec<u8> {
    let text = std::fs::read_to_string(Path::new(env!("CARGO_MANIFEST_DIR")).join("../../docs/SHEET.md")).unwrap();
    let example = text.split("## An example, byte by byte").nth(1).expect("the document has its example");
    let mut sheet = Vec::new();
    for row in example.lines().filter(|line| line.starts_with("| ")) {
        let columns: Vec<&str> = row.split('|').map(str::trim).collect();
        let Ok(place) = columns[1].parse::<usize>() else { continue };
        assert_eq!(sheet.len(), place, "{row}");
        let bytes = columns[2].trim_matches('`').split(' ').map(|byte| u8::from_str_radix(byte, 16).unwrap());
        sheet.extend(bytes);
    }
    sheet
}

#[test]
fn the_example_is_a_sheet() {
    let sheet = documented_sheet();
    assert_eq!(sheet.len(), 359);
    if !proved::has(Functions::Sheet) {
        return;
    }
    let answer = proved::check_sheet(&sheet);
    assert_eq!((answer.number, answer.instances, answer.arcs), (0, 1, 2));
    for length in 0..sheet.len() {
        assert_eq!(proved::check_sheet(&sheet[..length]).number, 10, "cut to {length} bytes");
    }
}
