//! What the command does in plain Rust, on generated files: its listing is the second program's, and a starting sheet that
//! it makes fits the file.

use command::blank::{blank, NoSheet};
use command::listing::write_listing;
use command::rooms::{Rooms, Wanted};
use proved::{entries, Functions, Kind, ReadAnswer};
use second::listing::listing_with_rooms;
use second::{case, Case};

/// The files among the cases of some seeds that can be read, with their reading.
fn files(seeds: std::ops::Range<u64>) -> impl Iterator<Item = (Vec<u8>, Rooms, ReadAnswer)> {
    seeds.filter_map(|seed| {
        let text = match case(seed) {
            Case::ReadFile { text, .. } | Case::Annotate { text, .. } | Case::Patch { file: text, .. } => text,
            _ => return None,
        };
        let mut rooms = Rooms::new(&text, Wanted::default());
        let answer = proved::read_file(&text, &mut rooms.tables());
        assert_ne!(answer.number, 9, "seed {seed}: the room is as large as the text can need");
        (answer.number == 0).then_some((text, rooms, answer))
    })
}

#[test]
fn listings() {
    if !proved::has(Functions::Read) {
        return;
    }
    let mut count = 0;
    for (text, rooms, answer) in files(0..4_000).filter(|file| file.0.len() <= 65_536) {
        let mut lines = Vec::new();
        write_listing(&mut lines, &text, &rooms, &answer).expect("a vector takes all");
        assert_eq!(lines, listing_with_rooms(&text, usize::MAX, usize::MAX), "{}", text.escape_ascii());
        count += 1;
    }
    assert!(count > 1_000, "{count}");
}

/// Annotating a file's own starting sheet can be refused only for what the values do, or where a DEVICE has no path.
#[test]
fn starting_sheets() {
    if ![Functions::Read, Functions::Sheet, Functions::Annotate].into_iter().all(proved::has) {
        return;
    }
    let mut count = 0;
    for (text, mut rooms, answer) in files(4_000..12_000) {
        let start = match blank(&text, &rooms, &answer) {
            Ok(start) => start,
            Err(NoSheet::TwoTypes { .. }) => continue,
            Err(NoSheet::TooLong) => panic!("{}", text.escape_ascii()),
        };
        assert_eq!(proved::check_sheet(&start).number, 0, "{}", text.escape_ascii());
        let mut out = start.clone();
        let annotated = proved::annotate(&start, &text, &mut rooms.tables(), &mut out);
        let is_device = || {
            entries(&rooms.entries, answer.entries)
                .any(|entry| entry.place as u64 == annotated.place && entry.kind == Kind::DEVICE)
        };
        match annotated.number {
            0 | 15 | 16 => count += 1,
            14 => assert!(is_device(), "{}", text.escape_ascii()),
            number => panic!("refused {number}: {}", text.escape_ascii()),
        }
    }
    assert!(count > 500, "{count}");
}
