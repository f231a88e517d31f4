//! Random cases from a seed: valid and damaged texts and sheets, mostly small ones.
//!
//! Each case has a small world (types with arcs, instances of these types); its sheets and texts
//! are made from the world's names, so that most of them fit together.

mod damage;
mod large;
mod sheets;
mod texts;
mod very_large;
mod world;

use crate::annotate::annotate;
use crate::case::Case;
use crate::random::Random;
use crate::reader::{read_cell, read_file, File, Rooms};
use crate::refusal::Refusal;
use crate::sheet::encode;
use damage::{damaged_text, damaged_tokens};
use large::large_patch;
use sheets::{hostile_sheet, odd_values, other_records, sheet_of};
use texts::{cell_tokens, file_tokens, joined, Scale, Tokens};
use very_large::{many_paths_patch, very_large_patch};
use world::World;

/// Enough room for any text made here.
const AMPLE: Rooms = Rooms { cells: 4_096, entries: 65_536 };

/// One patch in so many cases is one of a large cell, of a few entries that mean thousands of arcs,
/// or of thousands of entries.
const LARGE_ONCE_IN: u64 = 150;
const MANY_PATHS_ONCE_IN: u64 = 2_500;
const VERY_LARGE_ONCE_IN: u64 = 5_000;

/// The case of a seed. The number of the seed, not chance, tells which are large, so that every run
/// has its share of them, and the others are what they would be without.
pub fn case(seed: u64) -> Case {
    let random = &mut Random::new(seed);
    if seed % VERY_LARGE_ONCE_IN == VERY_LARGE_ONCE_IN - 1 {
        return very_large_patch(random, seed / VERY_LARGE_ONCE_IN % 4);
    }
    if seed % MANY_PATHS_ONCE_IN == MANY_PATHS_ONCE_IN / 2 {
        return many_paths_patch(random);
    }
    if seed % LARGE_ONCE_IN == LARGE_ONCE_IN / 2 {
        return large_patch(random);
    }
    let world = World::new(random);
    match random.below(100) {
        0..=24 => read_file_case(random, &world),
        25..=34 => read_cell_case(random, &world),
        35..=46 => Case::CheckSheet { bytes: judged_sheet(random, &world) },
        47..=72 => annotate_case(random, &world),
        _ => patch_case(random, &world),
    }
}

fn read_file_case(random: &mut Random, world: &World) -> Case {
    let tokens = file_tokens(random, world);
    let text = written(random, tokens, 2);
    let rooms = rooms_for(random, read_file(&text, AMPLE.cells, AMPLE.entries));
    Case::ReadFile { text, rooms }
}

fn read_cell_case(random: &mut Random, world: &World) -> Case {
    let divider = random.pick(b"./");
    let scale = Scale::any(random);
    let tokens = cell_tokens(random, world, divider, scale.power);
    let text = written(random, tokens, 2);
    let rooms = rooms_for(random, read_cell(&text, divider, scale.power, AMPLE));
    Case::ReadCell { text, divider, scale: scale.power, rooms }
}

fn annotate_case(random: &mut Random, world: &World) -> Case {
    let start = starting_sheet(random, world);
    let tokens = file_tokens(random, world);
    let text = written(random, tokens, 10);
    let rooms = rooms_for(random, read_file(&text, AMPLE.cells, AMPLE.entries));
    let length = match random.below(40) {
        0 => start.len() + 1,
        1 => start.len().saturating_sub(1),
        _ => start.len(),
    };
    Case::Annotate { start, text, rooms, out: vec![random.pick(b"?\0\xFF"); length] }
}

fn patch_case(random: &mut Random, world: &World) -> Case {
    let start = starting_sheet(random, world);
    let tokens = file_tokens(random, world);
    let file = written(random, tokens, 15);
    let read = read_file(&file, AMPLE.cells, AMPLE.entries);
    let (divider, scale, cells) =
        read.as_ref().map_or((b'.', 6, 1), |file| (file.divider, file.scale, file.cells.len()));
    let tokens = cell_tokens(random, world, divider, scale);
    let incoming = written(random, tokens, 12);
    let number = match random.below(25) {
        0 => random.pick(&[0, cells as u64 + 1, 1 << 32, 1 << 63, u64::MAX]),
        _ => random.from_to(1, cells) as u64,
    };
    let current = current_sheet(random, &start, &file);
    let incoming_rooms = rooms_for(random, read_cell(&incoming, divider, scale, AMPLE));
    let file_rooms = rooms_for(random, read);
    Case::Patch { start, file, number, incoming, current, file_rooms, incoming_rooms }
}

/// The text of the tokens, damaged once in so many times.
fn written(random: &mut Random, tokens: Tokens, damage_once_in: usize) -> Vec<u8> {
    if !random.once_in(damage_once_in) {
        return joined(random, tokens);
    }
    match random.below(3) {
        0 => {
            let text = joined(random, tokens);
            damaged_text(random, text)
        }
        1 => {
            let tokens = damaged_tokens(random, tokens);
            let text = joined(random, tokens);
            damaged_text(random, text)
        }
        _ => {
            let tokens = damaged_tokens(random, tokens);
            joined(random, tokens)
        }
    }
}

/// Rooms for what a text holds: mostly enough.
fn rooms_for(random: &mut Random, read: Result<File, Refusal>) -> Rooms {
    let (cells, entries) = read.map_or((4, 16), |file| (file.cells.len(), file.entries.len()));
    match random.below(24) {
        0 => Rooms { cells: random.below(cells + 1), entries },
        1 => Rooms { cells, entries: random.below(entries + 1) },
        2..=12 => Rooms { cells, entries },
        _ => Rooms { cells: cells + random.below(4), entries: entries + random.below(4) },
    }
}

fn judged_sheet(random: &mut Random, world: &World) -> Vec<u8> {
    let sheet = sheet_of(random, world);
    match random.below(5) {
        0 | 1 => encode(&sheet),
        _ => hostile_sheet(random, &sheet),
    }
}

fn starting_sheet(random: &mut Random, world: &World) -> Vec<u8> {
    let sheet = sheet_of(random, world);
    match random.below(40) {
        0 => hostile_sheet(random, &sheet),
        _ => encode(&sheet),
    }
}

/// The annotated sheet, if there is one, or the starting one; or odd values, or other records.
fn current_sheet(random: &mut Random, start: &[u8], file: &[u8]) -> Vec<u8> {
    let mut annotated = start.to_vec();
    let _ = annotate(start, file, AMPLE.cells, AMPLE.entries, &mut annotated);
    match random.below(20) {
        0 => other_records(random, annotated),
        1..=3 => start.to_vec(),
        4..=7 => odd_values(random, annotated),
        _ => annotated,
    }
}
