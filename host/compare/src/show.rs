//! A differing case, printed so that it can be typed in elsewhere.

use second::{Case, Rooms};

use crate::left::{as_lent, by_proved, by_second, missing, proved_tokens, second_tokens};

/// Prints a case in hex and as text, and what both programs make of it.
pub fn print_case(case: &Case) {
    println!("the smallest such case:");
    match case {
        Case::ReadFile { text, rooms } => {
            println!("  read a file, {}", rooms_words(*rooms));
            print_bytes("text", text);
        }
        Case::ReadCell { text, divider, scale, rooms } => {
            println!("  read a cell, divider {}, scale 10^{scale} fs, {}", *divider as char, rooms_words(*rooms));
            print_bytes("text", text);
        }
        Case::CheckSheet { bytes } => {
            println!("  check a sheet");
            print_bytes("sheet", bytes);
        }
        Case::Annotate { start, text, rooms, out } => {
            println!("  annotate, {}, output of {} bytes", rooms_words(*rooms), out.len());
            print_bytes("starting sheet", start);
            print_bytes("text", text);
        }
        Case::Patch { start, file, number, incoming, current, file_rooms, incoming_rooms } => {
            println!("  patch cell {number}, {}, incoming {}", rooms_words(*file_rooms), rooms_words(*incoming_rooms));
            print_bytes("starting sheet", start);
            print_bytes("file", file);
            print_bytes("incoming", incoming);
            print_bytes("current sheet", current);
        }
    }
    match missing(case) {
        None => print_outcomes(case),
        Some(_) => println!("  tokens {}, and {} by the proved library", second_tokens(case), proved_tokens(case)),
    }
}

/// Prints what both programs make of a case.
fn print_outcomes(case: &Case) {
    let (expected, found) = (by_second(case), by_proved(case));
    println!(
        "  differs in {}: the second program's, then the proved library's",
        expected.difference(&found).unwrap_or("nothing")
    );
    print_pair("answer", [&expected, &found].map(|left| format!("{:?}", left.answer)));
    print_pair("header", [&expected, &found].map(|left| format!("{:?}", left.header)));
    print_pair("tokens", [&expected, &found].map(|left| left.tokens.to_string()));
    print_pair("cells", [&expected, &found].map(|left| words(&left.tables.cells)));
    print_pair("entries", [&expected, &found].map(|left| words(&left.tables.entries)));
    print_pair("incoming cells", [&expected, &found].map(|left| words(&left.incoming_tables.cells)));
    print_pair("incoming entries", [&expected, &found].map(|left| words(&left.incoming_tables.entries)));
    print_pair("sheet", [&expected, &found].map(|left| hex(&left.sheet)));
}

/// What both programs left: once if it is the same.
fn print_pair(name: &str, [expected, found]: [String; 2]) {
    println!("    {name} {expected}");
    if expected != found {
        println!("    {} {found}", " ".repeat(name.len()));
    }
}

/// The words of a table; `.` for one that is as lent, and those at the end left out.
fn words(table: &[u64]) -> String {
    let word = |(place, word): (usize, &u64)| match *word == as_lent(place) {
        true => ".".to_string(),
        false => format!("{word:x}"),
    };
    let words: Vec<String> = table.iter().enumerate().map(word).collect();
    let used = words.iter().rposition(|word| word != ".").map_or(0, |last| last + 1);
    format!("{} ({} words as lent)", words[..used].join(" "), words.len() - used)
}

fn hex(bytes: &[u8]) -> String {
    bytes.iter().map(|byte| format!("{byte:02x}")).collect()
}

fn rooms_words(rooms: Rooms) -> String {
    format!("room for {} cells and {} entries", rooms.cells, rooms.entries)
}

fn print_bytes(name: &str, bytes: &[u8]) {
    println!("  {name}, {} bytes\n    hex  {}\n    text {}", bytes.len(), hex(bytes), bytes.escape_ascii());
}
