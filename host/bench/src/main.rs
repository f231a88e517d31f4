//! The benchmark: the proved functions, through the static library, against the second program and the plainest possible
//! byte loop, all in the same run. Prints Markdown tables; the best of some runs counts. `bench --text SIZE` prints the text of
//! the first rows instead, of at least so many bytes, and `bench --netlist WIRES` or `bench --heads WIRES` those of the others,
//! for other measurements.

mod measure;
mod text;

use std::hint::black_box;
use std::io::Write;
use std::process::ExitCode;

use command::blank::blank;
use command::rooms::{Rooms, Wanted};
use proved::{Functions, Swap};
use text::{devices, macro_cell, netlist, stars, top_cell, Order};

use measure::{best, loop_time, print_table, with_commas, Row};

/// How many INTERCONNECT and how many IOPATH entries the annotated files have.
const WIRES: [usize; 3] = [4_000, 16_000, 33_000];

/// How many INTERCONNECT entries the top cell has that is issued again; the last are more arcs than a patch takes at a time.
const TOP_WIRES: [usize; 4] = [500, 1_000, 2_000, 10_000];

/// How often the four times are taken of which the shares are made.
const SHARE_ROUNDS: usize = 30;

fn main() -> ExitCode {
    let arguments: Vec<String> = std::env::args().skip(1).collect();
    let words: Vec<&str> = arguments.iter().map(String::as_str).collect();
    if words.is_empty() {
        print_all();
        return ExitCode::SUCCESS;
    }
    let Some(text) = asked_text(&words) else {
        eprintln!("usage: bench [--text SIZE | --netlist WIRES | --heads WIRES]");
        return ExitCode::from(2);
    };
    match std::io::stdout().write_all(&text) {
        Ok(()) => ExitCode::SUCCESS,
        Err(error) => {
            eprintln!("bench: {error}");
            ExitCode::from(2)
        }
    }
}

/// The text that is asked for, or none where the words ask for nothing that there is.
fn asked_text(words: &[&str]) -> Option<Vec<u8>> {
    match words {
        ["--text", size] => Some(text::board(size.parse().ok()?)),
        ["--netlist", wires] => Some(netlist(wires.parse().ok()?, Order::Netlist)),
        ["--heads", wires] => Some(stars(wires.parse().ok()?)),
        _ => None,
    }
}

fn print_all() {
    let texts = texts_to_read();
    print_table("Tokens", &texts.iter().map(|(what, text)| tokens_row(what, text)).collect::<Vec<_>>());
    if !proved::has(Functions::Read) {
        return println!("\nThe library was linked without the functions that read.");
    }
    print_table("Reading", &texts.iter().map(|(what, text)| read_row(what, text)).collect::<Vec<_>>());
    if proved::has(Functions::Sheet) {
        print_table("Checking a sheet", &WIRES.map(|wires| Board::new(netlist(wires, Order::Netlist)).check_row()));
    }
    if proved::has(Functions::Annotate) {
        print_table("Annotating", &annotate_rows());
    }
    if proved::has(Functions::Patch) {
        print_table(
            "Patching one cell of ten entries",
            &WIRES.map(|wires| {
                let board = Board::new(netlist(wires, Order::Netlist));
                patch_row("patch", &board, &Reissue::of_macro(&board, 5))
            }),
        );
        print_table("Patching the top cell, which has half of the entries", &TOP_WIRES.map(patch_top_row));
    }
    if [Functions::Sheet, Functions::Annotate, Functions::Patch].into_iter().all(proved::has) {
        print_shares(Board::new(netlist(WIRES[2], Order::Netlist)));
    }
}

/// What is read by itself: most of a board's text is numbers, of a netlist's paths, and of the last one's cell heads, which are words.
fn texts_to_read() -> Vec<(&'static str, Vec<u8>)> {
    let boards = [1_000_000, 4_000_000, 10_000_000].map(|size| ("board", text::board(size)));
    let others = [("netlist", netlist(WIRES[1], Order::Netlist)), ("cell heads", stars(WIRES[2]))];
    boards.into_iter().chain(others).collect()
}

fn tokens_row(what: &str, text: &[u8]) -> Row {
    Row {
        what: format!("count tokens, {what}"),
        bytes: text.len(),
        byte_loop: loop_time(&[text]),
        second: Some(best(3, || second::tokens::tokens(black_box(text)).list.len())),
        proved: best(9, || proved::count_tokens(black_box(text))),
    }
}

fn read_row(what: &str, text: &[u8]) -> Row {
    let mut rooms = Rooms::new(text, Wanted::default());
    let read = proved::read_file(text, &mut rooms.tables());
    assert_eq!(read.number, 0, "the text is refused at {}", read.place);
    Row {
        what: format!("read, {what}, {} entries", with_commas(read.entries as usize)),
        bytes: text.len(),
        byte_loop: loop_time(&[text]),
        second: Some(best(3, || second::read_file(black_box(text), usize::MAX, usize::MAX))),
        proved: best(9, || proved::read_file(black_box(text), &mut rooms.tables())),
    }
}

/// A file, its tables and a starting sheet that fits it.
struct Board {
    text: Vec<u8>,
    rooms: Rooms,
    start: Vec<u8>,
    entries: usize,
    cells: usize,
}

impl Board {
    fn new(text: Vec<u8>) -> Board {
        let mut rooms = Rooms::new(&text, Wanted::default());
        let read = proved::read_file(&text, &mut rooms.tables());
        assert_eq!(read.number, 0, "the text is refused at {}", read.place);
        let start = blank(&text, &rooms, &read).expect("a starting sheet");
        Board { text, rooms, start, entries: read.entries as usize, cells: read.cells as usize }
    }

    fn check_row(&self) -> Row {
        Row {
            what: "check the sheet".to_string(),
            bytes: self.start.len(),
            byte_loop: loop_time(&[&self.start]),
            second: Some(best(3, || second::check_sheet(black_box(&self.start)))),
            proved: best(9, || proved::check_sheet(black_box(&self.start))),
        }
    }

    /// How long annotating takes, and the annotated sheet.
    fn annotate(&mut self) -> (f64, Vec<u8>) {
        let mut out = vec![0; self.start.len()];
        let Board { text, rooms, start, .. } = self;
        let answer = proved::annotate(start, text, &mut rooms.tables(), &mut out);
        assert_eq!(answer.number, 0, "refused {} at {}", answer.number, answer.place);
        let time = best(5, || proved::annotate(black_box(start), black_box(text), &mut rooms.tables(), &mut out));
        (time, out)
    }

    fn annotate_row(mut self, what: &str) -> Row {
        let (proved, annotated) = self.annotate();
        let mut out = vec![0; self.start.len()];
        let second = best(2, || second::annotate(&self.start, &self.text, usize::MAX, usize::MAX, &mut out));
        assert!(out == annotated, "the two programs give different sheets");
        Row {
            what: format!(
                "annotate, {what}, {} entries, sheet of {:.1} MB",
                self.entries,
                self.start.len() as f64 / 1e6
            ),
            bytes: self.text.len(),
            byte_loop: loop_time(&[&self.text, &self.start]),
            second: Some(second),
            proved,
        }
    }
}

fn annotate_rows() -> Vec<Row> {
    let mut rows = Vec::new();
    for (what, order) in [
        ("netlist order", Order::Netlist),
        ("sheet order", Order::Sheet),
        ("reverse order", Order::Reverse),
        ("random order", Order::Random),
    ] {
        rows.extend(WIRES.map(|wires| Board::new(netlist(wires, order)).annotate_row(what)));
    }
    rows.extend(WIRES.map(|wires| Board::new(stars(wires)).annotate_row("many `*` cells")));
    rows.extend(WIRES.map(|wires| Board::new(devices(wires)).annotate_row("many DEVICE")));
    rows
}

/// A cell that is issued again, its number in the file, and how many runs are measured.
struct Reissue {
    number: u64,
    incoming: String,
    runs: usize,
}

impl Reissue {
    /// The ten-entry cell, the last of its file.
    fn of_macro(board: &Board, runs: usize) -> Reissue {
        Reissue { number: board.cells as u64, incoming: macro_cell(7), runs }
    }
}

/// The tables of both texts of a patch.
struct PatchRooms {
    file: Rooms,
    incoming: Rooms,
}

impl PatchRooms {
    fn new(board: &Board, reissue: &Reissue) -> PatchRooms {
        let rooms = |text: &[u8]| Rooms::new(text, Wanted::default());
        PatchRooms { file: rooms(&board.text), incoming: rooms(reissue.incoming.as_bytes()) }
    }
}

/// One patch: the answer's number, and how long it took.
fn patch_once(board: &Board, reissue: &Reissue, rooms: &mut PatchRooms, current: &mut [u8]) -> (u64, f64) {
    let incoming = reissue.incoming.as_bytes();
    let swap = Swap { start: &board.start, file: &board.text, number: reissue.number, incoming };
    let mut number = 0;
    let time = best(1, || {
        number = proved::patch(black_box(swap), current, &mut rooms.file.tables(), &mut rooms.incoming.tables()).number;
    });
    (number, time)
}

/// How long the patch takes by the proved functions; the patched sheet is in `current`.
fn patch_time(board: &Board, reissue: &Reissue, current: &mut [u8]) -> f64 {
    let mut rooms = PatchRooms::new(board, reissue);
    assert_eq!(patch_once(board, reissue, &mut rooms, current).0, 0, "the patch is refused");
    (0..reissue.runs).map(|_| patch_once(board, reissue, &mut rooms, current).1).fold(f64::INFINITY, f64::min)
}

fn patch_row(what: &str, board: &Board, reissue: &Reissue) -> Row {
    let (mut current, mut by_second) = (board.start.clone(), board.start.clone());
    let proved = patch_time(board, reissue, &mut current);
    let incoming = reissue.incoming.as_bytes();
    let rooms = second::Rooms { cells: usize::MAX, entries: usize::MAX };
    let second =
        best(2, || second::patch(&board.start, &board.text, reissue.number, incoming, &mut by_second, rooms, rooms));
    assert!(current == by_second, "the two programs give different sheets");
    Row {
        what: format!(
            "{what}, {} entries, sheet of {:.1} MB",
            with_commas(board.entries),
            board.start.len() as f64 / 1e6
        ),
        bytes: board.text.len(),
        byte_loop: loop_time(&[&board.text, &board.start, &board.start]),
        second: Some(second),
        proved,
    }
}

fn patch_top_row(wires: usize) -> Row {
    let board = Board::new(netlist(wires, Order::Netlist));
    patch_row("patch the top cell", &board, &Reissue { number: 1, incoming: top_cell(wires), runs: 2 })
}

/// A current sheet that differs from this one in a record, the last that can be found: a patch refuses it with 18 when it has checked both sheets.
fn unlike(board: &Board, reissue: &Reissue, rooms: &mut PatchRooms, current: &[u8]) -> Vec<u8> {
    for place in (0..current.len()).rev() {
        let mut other = current.to_vec();
        other[place] ^= 1;
        if patch_once(board, reissue, rooms, &mut other).0 == 18 {
            return other;
        }
    }
    panic!("no byte of the sheet belongs to a record");
}

/// What a patch costs beside annotating, whole and beyond reading the file and checking the sheets: annotating checks one, a patch two. Each
/// round measures all five, so that a slow moment of the machine meets all of them.
fn print_shares(mut board: Board) {
    let (_, mut current) = board.annotate();
    let reissue = Reissue::of_macro(&board, 1);
    let mut rooms = PatchRooms::new(&board, &reissue);
    let mut other = unlike(&board, &reissue, &mut rooms, &current);
    let mut out = vec![0; board.start.len()];
    let mut least = [f64::INFINITY; 5];
    for _ in 0..SHARE_ROUNDS {
        let patch = patch_time(&board, &reissue, &mut current);
        let check_both = patch_once(&board, &reissue, &mut rooms, &mut other).1;
        let Board { text, rooms: tables, start, .. } = &mut board;
        let round = [
            best(1, || proved::read_file(black_box(text), &mut tables.tables())),
            best(1, || proved::check_sheet(black_box(start))),
            best(1, || proved::annotate(black_box(start), black_box(text), &mut tables.tables(), &mut out)),
            patch,
            check_both,
        ];
        least = std::array::from_fn(|i| least[i].min(round[i]));
    }
    let [read, check, annotate, patch, check_both] = least;
    let beyond = (annotate - read - check).max(0.0);
    let patch_beyond = (patch - read - check_both).max(0.0);
    println!("\n### Shares, {} entries\n", with_commas(board.entries));
    println!("| what | ms | beyond reading and checking, ms |");
    println!("|---|---:|---:|");
    println!("| read the file | {:.2} | |\n| check the sheet | {:.2} | |", 1e3 * read, 1e3 * check);
    println!("| check the starting and the current sheet, as a patch does | {:.2} | |", 1e3 * check_both);
    println!("| annotate | {:.2} | {:.2} |", 1e3 * annotate, 1e3 * beyond);
    println!("| patch | {:.2} | {:.2} |", 1e3 * patch, 1e3 * patch_beyond);
    let share = patch_beyond / beyond.max(1e-9);
    println!("| patch, as a share of annotating | {:.2} | {share:.2} |", patch / annotate);
    println!("| patch, as a share of all of annotating | | {:.3} |", patch_beyond / annotate);
}
