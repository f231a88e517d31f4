//! The comparison of the proved library with the second program: `compare COUNT [--from SEED]`.
//!
//! Each seed is a case; both programs get it, and everything they leave must be the same: the answer, every word of every
//! table (what stood there before included), every byte of every sheet. A difference is made small and printed.

mod bytes;
mod large;
mod left;
mod show;

use std::collections::BTreeMap;
use std::process::ExitCode;
use std::time::{Duration, Instant};

use second::shrink::shrink;
use second::{case, touched_arcs, Case};

use left::{by_proved, by_second, difference, missing};

/// For how long a differing case is made smaller: one of thousands of arcs that needs them all would take hours.
const SHRINKING: Duration = Duration::from_secs(600);

const USAGE: &str = "usage: compare COUNT [--from SEED]";

fn main() -> ExitCode {
    let arguments: Vec<String> = std::env::args().skip(1).collect();
    let words: Vec<&str> = arguments.iter().map(String::as_str).collect();
    let numbers = match words.as_slice() {
        [count] => (count.parse(), Ok(0)),
        [count, "--from", seed] | ["--from", seed, count] => (count.parse(), seed.parse()),
        _ => {
            eprintln!("{USAGE}");
            return ExitCode::from(2);
        }
    };
    let (Ok(count), Ok(from)) = numbers else {
        eprintln!("compare: COUNT and SEED are whole numbers\n{USAGE}");
        return ExitCode::from(2);
    };
    match compare(count, from) {
        true => ExitCode::SUCCESS,
        false => ExitCode::from(1),
    }
}

/// Compares on so many seeds, on every byte at every kind of place, then on the large cases; whether there was no difference.
fn compare(count: u64, from: u64) -> bool {
    let started = Instant::now();
    let mut tally = Tally::default();
    for seed in (0..count).map(|number| from.wrapping_add(number)) {
        if let Some(part) = tally.judge(&case(seed)) {
            println!("seed {seed} differs in {part}");
            let until = Instant::now() + SHRINKING;
            let smallest = shrink(case(seed), |case| Instant::now() < until && difference(case).is_some());
            show::print_case(&smallest);
            return false;
        }
    }
    for case in bytes::cases() {
        if let Some(part) = tally.judge(&case) {
            println!("a file with other bytes at one place differs in {part}");
            show::print_case(&case);
            return false;
        }
    }
    for (name, case) in large::cases() {
        if let Some(part) = tally.judge(&case) {
            println!("the large case \"{name}\" differs in {part}");
            return false;
        }
    }
    tally.print();
    println!(
        "{count} cases from seed {from}, every byte at each kind of place, and the large ones, in {:.1} s: no difference",
        started.elapsed().as_secs_f64()
    );
    true
}

/// How many cases of each operation, and of the patches of many arcs among them, were accepted (0) or refused, by number; and
/// how many the library lacks.
#[derive(Default)]
struct Tally {
    answers: BTreeMap<&'static str, BTreeMap<u64, u64>>,
    missing: BTreeMap<&'static str, u64>,
}

impl Tally {
    /// Runs a case through both programs and counts it; what differs, if anything does.
    fn judge(&mut self, case: &Case) -> Option<&'static str> {
        if let Some(feature) = missing(case) {
            *self.missing.entry(feature).or_default() += 1;
            return difference(case);
        }
        let (expected, found) = (by_second(case), by_proved(case));
        for group in [Some(operation(case)), many_arcs(case)].into_iter().flatten() {
            *self.answers.entry(group).or_default().entry(expected.answer[0]).or_default() += 1;
        }
        expected.difference(&found)
    }

    fn print(&self) {
        for (operation, answers) in &self.answers {
            let all: u64 = answers.values().sum();
            print!("{operation:24}{all:9} cases: accepted {}", answers.get(&0).unwrap_or(&0));
            let refused = answers.iter().filter(|(number, _)| **number != 0);
            let refused: Vec<String> = refused.map(|(number, count)| format!("{number}: {count}")).collect();
            println!("{}{}", if refused.is_empty() { "" } else { ", refused " }, refused.join(", "));
        }
        for (feature, count) in &self.missing {
            println!("only tokens compared: {count} cases, as the library was linked without `{feature}`");
        }
    }
}

fn operation(case: &Case) -> &'static str {
    match case {
        Case::ReadFile { .. } => "read file",
        Case::ReadCell { .. } => "read cell",
        Case::CheckSheet { .. } => "check sheet",
        Case::Annotate { .. } => "annotate",
        Case::Patch { .. } => "patch",
    }
}

/// Which of the patches of many arcs this is, if it is one: the proved program has other ways for them.
fn many_arcs(case: &Case) -> Option<&'static str> {
    match touched_arcs(case) {
        0..=64 => None,
        65..=4_096 => Some("patch, over 64 arcs"),
        _ => Some("patch, over 4,096 arcs"),
    }
}
