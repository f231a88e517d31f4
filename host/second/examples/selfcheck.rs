//! Runs generated cases through the laws, and prints how many cases of each kind were accepted or
//! refused, by number: `selfcheck COUNT [FIRST_SEED]`. Stops at the first broken law.

use std::collections::BTreeMap;
use std::time::Instant;

use second::shrink::shrink;
use second::{case, laws, outcome, Answer, Case};

fn main() {
    let mut arguments = std::env::args().skip(1).map(|argument| argument.parse().expect("a number"));
    let count: u64 = arguments.next().unwrap_or(200_000);
    let first: u64 = arguments.next().unwrap_or(0);
    let started = Instant::now();
    let mut tallies: BTreeMap<&str, BTreeMap<u8, u64>> = BTreeMap::new();
    for seed in first..first + count {
        let case = case(seed);
        if let Some(law) = laws::broken(&case) {
            println!("seed {seed} breaks: {law}");
            let smaller = shrink(case, |case| laws::broken(case) == Some(law));
            println!("{smaller:?}");
            println!("{:?}", outcome(&smaller));
            std::process::exit(1);
        }
        let outcome = outcome(&case);
        let number = match outcome.answer {
            Answer::Refused(refusal) => refusal.number,
            _ => 0,
        };
        *tallies.entry(operation(&case)).or_default().entry(number).or_default() += 1;
        if laws::demand_3_speaks(&case, &outcome) {
            *tallies.entry("of demand 3").or_default().entry(number).or_default() += 1;
        }
    }
    for (operation, tally) in &tallies {
        print_tally(operation, tally);
    }
    println!("{count} cases in {:.1} s, no law broken", started.elapsed().as_secs_f64());
}

fn operation(case: &Case) -> &'static str {
    match case {
        Case::ReadFile { .. } => "read file",
        Case::ReadCell { .. } => "read cell",
        Case::CheckSheet { .. } => "check sheet",
        Case::Annotate { .. } => "annotate",
        Case::Patch { .. } => "patch",
    }
}

fn print_tally(operation: &str, tally: &BTreeMap<u8, u64>) {
    let all: u64 = tally.values().sum();
    let accepted = tally.get(&0).copied().unwrap_or(0);
    print!("{operation:12} {all:8} cases, {:2} % accepted, refused", 100 * accepted / all.max(1));
    for (number, count) in tally.iter().filter(|(number, _)| **number != 0) {
        print!(" {number}: {count}");
    }
    println!();
}
