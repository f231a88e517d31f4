//! Measuring, and the table of what was measured.

use std::hint::black_box;
use std::time::Instant;

/// The best of some runs, in seconds.
pub fn best<T>(runs: usize, mut work: impl FnMut() -> T) -> f64 {
    (0..runs)
        .map(|_| {
            let start = Instant::now();
            black_box(work());
            start.elapsed().as_secs_f64()
        })
        .fold(f64::INFINITY, f64::min)
}

/// The plainest possible loop that looks at each byte: one table look-up and a sum that the next byte waits for.
fn byte_loop(text: &[u8], table: &[u8; 256]) -> u64 {
    let mut sum = 0u64;
    for &b in text {
        sum = sum.wrapping_mul(31).wrapping_add(u64::from(table[usize::from(b)]));
    }
    sum
}

/// How long the plain loop takes over all these bytes.
pub fn loop_time(texts: &[&[u8]]) -> f64 {
    let mut table = [0u8; 256];
    for (i, class) in table.iter_mut().enumerate() {
        *class = (i % 13) as u8;
    }
    texts.iter().map(|text| best(9, || byte_loop(black_box(text), black_box(&table)))).sum()
}

/// One measurement, times in seconds.
pub struct Row {
    pub what: String,
    /// The text's length.
    pub bytes: usize,
    pub byte_loop: f64,
    pub second: Option<f64>,
    pub proved: f64,
}

/// Prints rows as a Markdown table. A ratio above 1 says that the proved functions are faster.
pub fn print_table(title: &str, rows: &[Row]) {
    println!("\n### {title}\n");
    println!("| what | bytes | byte loop ms | second ms | proved ms | proved MB/s | to the loop | to the second |");
    println!("|---|---:|---:|---:|---:|---:|---:|---:|");
    for row in rows {
        let second = row.second.map_or("".to_string(), |second| format!("{:.2}", 1e3 * second));
        let to_second = row.second.map_or("".to_string(), |second| format!("{:.2}", second / row.proved));
        println!(
            "| {} | {} | {:.2} | {second} | {:.2} | {:.0} | {:.2} | {to_second} |",
            row.what,
            with_commas(row.bytes),
            1e3 * row.byte_loop,
            1e3 * row.proved,
            row.bytes as f64 / row.proved / 1e6,
            row.byte_loop / row.proved,
        );
    }
}

pub fn with_commas(number: usize) -> String {
    let digits = number.to_string();
    let groups: Vec<&[u8]> = digits.as_bytes().rchunks(3).rev().collect();
    String::from_utf8_lossy(&groups.join(&b',')).into_owned()
}
