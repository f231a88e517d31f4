//! Makes a telling case smaller: tries to leave out bracketed groups and chunks of its texts, and
//! records of its sheets, as long as the case still tells. Long runs go first, as a large case has
//! thousands of entries and records.

use std::ops::Range;

use crate::case::Case;
use crate::sheet::check_sheet;
use crate::tokens::tokens;

/// A smaller case for which `fails` holds too. The case given is one for which it holds.
pub fn shrink(case: Case, fails: impl Fn(&Case) -> bool) -> Case {
    let mut smallest = case;
    loop {
        let before = size(&smallest);
        for text in 0..texts(&mut smallest.clone()).len() {
            smallest = shrink_text(smallest, text, &fails);
        }
        smallest = shrink_records(smallest, &fails);
        smallest = shrink_sheets(smallest, &fails);
        if size(&smallest) >= before {
            return smallest;
        }
    }
}

/// The texts of a case.
fn texts(case: &mut Case) -> Vec<&mut Vec<u8>> {
    match case {
        Case::ReadFile { text, .. } | Case::ReadCell { text, .. } | Case::Annotate { text, .. } => vec![text],
        Case::Patch { file, incoming, .. } => vec![file, incoming],
        Case::CheckSheet { .. } => Vec::new(),
    }
}

/// The sheets of a case, the starting one first.
fn sheets(case: &mut Case) -> Vec<&mut Vec<u8>> {
    match case {
        Case::CheckSheet { bytes } => vec![bytes],
        Case::Annotate { start, out, .. } => vec![start, out],
        Case::Patch { start, current, .. } => vec![start, current],
        Case::ReadFile { .. } | Case::ReadCell { .. } => Vec::new(),
    }
}

fn size(case: &Case) -> usize {
    let mut case = case.clone();
    let texts: usize = texts(&mut case).iter().map(|text| text.len()).sum();
    texts + sheets(&mut case).iter().map(|sheet| sheet.len()).sum::<usize>()
}

/// Chunks of half the length, of a quarter, and so on down to single bytes, each from the end to
/// the start.
fn chunks(length: usize) -> Vec<Range<usize>> {
    let mut chunks = Vec::new();
    let mut chunk = length.div_ceil(2);
    while chunk > 0 {
        chunks.extend((0..length).step_by(chunk).rev().map(|start| start..(start + chunk).min(length)));
        chunk /= 2;
    }
    chunks
}

/// The part of a range that lies within a length.
fn within(range: &Range<usize>, length: usize) -> Range<usize> {
    range.start.min(length)..range.end.min(length)
}

/// Leaves out bracketed groups of one text, then chunks, then runs of whole tokens.
fn shrink_text(case: Case, number: usize, fails: &impl Fn(&Case) -> bool) -> Case {
    let mut smallest = case;
    let mut run = texts(&mut smallest.clone())[number].iter().filter(|&&byte| byte == b'(').count();
    while run > 0 {
        smallest = shrink_groups(smallest, number, run, fails);
        run /= 2;
    }
    let length = texts(&mut smallest.clone())[number].len();
    for chunk in chunks(length) {
        smallest = without_text(&smallest, number, &chunk, fails).unwrap_or(smallest);
    }
    while let Some(smaller) = without_tokens(&smallest, number, fails) {
        smallest = smaller;
    }
    smallest
}

/// Leaves out runs of so many neighbouring groups of one text, from the end to the start.
fn shrink_groups(case: Case, number: usize, run: usize, fails: &impl Fn(&Case) -> bool) -> Case {
    let runs_of = |case: &Case| group_runs(texts(&mut case.clone())[number], run);
    let mut smallest = case;
    let mut runs = runs_of(&smallest);
    let mut left = runs.len();
    while left > 0 {
        left -= 1;
        if let Some(smaller) = without_text(&smallest, number, &runs[left], fails) {
            smallest = smaller;
            // Those in front that reach over it end elsewhere now.
            runs = runs_of(&smallest);
            left = left.min(runs.len());
        }
    }
    smallest
}

/// The groups from `(` to `)` that stand in the same group, taken so many at a time, in the order
/// of their starts. Those of fewer neighbours are left to shorter runs.
fn group_runs(text: &[u8], run: usize) -> Vec<Range<usize>> {
    let mut open: Vec<(usize, Vec<Range<usize>>)> = vec![(0, Vec::new())];
    let mut runs = Vec::new();
    for token in tokens(text).list {
        match text.get(token.start()) {
            Some(b'(') => open.push((token.start(), Vec::new())),
            Some(b')') if open.len() > 1 => {
                let (start, within) = open.pop().unwrap_or_default();
                runs.extend(runs_of_neighbours(&within, run));
                open.last_mut().into_iter().for_each(|group| group.1.push(start..token.start() + 1));
            }
            _ => {}
        }
    }
    runs.extend(open.iter().flat_map(|group| runs_of_neighbours(&group.1, run)));
    runs.sort_by_key(|run| run.start);
    runs
}

fn runs_of_neighbours(groups: &[Range<usize>], run: usize) -> Vec<Range<usize>> {
    groups.chunks_exact(run).map(|run| run[0].start..run[run.len() - 1].end).collect()
}

/// The case without these bytes of one text, if it still tells.
fn without_text(case: &Case, number: usize, bytes: &Range<usize>, fails: &impl Fn(&Case) -> bool) -> Option<Case> {
    let mut smaller = case.clone();
    let text = &mut texts(&mut smaller)[number];
    let bytes = within(bytes, text.len());
    text.drain(bytes.clone());
    (!bytes.is_empty() && fails(&smaller)).then_some(smaller)
}

/// The case without some run of tokens of one text, a long one if possible.
fn without_tokens(case: &Case, number: usize, fails: &impl Fn(&Case) -> bool) -> Option<Case> {
    let text = texts(&mut case.clone())[number].clone();
    token_runs(&text).iter().find_map(|run| without_text(case, number, run, fails))
}

/// From the start of each token to the start of a later one or to the end, the longest runs first;
/// in a text of many tokens only as far as some tokens go.
fn token_runs(text: &[u8]) -> Vec<Range<usize>> {
    let mut starts: Vec<usize> = tokens(text).list.iter().map(|token| token.start()).collect();
    starts.push(text.len());
    let longest = (10_000 / starts.len()).min(starts.len() - 1);
    let runs = |length: usize| starts.windows(length + 1).map(move |run| run[0]..run[length]);
    (1..=longest).rev().flat_map(runs).collect()
}

/// The same chunk out of all sheets, which keeps their lengths alike.
fn shrink_sheets(case: Case, fails: &impl Fn(&Case) -> bool) -> Case {
    let length = sheets(&mut case.clone()).first().map_or(0, |sheet| sheet.len());
    let mut smallest = case;
    for chunk in chunks(length) {
        let smaller = without(&smallest, &chunk, None);
        if size(&smaller) < size(&smallest) && fails(&smaller) {
            smallest = smaller;
        }
    }
    smallest
}

/// Runs of records out of all sheets, half of them first and at last one after the other, with the
/// counts made to fit.
fn shrink_records(case: Case, fails: &impl Fn(&Case) -> bool) -> Case {
    let mut smallest = case;
    let mut run = first_records(&smallest).len().div_ceil(2);
    while run > 0 {
        smallest = shrink_runs_of_records(smallest, run, fails);
        run /= 2;
    }
    smallest
}

fn first_records(case: &Case) -> Vec<(Range<usize>, usize)> {
    sheets(&mut case.clone()).first().map_or(Vec::new(), |sheet| records(sheet))
}

/// Runs of so many records, or of those up to the last of its kind.
fn shrink_runs_of_records(case: Case, run: usize, fails: &impl Fn(&Case) -> bool) -> Case {
    let mut smallest = case;
    let mut number = 0;
    loop {
        let records = first_records(&smallest);
        let Some((first, count_place)) = records.get(number) else {
            return smallest;
        };
        let alike = records[number..].iter().take(run).take_while(|record| record.1 == *count_place);
        let (count, end) = alike.fold((0, first.end), |(count, _), record| (count + 1, record.0.end));
        let smaller = without(&smallest, &(first.start..end), Some((*count_place, count)));
        match fails(&smaller) {
            true => smallest = smaller,
            false => number += count as usize,
        }
    }
}

/// The case without these bytes of its sheets, and so many less at the place of a count.
fn without(case: &Case, bytes: &Range<usize>, counted: Option<(usize, u32)>) -> Case {
    let mut smaller = case.clone();
    for sheet in sheets(&mut smaller) {
        let bytes = within(bytes, sheet.len());
        sheet.drain(bytes);
        let Some((place, less)) = counted else {
            continue;
        };
        if let Some(count) = sheet.get_mut(place..place + 4) {
            let number = count.iter().fold(0u32, |sum, &byte| sum << 8 | u32::from(byte));
            count.copy_from_slice(&number.wrapping_sub(less).to_be_bytes());
        }
    }
    smaller
}

/// The places of a sheet's records, each with the place of the count that counts it; none if it
/// is no sheet.
fn records(bytes: &[u8]) -> Vec<(Range<usize>, usize)> {
    let Ok(sheet) = check_sheet(bytes) else {
        return Vec::new();
    };
    let instances = sheet.instances.iter().map(|(path, type_text)| (6 + path.len() + type_text.len(), 4));
    let arcs = sheet.arcs.keys().map(|key| (9 + key.end1.len() + key.end2.len() + 144, 8));
    let mut place = 12;
    let mut records = Vec::new();
    for (length, count_place) in instances.chain(arcs) {
        records.push((place..place + length, count_place));
        place += length;
    }
    records
}
