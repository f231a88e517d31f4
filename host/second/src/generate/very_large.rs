//! Patches with more than 4,096 arcs in question, or with just that many: the proved program takes
//! so many at a time, and its answer is the least refusal of all of them.

use super::large::{
    empty_values, plan, put_in_sheet_order, sheet_key, spoil, values_at_the_limit, Form, Item, Means, Parts, Plan,
};
use super::sheet_of;
use super::world::{Instance, LocalArc, Name, Size, Type, World};
use crate::case::Case;
use crate::kinds::{Facts, Kind};
use crate::random::Random;

/// How many arcs are taken at a time.
const AT_A_TIME: usize = 4_096;

/// Where a refusal comes from: a cell before the incoming one, that one, or one behind it.
#[derive(Clone, Copy)]
enum When {
    Before,
    Within,
    Behind,
}

/// A patch of a top cell with thousands of wires, by its sort: 0 just 4,096 arcs, now and then with
/// one that is refused; 1 more arcs, none refused; 2 one refused; 3 two refused.
pub fn very_large_patch(random: &mut Random, sort: u64) -> Case {
    let count = match sort {
        0 => AT_A_TIME,
        _ => more_than_at_a_time(random),
    };
    let world = board((0..count).map(wire).collect());
    let arcs = &world.types[0].arcs;
    let mut parts = parts(random, &world, count);
    let faults = faults(random, sort, count);
    // Of two arcs one is refused 15, the other 16: which of them it is must not matter.
    let mut spoilt = [empty_values(), values_at_the_limit()];
    random.shuffle(&mut spoilt);
    for ((number, when), values) in faults.iter().zip(spoilt) {
        parts.start.arcs.values_mut().nth(*number).into_iter().for_each(|arc| arc.values = values);
        put_fault(&mut parts, &arcs[*number], *when);
    }
    if let [(first, _), (then, _)] = faults[..] {
        put_in_turn(&mut parts.incoming, &arcs[first], &arcs[then]);
    }
    parts.case(random, &world)
}

/// A patch of a top cell with few entries, of which a DEVICE means thousands of paths: so one entry
/// may be refused 15 for one arc and 16 for another.
pub fn many_paths_patch(random: &mut Random) -> Case {
    let count = more_than_at_a_time(random);
    let world = board((0..count).map(path).collect());
    let few = random.from_to(1, 60);
    let mut parts = parts(random, &world, few);
    for plan in [&mut parts.cells[1], &mut parts.incoming] {
        let place = random.below(plan.items.len() + 1);
        let increment = random.once_in(2);
        plan.items.insert(place, Item { means: Means::Device(None), increment });
    }
    if random.once_in(2) {
        spoil(random, &mut parts.start);
    }
    parts.case(random, &world)
}

/// The top level alone, with these arcs.
fn board(mut arcs: Vec<LocalArc>) -> World {
    put_in_sheet_order(&mut arcs);
    let types = vec![Type { text: b"BOARD".to_vec(), arcs }];
    let instances = vec![Instance { path: Name::new(), type_number: 0 }];
    World { types, instances, calm: true, strays: false, size: Size::VeryLarge }
}

fn wire(number: usize) -> LocalArc {
    let from = vec![format!("u{}", number % 97), format!("z{number}")];
    arc(Kind::Interconnect.facts(), from, vec![format!("v{}", 7 * number % 1_013), "a".to_string()])
}

fn path(number: usize) -> LocalArc {
    arc(Kind::Iopath.facts(), vec![format!("i{number}")], vec![format!("q{}", number % 50)])
}

fn arc(facts: &'static Facts, end1: Vec<String>, end2: Vec<String>) -> LocalArc {
    let name = |end: Vec<String>| end.into_iter().map(String::into_bytes).collect();
    LocalArc { facts, edge1: 0, end1: name(end1), edge2: 0, end2: name(end2) }
}

/// Mostly a few more, as the cost may grow with the square; seldom three times as many are begun.
fn more_than_at_a_time(random: &mut Random) -> usize {
    match random.once_in(4) {
        true => random.from_to(2 * AT_A_TIME - 1, 9_000),
        false => random.from_to(AT_A_TIME + 1, 5_000),
    }
}

/// The arcs that are refused, by their number on the sheet, and where. Of two, the one behind the
/// first 4,096 is refused first.
fn faults(random: &mut Random, sort: u64, count: usize) -> Vec<(usize, When)> {
    let early = random.below(AT_A_TIME);
    let any = random.pick(&[When::Before, When::Within, When::Behind]);
    match sort {
        0 if random.once_in(2) => vec![(early, any)],
        2 if random.once_in(2) => vec![(early, any)],
        2 => vec![(random.from_to(AT_A_TIME, count - 1), any)],
        3 => {
            let (first, then) = random.pick(&[
                (When::Before, When::Within),
                (When::Before, When::Behind),
                (When::Within, When::Within),
                (When::Within, When::Behind),
            ]);
            vec![(random.from_to(AT_A_TIME, count - 1), first), (early, then)]
        }
        _ => Vec::new(),
    }
}

/// A small cell, the one with an entry for each arc, and a small one again; the large one is issued
/// again, in its order or in none.
fn parts(random: &mut Random, world: &World, count: usize) -> Parts {
    let start = sheet_of(random, world);
    let entries = [random.from_to(1, 60), count, random.from_to(1, 60)];
    let cells = entries.map(|entries| plan(random, world, Form::Top, entries)).to_vec();
    let mut incoming = cells[1].clone();
    if random.once_in(2) {
        random.shuffle(&mut incoming.items);
    }
    Parts { start, cells, number: 2, incoming }
}

/// Has the new file's first entry for an arc be an INCREMENT.
fn put_fault(parts: &mut Parts, arc: &LocalArc, when: When) {
    let is_other = |item: &Item| !means(item, arc);
    parts.cells[0].items.retain(is_other);
    parts.cells[2].items.retain(is_other);
    let increment = Item { means: Means::Arc(arc.clone()), increment: true };
    match when {
        When::Before => parts.cells[0].items.push(increment),
        When::Within => parts.incoming.items.iter_mut().filter(|item| means(item, arc)).for_each(|item| {
            item.increment = true;
        }),
        // The outgoing cell still has the arc, so that it is in question.
        When::Behind => {
            parts.incoming.items.retain(is_other);
            parts.cells[2].items.push(increment);
        }
    }
}

/// Has the entry for one arc come before the one for the other, if there are both.
fn put_in_turn(plan: &mut Plan, first: &LocalArc, then: &LocalArc) {
    let place = |arc: &LocalArc| plan.items.iter().position(|item| means(item, arc));
    if let (Some(one), Some(other)) = (place(first), place(then)) {
        if one > other {
            plan.items.swap(one, other);
        }
    }
}

fn means(item: &Item, arc: &LocalArc) -> bool {
    matches!(&item.means, Means::Arc(other) if sheet_key(other) == sheet_key(arc))
}
