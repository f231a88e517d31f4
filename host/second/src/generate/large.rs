//! Patches with many arcs in question: cells of hundreds of entries or of few that mean many arcs.
//!
//! A world here has one type with many arcs, its instances, and the top level, whose arcs are in
//! part those of the first instance under their full names: so cells of three forms (a path, the
//! top level, `*`) touch the same arcs, and a file's cells make up long histories of them.

use super::texts::{head_tokens, joined, name_with_dots, name_word, push_header, words, Token, Tokens, Writer};
use super::world::{new_arc, new_arc_of, new_path, Instance, LocalArc, Name, Size, Type, World};
use super::{current_sheet, odd_values, sheet_of, AMPLE};
use crate::case::Case;
use crate::kinds::Kind;
use crate::random::Random;
use crate::reader::{read_cell, read_file, File, Rooms};
use crate::sheet::{encode, Sheet, VALUES};

/// What an entry is about.
#[derive(Clone)]
pub enum Means {
    Arc(LocalArc),
    /// A DEVICE, with a port or without.
    Device(Option<Name>),
}

/// An entry without its values. In a check `increment` says nothing.
#[derive(Clone)]
pub struct Item {
    pub means: Means,
    pub increment: bool,
}

impl Item {
    /// The keyword of the group or section that the entry stands in.
    fn group(&self) -> &'static str {
        match &self.means {
            Means::Arc(arc) if arc.facts.check => "TIMINGCHECK",
            _ if self.increment => "INCREMENT",
            _ => "ABSOLUTE",
        }
    }

    fn tokens(&self, random: &mut Random, writer: &Writer) -> Tokens {
        match &self.means {
            Means::Arc(arc) => writer.arc_entry(random, arc),
            Means::Device(port) => writer.device_entry(random, port.as_ref()),
        }
    }
}

/// A cell without its values: written twice, it is a cell and the same one issued again.
#[derive(Clone)]
pub struct Plan {
    type_text: Vec<u8>,
    /// None for `*`.
    path: Option<Name>,
    pub items: Vec<Item>,
}

impl Plan {
    fn tokens(&self, random: &mut Random, world: &World, divider: u8, power: u32) -> Tokens {
        let path: Option<Token> = match &self.path {
            None => Some(b"*".as_slice().into()),
            Some(path) => (!path.is_empty()).then(|| name_word(path, divider)),
        };
        let mut tokens = head_tokens(&self.type_text, path.into_iter().collect());
        let writer = Writer { world, chosen: &world.types[0], divider, power };
        for run in self.items.chunk_by(|one, next| one.group() == next.group()) {
            let (opening, closing): (Tokens, &[&'static str]) = match run[0].group() {
                "TIMINGCHECK" => (words(&["(", "TIMINGCHECK"]), &[")"]),
                group => (words(&["(", "DELAY", "(", group]), &[")", ")"]),
            };
            tokens.extend(opening);
            tokens.extend(run.iter().flat_map(|item| item.tokens(random, &writer)));
            tokens.extend(words(closing));
        }
        tokens.extend(words(&[")"]));
        tokens
    }
}

/// What a patch is made of.
pub struct Parts {
    pub start: Sheet,
    pub cells: Vec<Plan>,
    /// The outgoing cell's number, from 1.
    pub number: usize,
    pub incoming: Plan,
}

impl Parts {
    pub fn case(&self, random: &mut Random, world: &World) -> Case {
        let mut tokens = words(&["(", "DELAYFILE"]);
        let (divider, power) = push_header(random, &mut tokens);
        for cell in &self.cells {
            tokens.extend(cell.tokens(random, world, divider, power));
        }
        tokens.extend(words(&[")"]));
        let file = joined(random, tokens);
        let tokens = self.incoming.tokens(random, world, divider, power);
        let incoming = joined(random, tokens);
        let start = encode(&self.start);
        // There are few very large ones: none of them is spent on a current sheet that is refused.
        let current = match world.size {
            Size::VeryLarge => odd_values(random, start.clone()),
            _ => current_sheet(random, &start, &file),
        };
        let just_enough = |read: File| Rooms { cells: read.cells.len(), entries: read.entries.len() };
        let file_rooms = read_file(&file, AMPLE.cells, AMPLE.entries).map_or(AMPLE, just_enough);
        let incoming_rooms = read_cell(&incoming, divider, power, AMPLE).map_or(AMPLE, just_enough);
        Case::Patch { start, file, number: self.number as u64, incoming, current, file_rooms, incoming_rooms }
    }
}

/// How a cell says whom it is for.
#[derive(Clone, Copy, PartialEq, Eq)]
pub enum Form {
    /// By the path of the first instance.
    Path,
    Top,
    Star,
}

impl Form {
    fn any(random: &mut Random) -> Form {
        random.pick(&[Form::Path, Form::Top, Form::Star])
    }
}

/// A patch of a cell of 40 to 400 entries, or of another one that shares arcs with it.
pub fn large_patch(random: &mut Random) -> Case {
    let form = Form::any(random);
    let (entries, instances) = match form {
        Form::Star => (random.from_to(40, 120), random.from_to(2, 4)),
        _ => (random.from_to(40, 400), random.from_to(1, 2)),
    };
    let world = large_world(random, entries, instances);
    let mut start = sheet_of(random, &world);
    if !random.once_in(3) {
        spoil(random, &mut start);
    }
    let mut cells: Vec<Plan> = (0..random.from_to(1, 5)).map(|_| other_cell(random, &world)).collect();
    let place = random.below(cells.len() + 1);
    cells.insert(place, plan(random, &world, form, entries));
    let number = match random.once_in(4) {
        true => random.from_to(1, cells.len()),
        false => place + 1,
    };
    let mut incoming = reissued(random, &world, &cells[number - 1]);
    if random.once_in(3) {
        lead_astray(random, &mut incoming);
    }
    Parts { start, cells, number, incoming }.case(random, &world)
}

/// A type with about so many arcs, some instances of it, and the top level: it has the arcs of the
/// first instance, and some of its own.
fn large_world(random: &mut Random, arcs: usize, instances: usize) -> World {
    let arcs = many_arcs(random, arcs);
    let paths: Vec<Name> = (0..instances).map(|_| new_path(random)).collect();
    let own = random.from_to(1, 40);
    let mut top_arcs = many_arcs(random, own);
    top_arcs.extend(arcs.iter().map(|arc| below(&paths[0], arc)));
    // Longer names are no words of a text.
    top_arcs.retain(|arc| [&arc.end1, &arc.end2].iter().all(|end| name_with_dots(end).len() <= 1_024));
    put_in_sheet_order(&mut top_arcs);
    let types = vec![Type { text: b"T".to_vec(), arcs }, Type { text: b"BOARD".to_vec(), arcs: top_arcs }];
    let mut all: Vec<Instance> = paths.into_iter().map(|path| Instance { path, type_number: 0 }).collect();
    all.push(Instance { path: Name::new(), type_number: 1 });
    World { types, instances: all, calm: true, strays: false, size: Size::Large }
}

/// The arc of an instance, as the top level has it.
fn below(path: &Name, arc: &LocalArc) -> LocalArc {
    let full = |end: &Name| if end.is_empty() { Name::new() } else { [path.as_slice(), end].concat() };
    LocalArc { end1: full(&arc.end1), end2: full(&arc.end2), ..arc.clone() }
}

/// Arcs of all kinds, in a sheet's order; half of them delays more, as only these have INCREMENT.
fn many_arcs(random: &mut Random, count: usize) -> Vec<LocalArc> {
    let mut arcs: Vec<LocalArc> = (0..count)
        .map(|_| match random.below(6) {
            0 => new_arc_of(random, Kind::Interconnect.facts()),
            1 => new_arc_of(random, Kind::Port.facts()),
            2 => new_arc_of(random, Kind::Iopath.facts()),
            _ => new_arc(random),
        })
        .collect();
    put_in_sheet_order(&mut arcs);
    arcs
}

/// By what a sheet's arcs are in order by, each once.
pub fn put_in_sheet_order(arcs: &mut Vec<LocalArc>) {
    arcs.sort_by_cached_key(sheet_key);
    arcs.dedup_by_key(|arc| sheet_key(arc));
}

pub fn sheet_key(arc: &LocalArc) -> (u8, Vec<u8>, u8, Vec<u8>, u8) {
    (arc.facts.number, name_with_dots(&arc.end1), arc.edge1, name_with_dots(&arc.end2), arc.edge2)
}

/// A cell of this form with about so many entries: in the sheet's order, the other way round, or in
/// none; now and then with an arc twice.
pub fn plan(random: &mut Random, world: &World, form: Form, entries: usize) -> Plan {
    let top = world.instances.len() - 1;
    let instance = &world.instances[if form == Form::Top { top } else { 0 }];
    let chosen = &world.types[instance.type_number];
    let mut arcs = chosen.arcs.clone();
    while arcs.len() > entries {
        arcs.swap_remove(random.below(arcs.len()));
    }
    if random.once_in(3) && world.size == Size::Large {
        let again: Vec<LocalArc> = arcs.iter().filter(|_| random.once_in(10)).cloned().collect();
        arcs.extend(again);
    }
    match random.below(3) {
        0 => arcs.sort_by_cached_key(sheet_key),
        1 => arcs.sort_by_cached_key(|arc| std::cmp::Reverse(sheet_key(arc))),
        _ => random.shuffle(&mut arcs),
    }
    let path = (form != Form::Star).then(|| instance.path.clone());
    Plan { type_text: chosen.text.clone(), path, items: items(random, world, arcs) }
}

/// Entries for these arcs, in runs of ABSOLUTE and INCREMENT; some of the paths as DEVICE.
fn items(random: &mut Random, world: &World, arcs: Vec<LocalArc>) -> Vec<Item> {
    let increment_once_in = random.pick(&[1, 2, 2, 8, usize::MAX]);
    let mut increment = random.once_in(increment_once_in);
    let mut items = Vec::new();
    for arc in arcs {
        if random.once_in(5) {
            increment = random.once_in(increment_once_in);
        }
        let device = world.size == Size::Large && arc.facts.kind == Kind::Iopath && random.once_in(10);
        let means = if device { device_of(random, &arc) } else { Means::Arc(arc) };
        items.push(Item { means, increment });
    }
    items
}

/// A DEVICE that addresses at least this path.
fn device_of(random: &mut Random, arc: &LocalArc) -> Means {
    Means::Device((arc.end2.len() != 1 || random.once_in(2)).then(|| arc.end2.clone()))
}

/// A cell that shares arcs with the large one: of a few entries, of some, of as many; or of a few
/// DEVICE entries, each of which means many arcs.
fn other_cell(random: &mut Random, world: &World) -> Plan {
    let form = Form::any(random);
    let entries = match random.below(4) {
        0 | 1 => random.from_to(1, 8),
        2 => random.from_to(1, 80),
        _ => random.from_to(1, 400),
    };
    let mut plan = plan(random, world, form, entries);
    if random.once_in(4) {
        plan.items.retain(|item| matches!(item.means, Means::Device(_)));
        let increment = random.once_in(2);
        plan.items.truncate(3);
        plan.items.push(Item { means: Means::Device(None), increment });
    }
    plan
}

/// The cell issued again: with other values only, with entries left out or added, in other groups
/// and another order; or another cell altogether.
fn reissued(random: &mut Random, world: &World, outgoing: &Plan) -> Plan {
    let mut plan = outgoing.clone();
    match random.below(6) {
        0 | 1 => {}
        2 => {
            let rarity = random.pick(&[2, 5, 30]);
            plan.items.retain(|_| !random.once_in(rarity));
        }
        3 => {
            let more = other_cell(random, world);
            // Those of another type would be lacking, most of them.
            if more.type_text == plan.type_text {
                let place = random.below(plan.items.len() + 1);
                plan.items.splice(place..place, more.items);
            }
        }
        4 => {
            random.shuffle(&mut plan.items);
            plan.items.iter_mut().filter(|_| random.once_in(4)).for_each(|item| item.increment = !item.increment);
        }
        _ => return other_cell(random, world),
    }
    plan
}

/// Makes the cell one that is refused for what it addresses: 12, 13, or 14 at some entry.
fn lead_astray(random: &mut Random, plan: &mut Plan) {
    let nowhere = || vec![b"nowhere".to_vec()];
    match random.below(4) {
        0 => plan.path = Some(nowhere()),
        1 if plan.path.is_some() => plan.type_text = b"STRAY".to_vec(),
        _ => {
            let place = early_or_late(random, plan.items.len() + 1);
            let arc = LocalArc { end1: nowhere(), ..new_arc(random) };
            plan.items.insert(place, Item { means: Means::Arc(arc), increment: false });
        }
    }
}

/// A number below the bound, which isn't 0: one of the first, one of the last, or any.
fn early_or_late(random: &mut Random, bound: usize) -> usize {
    match random.below(3) {
        0 => random.below(bound.min(3)),
        1 => bound - 1 - random.below(bound.min(3)),
        _ => random.below(bound),
    }
}

/// Values of some delays at which an INCREMENT is refused, unless an ABSOLUTE covers them before.
pub fn spoil(random: &mut Random, sheet: &mut Sheet) {
    let checks = Kind::Setup.facts().number;
    let mut delays: Vec<_> = sheet.arcs.iter_mut().filter(|(key, _)| key.kind < checks).collect();
    for _ in 0..random.pick(&[1, 1, 2, 3, 12]) {
        if delays.is_empty() {
            return;
        }
        let number = early_or_late(random, delays.len());
        let spoilt = spoilt_values(random);
        match random.once_in(3) {
            true => {
                let slot = random.below(VALUES);
                delays[number].1.values[slot] = spoilt[slot];
            }
            false => delays[number].1.values = spoilt,
        }
    }
}

/// Starting values at which an INCREMENT is refused 15, or 16.
fn spoilt_values(random: &mut Random) -> [Option<i64>; VALUES] {
    if random.once_in(2) {
        empty_values()
    } else {
        values_at_the_limit()
    }
}

pub fn empty_values() -> [Option<i64>; VALUES] {
    [None; VALUES]
}

/// Any number but 0, up or down, takes a value of each row beyond the limit.
pub fn values_at_the_limit() -> [Option<i64>; VALUES] {
    const LIMIT: i64 = 1_000_000_000_000_000;
    std::array::from_fn(|slot| Some(if slot % 2 == 0 { LIMIT } else { -LIMIT }))
}
