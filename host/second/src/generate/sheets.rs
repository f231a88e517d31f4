//! Sheets of a world, and damaged ones.

use std::collections::BTreeMap;

use super::texts::{any_time, name_with_dots};
use super::world::{new_arc, LocalArc, Name, Size, World};
use crate::kinds::{kind_of_number, Facts};
use crate::names::full_name;
use crate::random::Random;
use crate::sheet::{check_sheet, encode, Arc, ArcKey, Sheet, VALUES, VALUE_BYTES};

/// A starting sheet for the world: now and then with an instance or arcs missing, or more arcs.
pub fn sheet_of(random: &mut Random, world: &World) -> Sheet {
    let gaps = world.strays && random.once_in(3);
    // With hundreds of entries some INCREMENT would nearly always meet an empty value: large worlds have theirs put in later.
    let filled = world.size != Size::Small || !random.once_in(3);
    let mut sheet = Sheet::default();
    for instance in &world.instances {
        if gaps && random.once_in(15) {
            continue;
        }
        let path = name_with_dots(&instance.path);
        let chosen = &world.types[instance.type_number];
        for arc in &chosen.arcs {
            if !gaps || !random.once_in(6) {
                let arc = full_arc(random, &instance.path, arc, world.calm, filled);
                sheet.arcs.extend(fitting(arc));
            }
        }
        if path.len() <= 1_024 {
            sheet.instances.insert(path, chosen.text.clone());
        }
    }
    if random.once_in(5) {
        let extra = new_arc(random);
        sheet.arcs.extend(fitting(full_arc(random, &Name::new(), &extra, world.calm, filled)));
    }
    sheet
}

fn fitting(arc: (ArcKey, Arc)) -> Option<(ArcKey, Arc)> {
    (arc.0.end1.len() <= 2_049 && arc.0.end2.len() <= 2_049).then_some(arc)
}

fn full_arc(random: &mut Random, path: &Name, arc: &LocalArc, calm: bool, filled: bool) -> (ArcKey, Arc) {
    let path = name_with_dots(path);
    let full = |end: &Name| match end.is_empty() {
        true => Vec::new(),
        false => full_name(&path, &name_with_dots(end)),
    };
    let (end1, end2) = (full(&arc.end1), full(&arc.end2));
    let key = ArcKey { kind: arc.facts.number, end1, edge1: arc.edge1, end2, edge2: arc.edge2 };
    (key, Arc { values: any_values(random, arc.facts, calm, filled), place: 0 })
}

/// Values that the kind may have: all filled, or some or all of them empty.
fn any_values(random: &mut Random, facts: &Facts, calm: bool, filled: bool) -> [Option<i64>; VALUES] {
    let empty_once_in = if filled { usize::MAX } else { random.from_to(1, 8) };
    std::array::from_fn(|slot| {
        let size = any_time(random, calm) as i64;
        let value = if facts.signed && random.once_in(3) { -size } else { size };
        (slot / 3 < facts.values && !random.once_in(empty_once_in)).then_some(value)
    })
}

/// The records of a sheet, to be put together in any way.
struct Loose {
    format: u16,
    counts: Option<(u32, u32)>,
    instances: Vec<(Vec<u8>, Vec<u8>)>,
    arcs: Vec<(ArcKey, [i64; VALUES])>,
}

impl Loose {
    fn of(sheet: &Sheet) -> Loose {
        let values = |arc: &Arc| arc.values.map(|value| value.unwrap_or(i64::MIN));
        Loose {
            format: 1,
            counts: None,
            instances: sheet.instances.clone().into_iter().collect(),
            arcs: sheet.arcs.iter().map(|(key, arc)| (key.clone(), values(arc))).collect(),
        }
    }

    fn bytes(&self) -> Vec<u8> {
        let (instances, arcs) = self.counts.unwrap_or((self.instances.len() as u32, self.arcs.len() as u32));
        let mut bytes = b"HD".to_vec();
        bytes.extend(self.format.to_be_bytes());
        bytes.extend(instances.to_be_bytes());
        bytes.extend(arcs.to_be_bytes());
        let text = |text: &[u8]| [&(text.len() as u16).to_be_bytes(), text].concat();
        for (path, type_text) in &self.instances {
            bytes.extend([b"IN", text(path).as_slice(), &text(type_text)].concat());
        }
        for (key, values) in &self.arcs {
            bytes.extend([b"AR".as_slice(), &[key.kind, key.edge1], &text(&key.end1)].concat());
            bytes.extend([[key.edge2].as_slice(), &text(&key.end2)].concat());
            bytes.extend(values.iter().flat_map(|value| value.to_be_bytes()));
        }
        bytes
    }
}

/// A sheet with one or two faults, or what looks like one.
pub fn hostile_sheet(random: &mut Random, sheet: &Sheet) -> Vec<u8> {
    if random.once_in(4) {
        return damaged_bytes(random, encode(sheet));
    }
    let mut loose = Loose::of(sheet);
    for _ in 0..random.from_to(1, 2) {
        match random.below(6) {
            0 => spoil_counts(random, &mut loose),
            1 | 2 => spoil_instance(random, &mut loose),
            _ => spoil_arc(random, &mut loose),
        }
    }
    if random.once_in(2) {
        // In order, so that the order isn't the fault.
        loose.instances = loose.instances.into_iter().collect::<BTreeMap<_, _>>().into_iter().collect();
        loose.arcs = loose.arcs.into_iter().collect::<BTreeMap<_, _>>().into_iter().collect();
    }
    loose.bytes()
}

fn spoil_counts(random: &mut Random, loose: &mut Loose) {
    let (instances, arcs) = (loose.instances.len() as u32, loose.arcs.len() as u32);
    match random.below(4) {
        0 => loose.format = random.pick(&[0, 2, 256, 65_535]),
        1 => loose.counts = Some((instances + 1, arcs)),
        2 => loose.counts = Some((instances, arcs.wrapping_sub(1))),
        _ => loose.counts = Some((random.pick(&[u32::MAX, 0]), random.pick(&[arcs, u32::MAX, 0]))),
    }
}

fn spoil_instance(random: &mut Random, loose: &mut Loose) {
    if loose.instances.is_empty() {
        return;
    }
    let place = random.below(loose.instances.len());
    match random.below(5) {
        0 => loose.instances[place].0 = any_name(random),
        1 => loose.instances[place].1 = any_type(random),
        2 => loose.instances.swap(place, 0),
        3 => loose.instances.insert(place, loose.instances[place].clone()),
        _ => drop(loose.instances.remove(place)),
    }
}

fn spoil_arc(random: &mut Random, loose: &mut Loose) {
    if loose.arcs.is_empty() {
        return;
    }
    let place = random.below(loose.arcs.len());
    let (key, values) = &mut loose.arcs[place];
    match random.below(12) {
        0 => key.kind = random.pick(&[0, 1, 2, 3, 4, 10, 11, 13, 18, 19, 20, 21, 22, 255]),
        1 => key.edge1 = random.pick(&[0, 1, 8, 9, 255]),
        2 => key.edge2 = random.pick(&[0, 1, 8, 9, 255]),
        3 => key.end1 = any_name(random),
        4 => key.end2 = any_name(random),
        5 => loose.arcs.swap(place, 0),
        6 => loose.arcs.insert(place, loose.arcs[place].clone()),
        7 => drop(loose.arcs.remove(place)),
        _ => {
            let rows = kind_of_number(key.kind).map_or(6, |facts| facts.values);
            let slots = if random.once_in(3) { VALUES } else { 3 * rows };
            values[random.below(slots)] = any_value(random);
        }
    }
}

/// Values about the limits of what a sheet may hold.
fn any_value(random: &mut Random) -> i64 {
    const LIMIT: i64 = 1_000_000_000_000_000;
    match random.below(12) {
        0 => random.number() as i64,
        number => [0, -1, 1, LIMIT, -LIMIT, LIMIT + 1, -LIMIT - 1, i64::MAX, i64::MIN, i64::MIN + 1, 7][number - 1],
    }
}

fn any_name(random: &mut Random) -> Vec<u8> {
    const NAMES: [&[u8]; 26] = [
        b"",
        b"a",
        b"a.b",
        b"a.",
        b".a",
        b"a..b",
        b"a[3]",
        b"a[3:0]",
        b"a[3].b",
        b"a[3:0].b",
        b"a[]",
        b"a[1",
        b"[1]",
        b"a/b",
        b"a\\/b",
        b"a\\",
        b"a\\ b",
        b"a\x80",
        b"a b",
        b"a+b",
        b"a\\\x7F",
        b"a[1][2]",
        b"a[1]b",
        b"\\.",
        b"a:b",
        b"a[:]",
    ];
    match random.below(24) {
        0 => vec![b'p'; random.pick(&[1_024, 1_025, 2_048, 2_049, 2_050])],
        _ => random.pick(&NAMES).to_vec(),
    }
}

fn any_type(random: &mut Random) -> Vec<u8> {
    const TYPES: [&[u8]; 12] =
        [b"", b"T", b"a\"b", b"a\\\"b", b"a\\", b"a\\\\", b"\x80", b"\\\x80", b"a\nb", b"\x7F", b"a\\\nb", b"\t\r"];
    match random.below(20) {
        0 => vec![b't'; random.pick(&[1_024, 1_025])],
        _ => random.pick(&TYPES).to_vec(),
    }
}

fn damaged_bytes(random: &mut Random, mut bytes: Vec<u8>) -> Vec<u8> {
    let place = random.below(bytes.len());
    match random.below(5) {
        1 => bytes.push(random.number() as u8),
        2 if place < bytes.len() => bytes[place] ^= 1 << random.below(8),
        3 if place < bytes.len() => bytes[place] = random.number() as u8,
        4 if place < bytes.len() => drop(bytes.drain(place..place + 1)),
        _ => bytes.truncate(place),
    }
    bytes
}

/// A current sheet with some values that no sheet may hold: they are never judged.
pub fn odd_values(random: &mut Random, mut bytes: Vec<u8>) -> Vec<u8> {
    let Ok(sheet) = check_sheet(&bytes) else {
        return bytes;
    };
    for arc in sheet.arcs.values() {
        for _ in 0..random.below(4) {
            let place = arc.place + 8 * random.below(VALUES);
            let value = any_value(random).to_be_bytes();
            bytes[place..place + 8].copy_from_slice(&value);
        }
    }
    bytes
}

/// A current sheet that differs from the starting one in a record, or in its length.
pub fn other_records(random: &mut Random, mut bytes: Vec<u8>) -> Vec<u8> {
    if random.once_in(3) {
        return damaged_bytes(random, bytes);
    }
    let places: Vec<usize> = check_sheet(&bytes).map_or(Vec::new(), |sheet| {
        sheet.arcs.values().flat_map(|arc| [arc.place - 1, arc.place, arc.place + VALUE_BYTES]).collect()
    });
    let place = match random.once_in(2) || places.is_empty() {
        true => random.below(bytes.len()),
        false => random.pick(&places),
    };
    if let Some(byte) = bytes.get_mut(place) {
        *byte ^= 1 << random.below(8);
    }
    bytes
}
