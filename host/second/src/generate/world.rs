//! A small design: types with their arcs, and instances of these types. Names come from a small
//! stock, so that they meet often.

use crate::kinds::{Facts, Kind, KINDS};
use crate::random::Random;

/// The components of a name; none for the top level.
pub type Name = Vec<Vec<u8>>;

/// An arc of a type, its ends as written within an instance.
#[derive(Clone)]
pub struct LocalArc {
    pub facts: &'static Facts,
    pub edge1: u8,
    pub end1: Name,
    pub edge2: u8,
    pub end2: Name,
}

pub struct Type {
    pub text: Vec<u8>,
    pub arcs: Vec<LocalArc>,
}

pub struct Instance {
    pub path: Name,
    /// The number of its type.
    pub type_number: usize,
}

/// How many entries the cells of a world's texts have: a few, hundreds, or more than 4,096.
#[derive(Clone, Copy, PartialEq, Eq)]
pub enum Size {
    Small,
    Large,
    VeryLarge,
}

pub struct World {
    pub types: Vec<Type>,
    pub instances: Vec<Instance>,
    /// Whether times are mostly small and values mostly filled.
    pub calm: bool,
    /// Whether names of instances, types and arcs now and then fit nothing.
    pub strays: bool,
    pub size: Size,
}

impl World {
    pub fn new(random: &mut Random) -> World {
        let types: Vec<Type> = (0..random.from_to(1, 3)).map(|_| new_type(random)).collect();
        let mut instances: Vec<Instance> = Vec::new();
        for _ in 0..random.from_to(1, 4) {
            let path = if random.once_in(4) { Name::new() } else { new_path(random) };
            if instances.iter().all(|other| other.path != path) {
                instances.push(Instance { path, type_number: random.below(types.len()) });
            }
        }
        let (calm, strays) = (!random.once_in(4), random.once_in(3));
        let mut world = World { types, instances, calm, strays, size: Size::Small };
        if random.once_in(150) {
            world.lengthen(random);
        }
        world
    }

    /// Gives one instance and one arc of its type names at the limit, so that full names are, too.
    fn lengthen(&mut self, random: &mut Random) {
        let number = random.below(self.instances.len());
        let instance = &mut self.instances[number];
        let arcs = &mut self.types[instance.type_number].arcs;
        let number = random.below(arcs.len());
        instance.path = long_name(random);
        arcs[number].end1 = long_name(random);
    }
}

fn new_type(random: &mut Random) -> Type {
    const TEXTS: [&[u8]; 10] =
        [b"T", b"U", b"DFF", b"", b"A B", b"x\\\"y", b"\\T", b"two\nlines", b"(*) // /* */ :", b"\\\\"];
    let text = match random.below(200) {
        0 => vec![b't'; 1_024],
        number if number < 150 => TEXTS[random.below(3)].to_vec(),
        _ => random.pick(&TEXTS).to_vec(),
    };
    Type { text, arcs: (0..random.from_to(1, 5)).map(|_| new_arc(random)).collect() }
}

/// An arc of any kind that a sheet holds; IOPATH most often, for the sake of DEVICE.
pub fn new_arc(random: &mut Random) -> LocalArc {
    let facts = match random.below(3) {
        0 => Kind::Iopath.facts(),
        _ => KINDS.iter().filter(|facts| facts.kind != Kind::Device).nth(random.below(14)).unwrap_or(&KINDS[0]),
    };
    new_arc_of(random, facts)
}

pub fn new_arc_of(random: &mut Random, facts: &'static Facts) -> LocalArc {
    let end2 = if facts.ends == 2 { new_end(random) } else { Name::new() };
    LocalArc {
        facts,
        edge1: edge(random, facts.edges[0]),
        end1: new_end(random),
        edge2: edge(random, facts.edges[1]),
        end2,
    }
}

pub fn edge(random: &mut Random, allowed: bool) -> u8 {
    match allowed && random.once_in(2) {
        true => random.from_to(1, 8) as u8,
        false => 0,
    }
}

pub fn new_path(random: &mut Random) -> Name {
    if random.once_in(600) {
        return long_name(random);
    }
    let mut count = 1;
    while count < 4 && random.once_in(3) {
        count += 1;
    }
    (0..count).map(|_| new_component(random)).collect()
}

/// An end's name: as a path, but its last component may have a range.
pub fn new_end(random: &mut Random) -> Name {
    let mut name = match random.once_in(5) {
        true => new_path(random),
        false => vec![new_component(random)],
    };
    if let Some(last) = name.last_mut().filter(|last| last.last() != Some(&b']') && last.len() < 1_000) {
        if random.once_in(12) {
            last.extend(random.pick(&[b"[3:0]".as_slice(), b"[0:15]", b"[7:7]"]).iter());
        }
    }
    name
}

fn new_component(random: &mut Random) -> Vec<u8> {
    const PLAIN: [&str; 10] = ["a", "b", "c", "d", "q", "clk", "x1", "_n", "$", "A"];
    const STRANGE: &[&str] = &[
        "01", "posedge", "COND", "CELL", "1", "5e3", "10", r"\.", r"\/", r"a\.b", r"\a", r#"\""#, r"\(", r"a\[3\]",
        r"\\", r"\*", r"\/\*", r"u\:v", r"\/\/", "INSTANCE", r"a\/", r"\~",
    ];
    let often = random.once_in(2);
    let mut component = match random.once_in(5) {
        true => random.pick(STRANGE).as_bytes().to_vec(),
        false => random.pick(if often { &PLAIN[..4] } else { &PLAIN }).as_bytes().to_vec(),
    };
    if random.once_in(10) {
        component.extend(random.pick(&["[0]", "[3]", "[03]", "[12]"]).as_bytes());
    }
    component
}

/// A name of about 1,024 bytes: at the limit or just beyond.
fn long_name(random: &mut Random) -> Name {
    let length = random.pick(&[1_000, 1_022, 1_023, 1_024, 1_024, 1_024, 1_025]);
    match random.below(3) {
        0 => vec![vec![b'n'; length]],
        1 => vec![b"a".to_vec(), vec![b'm'; length - 2]],
        _ => vec![r"\#".repeat(length / 2).into_bytes()],
    }
}
