//! Texts as lists of tokens, made from a world, and the tokens joined with white space and
//! comments.

use std::borrow::Cow;

use super::world::{edge, new_end, new_path, LocalArc, Name, Size, Type, World};
use crate::bytes::is_word_byte;
use crate::kinds::{edge_word, Facts, Kind};
use crate::random::Random;

pub type Token = Cow<'static, [u8]>;
pub type Tokens = Vec<Token>;

/// A TIMESCALE: its two texts, and the power of ten in femtoseconds.
pub struct Scale {
    number: &'static str,
    unit: &'static str,
    pub power: u32,
}

impl Scale {
    pub fn any(random: &mut Random) -> Scale {
        let (number, number_power) =
            random.pick(&[("1", 0), ("10", 1), ("100", 2), ("1.0", 0), ("10.0", 1), ("100.0", 2)]);
        let (unit, unit_power) = random.pick(&[("s", 15), ("ms", 12), ("us", 9), ("ns", 6), ("ps", 3), ("fs", 0)]);
        Scale { number, unit, power: number_power + unit_power }
    }
}

/// A file with one to four cells.
pub fn file_tokens(random: &mut Random, world: &World) -> Tokens {
    let mut tokens = words(&["(", "DELAYFILE"]);
    let (divider, power) = push_header(random, &mut tokens);
    for _ in 0..random.from_to(1, 4) {
        tokens.extend(cell_tokens(random, world, divider, power));
    }
    tokens.extend(words(&[")"]));
    tokens
}

/// The header: its tokens, and the divider and time scale it sets.
pub fn push_header(random: &mut Random, tokens: &mut Tokens) -> (u8, u32) {
    tokens.extend(words(&["(", "SDFVERSION", random.pick(&["\"4.0\"", "\"3.0\"", "\"\""]), ")"]));
    let rarity = if random.once_in(8) { 2 } else { 12 };
    for keyword in ["DESIGN", "DATE", "VENDOR", "PROGRAM", "VERSION"] {
        push_documentation(random, tokens, keyword, rarity);
    }
    let divider = push_divider(random, tokens);
    for keyword in ["VOLTAGE", "PROCESS", "TEMPERATURE"] {
        push_documentation(random, tokens, keyword, rarity);
    }
    (divider, push_timescale(random, tokens))
}

/// An entry that is for documentation only, once in so many times.
fn push_documentation(random: &mut Random, tokens: &mut Tokens, keyword: &'static str, rarity: usize) {
    if random.once_in(rarity) {
        tokens.extend(words(&["(", keyword]));
        match keyword {
            "VOLTAGE" | "TEMPERATURE" => tokens.extend(header_numbers(random)),
            _ => tokens.extend(words(&[header_string(random)])),
        }
        tokens.extend(words(&[")"]));
    }
}

fn push_divider(random: &mut Random, tokens: &mut Tokens) -> u8 {
    let (word, divider) = match random.below(9) {
        0 => (".", b'.'),
        1 | 2 => ("/", b'/'),
        _ => return b'.',
    };
    tokens.extend(words(&["(", "DIVIDER", word, ")"]));
    divider
}

fn push_timescale(random: &mut Random, tokens: &mut Tokens) -> u32 {
    if random.once_in(2) {
        return 6;
    }
    let scale = Scale::any(random);
    tokens.extend(words(&["(", "TIMESCALE"]));
    match random.once_in(2) {
        true => tokens.extend(words(&[scale.number, scale.unit])),
        false => tokens.push([scale.number, scale.unit].concat().into_bytes().into()),
    }
    tokens.extend(words(&[")"]));
    scale.power
}

fn header_string(random: &mut Random) -> &'static str {
    random.pick(&["\"\"", "\"x\"", "\"a\\\"b\"", "\"two\nlines\"", "\"// /* ( ) :\"", "\"\\\\\"", "\"\\\n\""])
}

fn header_numbers(random: &mut Random) -> Tokens {
    let forms: [&[&'static str]; 8] = [
        &["5"],
        &["-1.5e+99999"],
        &["+0"],
        &["1", ":", "2", ":", "3"],
        &[":", ":", "-5"],
        &["5.5", ":", ":"],
        &[":", "0e0", ":"],
        &["1", ":", ":", "1e-5"],
    ];
    words(random.pick(&forms))
}

/// One cell, for a divider and a time scale.
pub fn cell_tokens(random: &mut Random, world: &World, divider: u8, power: u32) -> Tokens {
    let (type_number, path) = addressed(random, world, divider);
    let chosen = &world.types[type_number];
    let stray_type = world.strays && random.once_in(25);
    let type_text = if stray_type { b"STRAY" } else { chosen.text.as_slice() };
    let mut tokens = head_tokens(type_text, path);
    let writer = Writer { world, chosen, divider, power };
    for _ in 0..random.below(3) {
        tokens.extend(writer.section(random));
    }
    tokens.extend(words(&[")"]));
    tokens
}

/// A cell as far as its sections.
pub fn head_tokens(type_text: &[u8], path: Tokens) -> Tokens {
    let mut tokens = words(&["(", "CELL", "(", "CELLTYPE"]);
    tokens.push([b"\"", type_text, b"\""].concat().into());
    tokens.extend(words(&[")", "(", "INSTANCE"]));
    tokens.extend(path);
    tokens.extend(words(&[")"]));
    tokens
}

/// What a cell is for: the number of its type, and the path's tokens.
fn addressed(random: &mut Random, world: &World, divider: u8) -> (usize, Tokens) {
    if world.strays && random.once_in(25) {
        return (random.below(world.types.len()), vec![name_word(&new_path(random), divider)]);
    }
    let instance = &world.instances[random.below(world.instances.len())];
    let path = match random.below(4) {
        0 => words(&["*"]),
        _ if instance.path.is_empty() => Tokens::new(),
        _ => vec![name_word(&instance.path, divider)],
    };
    (instance.type_number, path)
}

/// What the entries of one cell are made of.
pub struct Writer<'w> {
    pub world: &'w World,
    pub chosen: &'w Type,
    pub divider: u8,
    pub power: u32,
}

impl Writer<'_> {
    /// A DELAY or TIMINGCHECK section; none if the type has no arc for it.
    fn section(&self, random: &mut Random) -> Tokens {
        let check = random.once_in(3);
        let arcs: Vec<&LocalArc> = self.chosen.arcs.iter().filter(|arc| arc.facts.check == check).collect();
        if arcs.is_empty() {
            return Tokens::new();
        }
        let mut tokens = words(&["(", if check { "TIMINGCHECK" } else { "DELAY" }]);
        if check {
            tokens.extend(self.entries(random, &arcs));
        }
        for _ in 0..if check { 0 } else { random.from_to(1, 2) } {
            tokens.extend(words(&["(", random.pick(&["ABSOLUTE", "INCREMENT"])]));
            tokens.extend(self.entries(random, &arcs));
            tokens.extend(words(&[")"]));
        }
        tokens.extend(words(&[")"]));
        tokens
    }

    fn entries(&self, random: &mut Random, arcs: &[&LocalArc]) -> Tokens {
        (0..random.from_to(1, 3)).flat_map(|_| self.entry(random, arcs)).collect()
    }

    fn entry(&self, random: &mut Random, arcs: &[&LocalArc]) -> Tokens {
        let arc = random.pick(arcs);
        if arc.facts.kind == Kind::Iopath && random.once_in(3) {
            return self.device(random, arc);
        }
        let mut arc = arc.clone();
        if self.world.strays && random.once_in(30) {
            match random.below(2) {
                0 => arc.end1 = new_end(random),
                _ => arc.edge1 = edge(random, arc.facts.edges[0]),
            }
        }
        self.arc_entry(random, &arc)
    }

    /// The entry that addresses this arc.
    pub fn arc_entry(&self, random: &mut Random, arc: &LocalArc) -> Tokens {
        let mut tokens = words(&["(", arc.facts.keyword]);
        tokens.extend(self.end(arc.edge1, &arc.end1));
        if arc.facts.ends == 2 {
            tokens.extend(self.end(arc.edge2, &arc.end2));
        }
        tokens.extend(self.values(random, arc.facts));
        tokens.extend(words(&[")"]));
        tokens
    }

    /// A DEVICE entry that addresses at least this arc, with or without its port.
    fn device(&self, random: &mut Random, arc: &LocalArc) -> Tokens {
        let port = (arc.end2.len() != 1 || random.once_in(2)).then_some(&arc.end2);
        self.device_entry(random, port)
    }

    pub fn device_entry(&self, random: &mut Random, port: Option<&Name>) -> Tokens {
        let mut tokens = words(&["(", "DEVICE"]);
        tokens.extend(port.map(|port| name_word(port, self.divider)));
        tokens.extend(self.values(random, Kind::Device.facts()));
        tokens.extend(words(&[")"]));
        tokens
    }

    fn end(&self, edge: u8, name: &Name) -> Tokens {
        let name = name_word(name, self.divider);
        match edge {
            0 => vec![name],
            _ => [words(&["(", edge_word(edge)]), vec![name], words(&[")"])].concat(),
        }
    }

    fn values(&self, random: &mut Random, facts: &Facts) -> Tokens {
        let count = match (facts.check, random.below(4)) {
            (true, _) => facts.values,
            (false, 0 | 1) => random.from_to(1, 2),
            (false, _) => random.from_to(1, 6),
        };
        // A very large cell touches an exact number of arcs, so each of its entries supplies something.
        let sure = |number: usize| number == 0 && self.world.size == Size::VeryLarge;
        (0..count).flat_map(|number| self.value(random, facts.signed, sure(number))).collect()
    }

    fn value(&self, random: &mut Random, signed: bool, sure: bool) -> Tokens {
        let mut tokens = words(&["("]);
        match if sure { 5 } else { random.below(6) } {
            0 => {}
            1 | 2 => {
                let present = random.from_to(1, 7);
                for set in 0..3 {
                    if present >> set & 1 == 1 {
                        tokens.push(self.number(random, signed).into());
                    }
                    if set < 2 {
                        tokens.extend(words(&[":"]));
                    }
                }
            }
            _ => tokens.push(self.number(random, signed).into()),
        }
        tokens.extend(words(&[")"]));
        tokens
    }

    fn number(&self, random: &mut Random, signed: bool) -> Vec<u8> {
        // Of thousands of numbers one would nearly always be such, and the text be refused for it.
        let small = self.world.size == Size::Small;
        if small && random.once_in(300) {
            const NEAR_TIMES: [&str; 8] = [
                "1e99999999999999999999",
                "1e-99999999999999999999",
                "0e99999999999999999999",
                "0.000e-99999999999999999999",
                "1000000000.000001",
                "0.0000001",
                "1e15",
                "999999999999999999999999999999999999",
            ];
            return random.pick(&NEAR_TIMES).as_bytes().to_vec();
        }
        let size = any_time(random, self.world.calm);
        let text = time_text(random, size, self.power, small);
        let sign = match signed {
            true => random.pick(&["", "", "-", "+", "-"]),
            false => "",
        };
        [sign.as_bytes(), &text].concat()
    }
}

/// A time without its sign, in femtoseconds.
pub fn any_time(random: &mut Random, calm: bool) -> u64 {
    const LIMIT: u64 = 1_000_000_000_000_000;
    match random.below(if calm { 8 } else { 12 }) {
        0 => 0,
        1..=4 => random.below(20) as u64,
        5..=7 => 10u64.pow(random.below(7) as u32) * random.below(100) as u64,
        8 => LIMIT,
        9 => LIMIT - random.below(20) as u64,
        _ => random.number() % (LIMIT + 1),
    }
}

/// A text for a time, exact: the digits, moved by a point and an exponent so that they stand for
/// the time in units of ten to the `power` femtoseconds. It may be too long only where `may_be_long`.
fn time_text(random: &mut Random, time: u64, power: u32, may_be_long: bool) -> Vec<u8> {
    let mut digits = time.to_string();
    let mut behind_point = match random.below(4) {
        0 => random.below(digits.len() + 3),
        _ => power as usize,
    };
    let mut exponent = behind_point as i64 - i64::from(power);
    if random.once_in(6) {
        let zeros = if may_be_long && random.once_in(60) { random.from_to(990, 1_030) } else { random.from_to(1, 3) };
        digits.push_str(&"0".repeat(zeros));
        exponent -= zeros as i64;
    }
    if exponent < 0 && random.once_in(2) && digits.ends_with('0') && time != 0 {
        digits.pop();
        exponent += 1;
    }
    // Zeros in front, so that at least one digit stands before the point.
    while digits.len() <= behind_point {
        digits.insert(0, '0');
    }
    if random.once_in(8) {
        digits.insert(0, '0');
    }
    let mut text = digits[..digits.len() - behind_point].to_string();
    let mut fraction = &digits[digits.len() - behind_point..];
    if random.once_in(2) {
        fraction = fraction.trim_end_matches('0');
        behind_point = fraction.len();
    }
    if behind_point > 0 {
        text = text + "." + fraction;
    }
    if exponent != 0 || random.once_in(12) {
        let sign = if exponent < 0 { "-" } else { random.pick(&["", "+"]) };
        text = format!("{text}e{sign}{}{}", random.pick(&["", "", "0", "000"]), exponent.abs());
    }
    text.into_bytes()
}

/// A name as written with this divider.
pub fn name_word(name: &Name, divider: u8) -> Token {
    name.join(&divider).into()
}

/// A name as it stands in a sheet.
pub fn name_with_dots(name: &Name) -> Vec<u8> {
    name.join(&b'.')
}

pub fn words(words: &[&'static str]) -> Tokens {
    words.iter().map(|word| word.as_bytes().into()).collect()
}

/// The text of the tokens. Two words need something between them; elsewhere nothing is needed.
pub fn joined(random: &mut Random, tokens: Tokens) -> Vec<u8> {
    let looseness = random.below(3);
    let mut text = gap(random, looseness, false).as_bytes().to_vec();
    let mut last_was_word = false;
    for token in tokens {
        let is_word = token.first().is_some_and(|&byte| is_word_byte(byte) || byte == b'\\');
        if last_was_word && text.last() == Some(&b'/') {
            // A comment right behind it would start one byte too early.
            text.push(b' ');
        }
        text.extend(gap(random, looseness, last_was_word && is_word).bytes());
        text.extend(token.as_ref());
        last_was_word = is_word;
    }
    text.extend(gap(random, looseness, false).bytes());
    text
}

fn gap(random: &mut Random, looseness: usize, needed: bool) -> &'static str {
    const COMMENTS: [&str; 10] = [
        "/**/",
        "/* ( \" */",
        "// x )\n",
        "/*/*/",
        "//\n",
        "/***/",
        "/* // */",
        "// /* \" \\\n",
        " \t\r\n ",
        "/* \\*/",
    ];
    match (looseness, random.below(16)) {
        (0, _) if !needed => "",
        (1, 0) if !needed => "",
        (2, 0..=9) if !needed => "",
        (2, 10 | 11) => random.pick(&COMMENTS),
        (2, 12) => "\n",
        (_, 13) => "\t",
        _ => " ",
    }
}
