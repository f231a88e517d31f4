//! Damage to texts: to the list of tokens, and to the bytes.

use super::texts::{Token, Tokens};
use crate::random::Random;

/// Tokens of which most fit nowhere, or only in few places.
const INTRUDERS: &[&str] = &[
    "(",
    ")",
    ":",
    "*",
    "\"\"",
    "\"x\"",
    "\"\\\"\"",
    ",",
    ";",
    "{",
    "=",
    "!",
    "~",
    "DELAYFILE",
    "SDFVERSION",
    "DESIGN",
    "DATE",
    "VENDOR",
    "PROGRAM",
    "VERSION",
    "DIVIDER",
    "VOLTAGE",
    "PROCESS",
    "TEMPERATURE",
    "TIMESCALE",
    "CELL",
    "CELLTYPE",
    "INSTANCE",
    "DELAY",
    "TIMINGCHECK",
    "ABSOLUTE",
    "INCREMENT",
    "IOPATH",
    "INTERCONNECT",
    "PORT",
    "DEVICE",
    "SETUP",
    "HOLD",
    "SETUPHOLD",
    "WIDTH",
    "NOCHANGE",
    "BIDIRECTSKEW",
    "COND",
    "RETAIN",
    "LABEL",
    "cond",
    "cell",
    "posedge",
    "negedge",
    "01",
    "z1",
    "0x",
    "Posedge",
    "a.",
    ".a",
    "a..b",
    "a[",
    "a[]",
    "a[1:2].b",
    "a[1][2]",
    "a+b",
    "a/b",
    "a.b",
    "[3]",
    "a[3",
    "a]",
    "a[1:]",
    "a[1]b",
    ".5",
    "1.",
    "1e",
    "1E3",
    "+1",
    "-1",
    "1e+",
    "--1",
    "1.5.2",
    "1e5.0",
    "-0",
    "1000000000000000000",
    "0.00000000000000000000001",
    "1e-999999999999999999999",
    "100ps",
    "1",
    "ns",
    "1.0",
    "0ps",
];

/// "Not carried yet": these words are told apart right after a bracket.
const NOT_CARRIED: [&str; 10] =
    ["COND", "CONDELSE", "SCOND", "CCOND", "RETAIN", "PATHPULSE", "PATHPULSEPERCENT", "NETDELAY", "TIMINGENV", "LABEL"];

/// One to three tokens dropped, doubled, swapped or replaced, or the rest cut off.
pub fn damaged_tokens(random: &mut Random, mut tokens: Tokens) -> Tokens {
    for _ in 0..random.a_few() {
        let place = random.below(tokens.len());
        let Some(token) = tokens.get(place).cloned() else {
            break;
        };
        match random.below(9) {
            0 => drop(tokens.remove(place)),
            1 => tokens.insert(place, token),
            2 if place + 1 < tokens.len() => tokens.swap(place, place + 1),
            3 => tokens.truncate(place),
            4 => tokens.insert(place, intruder(random)),
            5 => put_behind_bracket(&mut tokens[place..], random.pick(&NOT_CARRIED)),
            _ => tokens[place] = intruder(random),
        }
    }
    tokens
}

/// Replaces the token behind the next opening bracket.
fn put_behind_bracket(tokens: &mut [Token], word: &'static str) {
    let bracket = tokens.iter().position(|token| token.as_ref() == b"(");
    if let Some(behind) = bracket.and_then(|place| tokens.get_mut(place + 1)) {
        *behind = word.as_bytes().into();
    }
}

fn intruder(random: &mut Random) -> Token {
    let long = random.from_to(1_020, 1_030);
    match random.below(40) {
        0 => vec![random.pick(b"a19"); long].into(),
        1 => format!("\"{}\"", "s".repeat(long)).into_bytes().into(),
        2 => format!("0.{}", "0".repeat(long)).into_bytes().into(),
        _ => random.pick(INTRUDERS).as_bytes().into(),
    }
}

/// One to three bytes or runs of bytes changed, dropped, doubled or put in, or the rest cut off.
pub fn damaged_text(random: &mut Random, mut text: Vec<u8>) -> Vec<u8> {
    const INSERTS: [&[u8]; 20] = [
        b"\x80", b"\0", b"\x7F", b"\x1B", b"/*", b"//", b"*/", b"\"", b"\\", b"\\ ", b"\\\n", b"\\\x80", b"(", b")",
        b":", b"*", b"[", b"]", b"/", b"\xFF",
    ];
    for _ in 0..random.a_few() {
        let place = random.below(text.len());
        if text.is_empty() {
            break;
        }
        match random.below(6) {
            0 => text.truncate(place),
            1 => text[place] ^= 1 << random.below(8),
            2 => text[place] = random.number() as u8,
            3 => {
                let end = (place + random.from_to(1, 12)).min(text.len());
                text.drain(place..end);
            }
            _ => drop(text.splice(place..place, random.pick(&INSERTS).iter().copied())),
        }
    }
    text
}
