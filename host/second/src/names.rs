//! Names: their shape, their components, and the form in which they are compared (document 01,
//! "Bytes and words").

use crate::bytes::{is_escapable, is_name_byte};

/// What a name stands for, which decides on `[n:n]`: "for a port's last one".
#[derive(Clone, Copy, Debug, PartialEq, Eq)]
pub enum Use {
    /// An instance path: `[n]` only.
    Instance,
    /// An end of an entry or arc: its last component may have `[n:n]`.
    End,
}

/// "A name is components joined by the divider".
pub fn is_name(word: &[u8], divider: u8, use_: Use) -> bool {
    let components = components(word, divider);
    let last = components.len() - 1;
    let range = |number| number == last && use_ == Use::End;
    components.iter().enumerate().all(|(number, component)| is_component(component, range(number)))
}

/// "Names are compared as written, after the divider is turned into `.`." An escaped divider is
/// no divider.
pub fn with_dots(word: &[u8], divider: u8) -> Vec<u8> {
    components(word, divider).join(&b'.')
}

/// "An end's full name is the instance path, `.` and the written name; at the top level the
/// written name alone." Both come with dots.
pub fn full_name(path: &[u8], name: &[u8]) -> Vec<u8> {
    if path.is_empty() {
        return name.to_vec();
    }
    [path, b".", name].concat()
}

/// All but the last component of a name with dots: the path of the instance of which it is "the
/// instance path plus one component".
pub fn all_but_last(name: &[u8]) -> Vec<u8> {
    let mut components = components(name, b'.');
    components.pop();
    components.join(&b'.')
}

/// The parts between the dividers outside escapes: always at least one, perhaps an empty one.
fn components(word: &[u8], divider: u8) -> Vec<&[u8]> {
    let mut found = Vec::new();
    let (mut start, mut place) = (0, 0);
    while let Some(&byte) = word.get(place) {
        if byte == divider {
            found.push(&word[start..place]);
            start = place + 1;
        }
        place += if byte == b'\\' { 2 } else { 1 };
    }
    found.push(&word[start..]);
    found
}

/// "a component is one or more letters, digits, `_`, `$` or escaped pairs, then optionally `[n]`
/// or, for a port's last one, `[n:n]` (n digits)"
fn is_component(component: &[u8], range: bool) -> bool {
    let stem = stem_length(component);
    stem > 0 && is_index(&component[stem..], range)
}

/// How far the letters, digits, `_`, `$` and escaped pairs go.
fn stem_length(component: &[u8]) -> usize {
    let mut length = 0;
    loop {
        match &component[length..] {
            [b'\\', next, ..] if is_escapable(*next) => length += 2,
            [byte, ..] if is_name_byte(*byte) => length += 1,
            _ => return length,
        }
    }
}

/// Nothing, `[n]` or, where a range may stand, `[n:n]`.
fn is_index(part: &[u8], range: bool) -> bool {
    let [b'[', inside @ .., b']'] = part else {
        return part.is_empty();
    };
    let numbers: Vec<&[u8]> = inside.split(|&byte| byte == b':').collect();
    let digits = |number: &&[u8]| !number.is_empty() && number.iter().all(u8::is_ascii_digit);
    numbers.len() <= if range { 2 } else { 1 } && numbers.iter().all(digits)
}
