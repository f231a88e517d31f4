//! The arguments of one command: what it takes, and what it was given.

use std::ffi::{OsStr, OsString};
use std::os::unix::ffi::OsStrExt;
use std::path::Path;

/// What a command takes.
pub struct Shape {
    /// What its places are called, in order.
    pub places: &'static [&'static str],
    /// Options that take a value, by name.
    pub valued: &'static [&'static str],
    /// Options that take none.
    pub flags: &'static [&'static str],
}

/// What it was given, or that it was asked for help.
#[derive(Debug, PartialEq, Eq)]
pub enum Parsed {
    Help,
    Given(Given),
}

#[derive(Debug, Default, PartialEq, Eq)]
pub struct Given {
    places: Vec<OsString>,
    options: Vec<(&'static str, OsString)>,
}

/// Takes the arguments apart. Options may stand anywhere before `--`; each at most once.
pub fn parse(shape: &Shape, arguments: Vec<OsString>) -> Result<Parsed, String> {
    let mut given = Given::default();
    let mut rest = arguments.into_iter();
    let mut only_places = false;
    while let Some(argument) = rest.next() {
        if only_places || !argument.as_bytes().starts_with(b"-") || argument == "-" {
            given.places.push(argument);
        } else if argument == "--" {
            only_places = true;
        } else if argument == "--help" || argument == "-h" {
            return Ok(Parsed::Help);
        } else {
            let name = option_name(shape, &argument)?;
            let value = match shape.valued.contains(&name) {
                true => rest.next().ok_or(format!("{name} needs a value"))?,
                false => OsString::new(),
            };
            given.put(name, value)?;
        }
    }
    check_places(shape, &given.places)?;
    Ok(Parsed::Given(given))
}

fn option_name(shape: &Shape, argument: &OsStr) -> Result<&'static str, String> {
    let known = shape.valued.iter().chain(shape.flags).find(|known| OsStr::new(known) == argument);
    known.copied().ok_or(format!("unknown option {}", shown(argument)))
}

fn check_places(shape: &Shape, places: &[OsString]) -> Result<(), String> {
    if let Some(missing) = shape.places.get(places.len()) {
        return Err(format!("{missing} is missing"));
    }
    match places.get(shape.places.len()) {
        Some(extra) => Err(format!("{} is one argument too many", shown(extra))),
        None => Ok(()),
    }
}

impl Given {
    fn put(&mut self, name: &'static str, value: OsString) -> Result<(), String> {
        if self.option(name).is_some() {
            return Err(format!("{name} is given twice"));
        }
        self.options.push((name, value));
        Ok(())
    }

    fn option(&self, name: &str) -> Option<&OsStr> {
        self.options.iter().find(|option| option.0 == name).map(|option| option.1.as_os_str())
    }

    /// The argument at a place that the shape has.
    pub fn place(&self, number: usize) -> &Path {
        Path::new(&self.places[number])
    }

    pub fn flag(&self, name: &str) -> bool {
        self.option(name).is_some()
    }

    pub fn path(&self, name: &str) -> Option<&Path> {
        self.option(name).map(Path::new)
    }

    /// An option's number, if it was given.
    pub fn number(&self, name: &str) -> Result<Option<u64>, String> {
        self.option(name).map(|text| number(text).ok_or(bad_number(name, text))).transpose()
    }
}

pub fn bad_number(name: &str, text: &OsStr) -> String {
    format!("{name} takes a whole number in digits, not {}", shown(text))
}

/// Digits alone. A number beyond 64 bits is as good as the largest: no text has so many cells.
pub fn number(text: &OsStr) -> Option<u64> {
    let digits = text.as_bytes();
    if digits.is_empty() || !digits.iter().all(u8::is_ascii_digit) {
        return None;
    }
    let add = |sum: u64, digit: &u8| sum.saturating_mul(10).saturating_add(u64::from(digit - b'0'));
    Some(digits.iter().fold(0, add))
}

/// An argument as it may be shown on a terminal.
pub fn shown(argument: impl AsRef<OsStr>) -> String {
    argument.as_ref().to_string_lossy().chars().map(|c| if c.is_control() { '?' } else { c }).collect()
}

#[cfg(test)]
mod tests {
    use super::*;

    const SHAPE: Shape = Shape { places: &["A", "B"], valued: &["-o"], flags: &["--force"] };

    fn parsed(words: &str) -> Result<Parsed, String> {
        parse(&SHAPE, words.split(' ').map(OsString::from).collect())
    }

    fn given(words: &str) -> Given {
        match parsed(words) {
            Ok(Parsed::Given(given)) => given,
            other => panic!("{words}: {other:?}"),
        }
    }

    #[test]
    fn options_anywhere() {
        for words in ["a b -o out --force", "-o out a --force b", "--force a -o out -- b"] {
            let given = given(words);
            assert_eq!((given.place(0), given.place(1)), (Path::new("a"), Path::new("b")));
            assert_eq!(given.path("-o"), Some(Path::new("out")));
            assert!(given.flag("--force"));
        }
        assert_eq!(given("- -- --force").place(1), Path::new("--force"));
        assert_eq!(parsed("a --help"), Ok(Parsed::Help));
    }

    #[test]
    fn what_cannot_be() {
        for (words, message) in [
            ("a", "B is missing"),
            ("a b c", "c is one argument too many"),
            ("a b -o", "-o needs a value"),
            ("a b --force --force", "--force is given twice"),
            ("a b -o x -o x", "-o is given twice"),
            ("a b --cells 1", "unknown option --cells"),
        ] {
            assert_eq!(parsed(words), Err(message.to_string()));
        }
    }

    #[test]
    fn numbers() {
        let number = |text: &str| number(OsStr::new(text));
        assert_eq!(number("18446744073709551615"), Some(u64::MAX));
        assert_eq!(number("18446744073709551616"), Some(u64::MAX));
        assert_eq!(number("007"), Some(7));
        for bad in ["", "-1", "+1", "1e3", "0x1", " 1", "1 "] {
            assert_eq!(number(bad), None, "{bad}");
        }
    }
}
