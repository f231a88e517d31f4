//! A refusal: its number in document 01's table, its place, and which text the place is in.

/// "A place also says which text (10, 11, 17, 18: the file)."
#[derive(Clone, Copy, Debug, PartialEq, Eq, PartialOrd, Ord)]
pub struct Refusal {
    pub number: u8,
    pub place: usize,
    /// Whether the place is in the incoming text of a patch; else it is in the file.
    pub incoming: bool,
}

impl Refusal {
    pub fn in_file(number: u8, place: usize) -> Refusal {
        Refusal { number, place, incoming: false }
    }
}
