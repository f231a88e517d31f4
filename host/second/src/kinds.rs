//! The kinds of entry and the edges, each as one table (document 01, "The part of SDF we carry"
//! and "The timing sheet").

#[derive(Clone, Copy, Debug, PartialEq, Eq, PartialOrd, Ord)]
pub enum Kind {
    Iopath,
    Interconnect,
    Port,
    Device,
    Setup,
    Hold,
    Setuphold,
    Recovery,
    Removal,
    Recrem,
    Skew,
    Bidirectskew,
    Width,
    Period,
    Nochange,
}

/// What document 01 says about one kind.
#[derive(Clone, Copy, Debug)]
pub struct Facts {
    pub kind: Kind,
    pub keyword: &'static str,
    /// The kind's number in a sheet; 0 for DEVICE, which has no records of its own.
    pub number: u8,
    /// Whether it stands in a TIMINGCHECK section; else in a DELAY section.
    pub check: bool,
    /// How many ends an entry or record of this kind has.
    pub ends: usize,
    /// Which of the two ends may carry an edge.
    pub edges: [bool; 2],
    /// How many values a check has; how many a delay may have at most.
    pub values: usize,
    /// Whether the values may be below zero.
    pub signed: bool,
}

/// A delay: "Each has a list of 1 to 6 signed values."
const fn delay(kind: Kind, keyword: &'static str, number: u8, ends: usize, edge: bool) -> Facts {
    Facts { kind, keyword, number, check: false, ends, edges: [edge, false], values: 6, signed: true }
}

/// A check: "Any end here may carry an edge."
const fn check(kind: Kind, keyword: &'static str, number: u8, ends: usize, values: usize, signed: bool) -> Facts {
    Facts { kind, keyword, number, check: true, ends, edges: [true, ends == 2], values, signed }
}

/// In the order of [`Kind`].
pub static KINDS: [Facts; 15] = [
    delay(Kind::Iopath, "IOPATH", 1, 2, true),
    delay(Kind::Interconnect, "INTERCONNECT", 2, 2, false),
    delay(Kind::Port, "PORT", 3, 1, false),
    delay(Kind::Device, "DEVICE", 0, 1, false),
    check(Kind::Setup, "SETUP", 11, 2, 1, false),
    check(Kind::Hold, "HOLD", 12, 2, 1, false),
    check(Kind::Setuphold, "SETUPHOLD", 13, 2, 2, true),
    check(Kind::Recovery, "RECOVERY", 14, 2, 1, false),
    check(Kind::Removal, "REMOVAL", 15, 2, 1, false),
    check(Kind::Recrem, "RECREM", 16, 2, 2, true),
    check(Kind::Skew, "SKEW", 17, 2, 1, true),
    check(Kind::Bidirectskew, "BIDIRECTSKEW", 18, 2, 2, false),
    check(Kind::Width, "WIDTH", 19, 1, 1, false),
    check(Kind::Period, "PERIOD", 20, 1, 1, false),
    check(Kind::Nochange, "NOCHANGE", 21, 2, 2, true),
];

impl Kind {
    pub fn facts(self) -> &'static Facts {
        &KINDS[self as usize]
    }
}

/// The kind that a sheet's number stands for.
pub fn kind_of_number(number: u8) -> Option<&'static Facts> {
    KINDS.iter().find(|facts| facts.number == number && number != 0)
}

/// "Edges, as `(posedge clk)`: posedge, negedge, 01, 10, 0z, z1, 1z, z0." and "Edges: 0 none,
/// then 1 to 8 as listed above."
pub const EDGES: [(&str, u8); 8] =
    [("posedge", 1), ("negedge", 2), ("01", 3), ("10", 4), ("0z", 5), ("z1", 6), ("1z", 7), ("z0", 8)];

/// The word of an edge; `-` for none.
pub fn edge_word(edge: u8) -> &'static str {
    EDGES.iter().find(|known| known.1 == edge).map_or("-", |known| known.0)
}
