//! Document 01's sentences at their edges, beyond the settled examples.

mod notation;
use notation::*;
use second::names::{is_name, Use};
use second::numbers::decimal;
use second::patch::patch_and_read;
use second::{check_sheet, encode, read_cell, Refusal, Rooms};

const LIMIT: i64 = 1_000_000_000_000_000;

#[test]
fn shapes_of_numbers() {
    for good in ["0", "00", "1.5", "007.500", "1e5", "1e+5", "1e-05", "1.0e0", "0.0e-00"] {
        assert!(decimal(good.as_bytes(), false).is_some(), "{good}");
        assert!(decimal(format!("-{good}").as_bytes(), true).is_some(), "-{good}");
        assert!(decimal(format!("+{good}").as_bytes(), true).is_some(), "+{good}");
        assert!(decimal(format!("+{good}").as_bytes(), false).is_none(), "unsigned +{good}");
    }
    for bad in
        ["", ".", "e", "1.", ".1", "1e", "e1", "1e+", "1e1.0", "1.e1", "1..2", "1.2.3", "1e1e1", "--1", "1-", "1E1"]
    {
        assert!(decimal(bad.as_bytes(), true).is_none(), "{bad}");
    }
}

#[test]
fn shapes_of_names() {
    let shape = |word: &str| [Use::Instance, Use::End].map(|use_| is_name(word.as_bytes(), b'.', use_));
    for good in ["a", "_", "$", "0", "a.b", "a[0]", "a[00].b[1]", r"\.", r"\..\.", r"a\[", r"\\", r"a\/b.c", r"\[[1]"] {
        assert_eq!(shape(good), [true, true], "{good}");
    }
    for range in ["a[1:0]", "a[0].b[00:11]", r"\:[1:0]"] {
        assert_eq!(shape(range), [false, true], "{range}");
    }
    for bad in [
        "", ".", "a.", ".a", "a..b", "a/b", "a[", "a]", "a[]", "[1]", "a.[1]", "a[1]b", "a[1][1]", "a[1:]", "a[:1]",
        "a[:]", "a[1:2:3]", "a[1:0].b", "a[x]", "a[-1]", "a+b", "a-", r"a\", "a\\ ", "a b", "a\u{7f}", "a[1:0",
        "a[[1]]",
    ] {
        assert_eq!(shape(bad), [false, false], "{bad}");
    }
    assert!(is_name(br"a/b\.c\/", b'/', Use::Instance) && !is_name(b"a.b", b'/', Use::Instance));
}

/// What stands behind `(PORT p` and the refusal's place counted from there; none: accepted.
#[test]
fn shapes_of_values() {
    let cases: [(&str, Option<usize>); 18] = [
        ("()", None),
        ("(1)", None),
        ("(1::)", None),
        ("(:1:)", None),
        ("(::1)", None),
        ("( - )", Some(2)),
        ("(::)", Some(3)),
        ("(:)", Some(2)),
        ("(:1)", Some(3)),
        ("(1:)", Some(3)),
        ("(1:2)", Some(4)),
        ("(1:2:3:4)", Some(6)),
        ("(1 2)", Some(3)),
        ("(1:2 3)", Some(5)),
        ("(())", Some(1)),
        ("(*)", Some(1)),
        ("1", Some(0)),
        (")", Some(0)),
    ];
    for (values, wrong) in cases {
        let text = F(&[C("T", "", &[A(&[&format!("(PORT p {values})")])])]);
        let expected = wrong.map_or("cells 1 ".into(), |place| format!("refused 4 at {}: ", 79 + place));
        assert!(L(&text).starts_with(&expected), "{values}: {}", L(&text));
    }
}

#[test]
fn sections_groups_and_cells_hold_something() {
    let cell = |sections: &str| L(&F(&[C("T", "", &[sections.into()])]));
    assert_eq!(cell("(DELAY)"), "refused 4 at 62: )))");
    assert_eq!(cell("(TIMINGCHECK)"), "refused 4 at 68: )))");
    assert_eq!(cell("(DELAY(ABSOLUTE))"), "refused 4 at 71: ))))");
    assert_eq!(cell("(DELAY(SETUP a b()))"), "refused 4 at 63: SETUP a b(");
    assert_eq!(cell("(TIMINGCHECK(PORT a()))"), "refused 4 at 69: PORT a()))");
    assert_eq!(cell("(ABSOLUTE(PORT a()))"), "refused 4 at 57: ABSOLUTE(P");
    assert_eq!(L(&F(&[])), "refused 4 at 27: )");
    assert_eq!(L("(DELAYFILE(CELL"), "refused 4 at 11: CELL");
}

/// Well-formed sheets with one thing wrong.
#[test]
fn spoiled_sheets() {
    let two = [P("a", Some(1)), P("b", Some(2))];
    let fine = S(&[("", "T"), ("a", "U")], &two);
    assert_eq!(Q(&fine), "fine");
    let spoil = |place: usize, byte: u8| {
        let mut bytes = fine.clone();
        bytes[place] = byte;
        Q(&bytes)
    };
    // mark, format, counts, the first instance's mark, its path's length
    for place in [0, 1, 2, 3, 4, 7, 8, 11, 12, 13, 15] {
        assert_eq!(spoil(place, 9), "refused 10 at 0", "{place}");
    }
    for length in 0..fine.len() {
        assert_eq!(Q(&fine[..length]), "refused 10 at 0");
    }
    let first = fine.len() - 2 * (9 + 1 + 144);
    assert_eq!(&fine[first..first + 4], b"AR\x03\0");
    assert_eq!(spoil(first + 2, 4), "refused 10 at 0");
    assert_eq!(spoil(first + 3, 1), "refused 10 at 0");
    assert_eq!(spoil(first + 6, b'b'), "refused 10 at 0", "twice the same arc");
    assert_eq!(spoil(first + 6, b'c'), "refused 10 at 0", "falling");
    assert_eq!(spoil(first + 7, 1), "refused 10 at 0", "an edge without an end");
}

#[test]
fn values_of_sheets() {
    let with = |kind: u8, slot: usize, value: i64| {
        let mut arc = AR(kind, 0, "a", 0, if matches!(kind, 3 | 19 | 20) { "" } else { "b" }, None);
        arc.1.values[slot] = Some(value);
        check_sheet(&S(&[], &[arc])).is_ok()
    };
    for kind in [1, 2, 3, 11, 12, 13, 14, 15, 16, 17, 18, 19, 20, 21] {
        let rows = match kind {
            1..=3 => 6,
            13 | 16 | 18 | 21 => 2,
            _ => 1,
        };
        let signed = matches!(kind, 1..=3 | 13 | 16 | 17 | 21);
        for slot in 0..18 {
            assert_eq!(with(kind, slot, LIMIT), slot / 3 < rows, "{kind} {slot}");
            assert_eq!(with(kind, slot, -LIMIT), slot / 3 < rows && signed, "{kind} {slot}");
            assert!(!with(kind, slot, LIMIT + 1) && !with(kind, slot, -LIMIT - 1));
        }
    }
}

#[test]
fn edges_of_sheets() {
    let with = |kind: u8, edge1: u8, edge2: u8| {
        let end2 = if matches!(kind, 3 | 19 | 20) { "" } else { "b" };
        check_sheet(&S(&[], &[AR(kind, edge1, "a", edge2, end2, None)])).is_ok()
    };
    for edge in 1..=255 {
        assert!(!with(1, 0, edge) && !with(2, edge, 0) && !with(2, 0, edge) && !with(3, edge, 0) && !with(3, 0, edge));
        assert!(!with(19, 0, edge) && !with(20, 0, edge));
        for kind in [1, 11, 13, 18, 19, 20, 21] {
            assert_eq!(with(kind, edge, 0), edge <= 8, "{kind} {edge}");
        }
        assert_eq!(with(17, 8, edge), edge <= 8);
    }
}

/// Instances and arcs rise by bytes, "a prefix first".
#[test]
fn order_of_records() {
    let arcs = [
        AR(1, 1, "a", 0, "b", None),
        AR(1, 2, "a", 0, "a", None),
        AR(1, 0, "a.b", 0, "a", None),
        AR(1, 0, "aa", 0, "a", None),
        AR(11, 0, "a", 5, "a", None),
        AR(11, 0, "a", 0, "b", None),
    ];
    let bytes = S(&[], &arcs);
    let sheet = check_sheet(&bytes).expect("a sheet");
    assert_eq!(sheet.arcs.keys().cloned().collect::<Vec<_>>(), arcs.map(|arc| arc.0));
    assert_eq!(encode(&sheet), bytes);
}

#[test]
fn checks_fill_one_or_two_rows() {
    let arcs = [AR(11, 0, "a", 0, "b", None), AR(13, 0, "a", 2, "b", None), AR(17, 0, "a", 0, "b", Some(9))];
    let checks = ["(SETUP a b(5))", "(SETUPHOLD a(negedge b)(1)(-2))", "(SKEW a b())"];
    let printed = "SETUP a b 5 _ _ _ _ _\nSETUPHOLD a negedge b 1 -2 _ _ _ _\nSKEW a b 9 _ _ _ _ _\n";
    assert_eq!(N(&S(&[("", "T")], &arcs), &FH("(TIMESCALE 1fs)", &[C("T", "", &[T(&checks)])])), printed);
}

/// Both ends of a name's journey: divider `/` in the file, `.` in the sheet.
#[test]
fn dividers_meet_in_dots() {
    let s = S(&[("a.b", "T")], &[AR(2, 0, "a.b.c.d", 0, r"a.b.\/[1:0]", None)]);
    let f = FH("(DIVIDER /)(TIMESCALE 1fs)", &[C("T", "a/b", &[A(&[r"(INTERCONNECT c/d \/[1:0] (7))"])])]);
    assert_eq!(N(&s, &f), "INTERCONNECT a.b.c.d a.b.\\/[1:0] 7 7 7 7 7 7\n");
}

#[test]
fn sums_below_the_limit() {
    let s = S(&[("", "T")], &[P("p", Some(-LIMIT))]);
    let f = FH("(TIMESCALE 1fs)", &[C("T", "", &[]), C("T", "", &[I(&["(PORT p(-1))"])])]);
    assert_eq!(N(&s, &f), "refused 16 at 118: PORT p(-1)");
    assert_eq!(X(&s, &f, 1, &C("T", "", &[A(&["(PORT p(5))"])])), "PORT p 4 4 4 4 4 4\n");
    assert_eq!(X(&s, &f, 1, &C("T", "", &[I(&["(PORT p(0))"])])), "refused 16 at 118 in file: PORT p(-1)");
    assert_eq!(X(&s, &f, 2, &C("T", "", &[I(&["(PORT p(-2))"])])), "refused 16 at 46 in incoming: PORT p(-2)");
}

/// "Undoing an old INCREMENT by subtraction; an ABSOLUTE may have covered it."
#[test]
fn covered_increments_are_not_undone() {
    let s = S(&[("", "T")], &[P("p", Some(10))]);
    let cells = [C("T", "", &[I(&["(PORT p(1))"])]), C("T", "", &[A(&["(PORT p(5)())"])])];
    let f = FH("(TIMESCALE 1fs)", &cells);
    assert_eq!(N(&s, &f), "PORT p 5 11 5 5 11 11\n");
    let annotated = S(&[("", "T")], &[P("p", Some(77))]);
    assert_eq!(XC(&s, &f, 1, &C("T", "", &[]), &annotated), "PORT p 5 10 5 5 10 10\n");
}

#[test]
fn what_a_patch_reads() {
    let s = S(&[], &[]);
    let rooms = Rooms { cells: 9, entries: 9 };
    let f = F(&[C("T", "*", &[])]);
    let tables = |file: &str, number: u64, incoming: &str| {
        let (file, incoming) = (file.as_bytes(), incoming.as_bytes());
        let given =
            second::patch::Given { start: &s, file, number, incoming, file_rooms: rooms, incoming_rooms: rooms };
        let (answer, tables) = patch_and_read(given, &mut s.clone());
        (answer.err().map_or(0, |refusal| refusal.number), tables.file.is_some(), tables.incoming.is_some())
    };
    assert_eq!(tables("(", 1, &C("T", "*", &[])), (4, false, false));
    assert_eq!(tables(&f, 2, &C("T", "*", &[])), (17, true, false));
    assert_eq!(tables(&f, 1, "(DELAYFILE"), (4, true, false));
    assert_eq!(tables(&f, 1, &C("T", "a", &[])), (12, true, true));
    assert_eq!(tables(&f, 1, &format!("// x\n{} /**/", C("T", "*", &[]))), (0, true, true));
}

#[test]
fn texts_of_one_cell() {
    let rooms = Rooms { cells: 1, entries: 1 };
    let read = |text: &str| read_cell(text.as_bytes(), b'/', 3, rooms).map(|file| file.entries);
    let refused = |number, place| Err(Refusal { number, place, incoming: true });
    let cell = C("T", "a/b", &[A(&["(PORT p(1))"])]);
    assert_eq!(read(&cell).expect("a cell")[0].values, [[Some(1000); 3]]);
    assert_eq!(read(&(cell.clone() + &cell)), refused(4, cell.len()));
    assert_eq!(read(""), refused(4, 0));
    assert_eq!(read("(COND"), refused(5, 1));
    assert_eq!(read(&F(&[cell])), refused(4, 1));
    assert_eq!(read(&C("T", "a.b", &[])), refused(4, 28));
    let long = " ".repeat(16_777_217);
    assert_eq!(read(&long), refused(1, 0));
}
