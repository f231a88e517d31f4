//! The examples of document 01 itself.

mod notation;
use notation::*;
use second::listing;

const LISTED: &str = "(DELAYFILE (SDFVERSION \"4.0\") (TIMESCALE 100 ps)
(CELL (CELLTYPE \"DFF\") (INSTANCE x.f1)
(DELAY (ABSOLUTE (IOPATH (posedge clk) q (2:3:4) (5)))
(INCREMENT (IOPATH (posedge clk) q () (-1))))
(TIMINGCHECK (SETUP d (posedge clk) (1.5)))))
";

#[test]
fn listing_in_full() {
    let printed = "cells 1 entries 3
C DFF x.f1
A IOPATH posedge clk - q 200000:300000:400000 500000:500000:500000
I IOPATH posedge clk - q _:_:_ -100000:-100000:-100000
T SETUP - d posedge clk 150000:150000:150000
";
    assert_eq!(listing(LISTED.as_bytes()), printed.as_bytes());
}

/// "On an empty arc both IOPATH entries leave rows 01, 0z, z1 at 200000:300000:400000 and rows 10,
/// 1z, z0 at 400000 three times."
#[test]
fn listed_iopaths_on_an_empty_arc() {
    let arcs = [IOE("x.f1.clk", "x.f1.q", None, 1), AR(11, 0, "x.f1.d", 1, "x.f1.clk", None)];
    let start = S(&[("x.f1", "DFF")], &arcs);
    let mut out = vec![0; start.len()];
    second::annotate(&start, LISTED.as_bytes(), 1, 3, &mut out).expect("annotated");
    let sheet = second::check_sheet(&out).expect("a sheet");
    let values = sheet.arcs.values().next().expect("an arc").values;
    let (one, two) = ([200000, 300000, 400000], [400000; 3]);
    let rows = [one, two, one, one, two, two].concat();
    assert_eq!(values.to_vec(), rows.into_iter().map(Some).collect::<Vec<_>>());
}

#[test]
fn eight_numbers() {
    let limit = 1_000_000_000_000_000;
    assert_eq!(time_of("0.000001", false, 6), Some(Ok(1)));
    assert_eq!(time_of("0.0000001", false, 6), Some(Err(6)));
    assert_eq!(time_of("1.50e-5", false, 6), Some(Ok(15)));
    assert_eq!(time_of("15e-7", false, 6), Some(Err(6)));
    assert_eq!(time_of("0e99", false, 6), Some(Ok(0)));
    assert_eq!(time_of("-0", true, 6), Some(Ok(0)));
    assert_eq!(time_of("1000000000", false, 6), Some(Ok(limit)));
    assert_eq!(time_of("1000000000.000001", false, 6), Some(Err(7)));
    // "Scaling numbers through floats: `0.1` must be 100000 exactly."
    assert_eq!(time_of("0.1", false, 6), Some(Ok(100_000)));
    assert_eq!(time_of("-1000000000", true, 6), Some(Ok(-limit)));
    assert_eq!(time_of("-1000000000.000001", true, 6), Some(Err(7)));
}

fn rows_after(values: &str) -> String {
    let entry = format!("(PORT p{values})");
    N(&S(&[("", "T")], &[P("p", None)]), &FH("(TIMESCALE 1fs)", &[C("T", "", &[A(&[&entry])])]))
}

#[test]
fn list_rules() {
    assert_eq!(rows_after("(1)"), "PORT p 1 1 1 1 1 1\n");
    assert_eq!(rows_after("(1)(2)"), "PORT p 1 2 1 1 2 2\n");
    assert_eq!(rows_after("(1)(2)(3)"), "PORT p 1 2 3 1 3 2\n");
    assert_eq!(rows_after("(1)(2)(3)(4)"), "PORT p 1 2 3 4 _ _\n");
    assert_eq!(rows_after("(1)(2)(3)(4)(5)"), "PORT p 1 2 3 4 5 _\n");
    assert_eq!(rows_after("(1)(2)(3)(4)(5)(6)"), "PORT p 1 2 3 4 5 6\n");
}

/// "TIMESCALE takes 1, 10, 100, 1.0, 10.0 or 100.0 [..] with s, ms, us, ns, ps or fs, spaced or
/// not. Without it, 1 ns."
#[test]
fn time_scales() {
    for (number, factor) in [("1", 1), ("10", 10), ("100", 100), ("1.0", 1), ("10.0", 10), ("100.0", 100)] {
        for (unit, power) in [("s", 15), ("ms", 12), ("us", 9), ("ns", 6), ("ps", 3), ("fs", 0)] {
            for between in ["", " ", "/**/"] {
                let head = format!("(TIMESCALE {number}{between}{unit})");
                let text = FH(&head, &[C("T", "", &[A(&[&format!("(PORT p(1e-{power}))")])])]);
                let listed = format!("cells 1 entries 1\nC T .\nA PORT - p - - {factor}:{factor}:{factor}\n");
                assert_eq!(L(&text), listed);
            }
        }
    }
    for wrong in ["1000ps", "01ps", "1.00ns", "1 NS", "2ns", "1e0ns", "ns", "1", "1.ns", "10.0.0ns", "1ns ns"] {
        let text = FH(&format!("(TIMESCALE {wrong})"), &[C("T", "", &[])]);
        assert!(L(&text).starts_with("refused 4 at "), "{wrong}");
    }
}

/// Every header entry, in the paper's order.
#[test]
fn whole_header() {
    let head = "(DESIGN\"d\")(DATE\"\")(VENDOR\"v\")(PROGRAM\"p\")(VERSION\"1\")(DIVIDER /)(VOLTAGE 5)\
                (PROCESS\"x\")(TEMPERATURE -1:+2e5:3.5)(TIMESCALE 1ns)";
    let text = FH(head, &[C("T", "a/b", &[])]);
    let file = second::read_file(text.as_bytes(), 1, 0).expect("a file");
    let keywords: Vec<&str> = file.header.iter().map(|text| text.0).collect();
    assert_eq!(keywords, ["SDFVERSION", "DESIGN", "DATE", "VENDOR", "PROGRAM", "VERSION", "PROCESS"]);
    assert_eq!((file.divider, file.scale), (b'/', 6));
}

/// "Merging cells of one instance: one between them may touch the same arc."
#[test]
fn cells_stay_apart() {
    let start = S(&[("", "T"), ("a", "U")], &[P("a.p", Some(10))]);
    let cells = [
        C("U", "a", &[I(&["(PORT p(1))"])]),
        C("T", "", &[A(&["(PORT a.p(5))"])]),
        C("U", "a", &[I(&["(PORT p(1))"])]),
    ];
    assert_eq!(N(&start, &FH("(TIMESCALE 1fs)", &cells)), "PORT a.p 6 6 6 6 6 6\n");
}
