//! Every refusal through the command: the line on standard output, the words beside it, and nothing written.

mod desk;
use desk::*;

#[test]
fn refusals_of_a_text() {
    if !has(&[Functions::Read]) {
        return;
    }
    let desk = Desk::new("refusals_of_a_text");
    let cell = |inside: &str| file(&format!("\n(CELL(CELLTYPE\"T\")(INSTANCE)(DELAY(ABSOLUTE\n  ({inside}))))"));
    let long = "x".repeat(1025);
    for (text, line, words) in [
        ("(DELAYFILE\u{1}".to_string(), "refused 2 at 10", ":1:11: refused 2 at 10: an illegal byte"),
        ("\n\n /* never".to_string(), "refused 3 at 3", ":3:2: refused 3 at 3: a comment or string"),
        (
            "(DELAYFILE\n (sdfversion".to_string(),
            "refused 4 at 13",
            ":2:3: refused 4 at 13: this cannot stand here: sdfversion",
        ),
        ("(DELAYFILE".to_string(), "refused 4 at 10", ":1:11: refused 4 at 10: the text ends too soon"),
        (cell("COND"), "refused 5 at 75", ":3:4: refused 5 at 75: this word of SDF is not carried yet: COND"),
        (cell("PORT p(1e-7)"), "refused 6 at 82", ":3:11: refused 6 at 82: this time is not a whole number"),
        (
            cell("PORT p(1e9999)"),
            "refused 7 at 82",
            ": 1e9999\n    3 |   (PORT p(1e9999))))))\n      |           ^^^^^^\n",
        ),
        (
            cell(&format!("PORT {long}()")),
            "refused 8 at 80",
            ":3:9: refused 8 at 80: a word or string of more than 1,024",
        ),
    ] {
        desk.put("f.sdf", &text);
        let err = desk.refused("list f.sdf", line);
        assert!(err.starts_with("f.sdf:") && err.contains(words), "{err}");
        desk.refused("label f.sdf", line);
        if has(&[Functions::Sheet]) {
            desk.refused("blank f.sdf -o start", line);
        }
        let err = desk.run_with_input("list -", text.as_bytes()).err;
        assert!(err.starts_with("-:") && err.contains(words), "{err}");
    }
    desk.put("f.sdf", cell("PORT p()"));
    assert!(desk.refused("list --cells 0 f.sdf", "refused 9 at 29").starts_with("f.sdf:2:2: refused 9 at 29: no room"));
    assert!(desk.refused("list --entries 0 f.sdf", "refused 9 at 75").contains("(PORT p())"));
    assert_eq!(desk.names(), ["f.sdf"]);
}

#[test]
fn too_long() {
    if !has(&[Functions::Read]) {
        return;
    }
    let desk = Desk::new("too_long");
    let mut text = file("(CELL(CELLTYPE\"T\")(INSTANCE))").into_bytes();
    text.resize(16_777_216, b' ');
    assert_eq!(desk.put("f.sdf", &text).run("list f.sdf").out, "cells 1 entries 0\nC T .\n");
    text.resize(16_777_217, b' ');
    assert!(desk.put("f.sdf", &text).refused("list f.sdf", "refused 1 at 0").starts_with("f.sdf:1:1: refused 1 at 0"));
    text.resize(40_000_000, b' ');
    assert_eq!(desk.run_with_input_read_in_part("list -", &text), "refused 1 at 0\n");
}

impl Desk {
    /// The command need not read all of its input.
    fn run_with_input_read_in_part(&self, arguments: &str, input: &[u8]) -> String {
        self.put("input", input);
        let input = std::fs::File::open(self.path("input")).unwrap();
        ran(self.command(arguments).stdin(input).output().unwrap()).out
    }
}

/// A sheet with the instances `a` of type T and `b` of type U, and arcs of `a`; `a.p` has values, the others none.
fn start(desk: &Desk) {
    let cells = "(CELL(CELLTYPE\"T\")(INSTANCE a)(DELAY(ABSOLUTE(PORT p(1))(IOPATH i q()))))\
                 (CELL(CELLTYPE\"U\")(INSTANCE b))";
    desk.put("made.sdf", file(cells)).must("blank made.sdf -o empty").must("annotate empty made.sdf -o start");
}

#[test]
fn refusals_of_annotating() {
    if !has(&[Functions::Read, Functions::Sheet, Functions::Annotate]) {
        return;
    }
    let desk = Desk::new("refusals_of_annotating");
    start(&desk);
    let names = [desk.names(), vec!["f.sdf".to_string()]].concat();
    let cell = |type_text: &str, path: &str, inside: &str| {
        file(&format!("\n(CELL(CELLTYPE\"{type_text}\")(INSTANCE {path}){inside})"))
    };
    let entry = |group: &str, inside: &str| cell("T", "a", &format!("(DELAY({group}\n  ({inside})))"));
    for (text, line, words) in [
        ("(".to_string(), "refused 4 at 1", ":1:2: "),
        (cell("T", "c", ""), "refused 12 at 29", "no such instance: CELL\n    2 | (CELL(CELLTYPE"),
        (cell("T", "b", ""), "refused 13 at 29", "\n  cell 1: type \"T\", instance b\n  on the sheet its type is \"U\"\n"),
        (
            entry("ABSOLUTE", "IOPATH (01 i) q(1)"),
            "refused 14 at 77",
            "\n  entry 1 of this cell: ABSOLUTE IOPATH from 01 i to q\n  the arc: IOPATH with the full names a.i and a.q\n",
        ),
        (entry("ABSOLUTE", "DEVICE z(1)"), "refused 14 at 77", "the arc: some IOPATH to a.z\n"),
        (entry("INCREMENT", "DEVICE q(1)"), "refused 15 at 78", "entry 1 of this cell: INCREMENT DEVICE at q\n"),
        (entry("INCREMENT", "PORT p(1000000000)"), "refused 16 at 78", ":3:4: refused 16 at 78: a sum beyond 10^15"),
    ] {
        desk.put("f.sdf", &text);
        let err = desk.refused("annotate start f.sdf -o out", line);
        assert!(err.starts_with("f.sdf:") && err.contains(words), "{err}");
    }
    desk.put("f.sdf", file("(CELL(CELLTYPE\"T\")(INSTANCE a))"));
    desk.refused("annotate start f.sdf -o out --cells 0", "refused 9 at 28");
    let err = desk.refused("annotate f.sdf f.sdf -o out", "refused 10 at 0");
    assert!(err.contains("the starting sheet is f.sdf"), "{err}");
    assert!(desk.refused("sheet f.sdf", "refused 10 at 0").starts_with("f.sdf:1:1: refused 10 at 0: the sheet is not"));
    assert_eq!(desk.names().len(), names.len());
}

#[test]
fn refusals_of_patching() {
    if !has(&[Functions::Read, Functions::Sheet, Functions::Annotate, Functions::Patch]) {
        return;
    }
    let desk = Desk::new("refusals_of_patching");
    start(&desk);
    desk.put("c.sdf", "\n(CELL(CELLTYPE\"T\")(INSTANCE a)\n(DELAY(INCREMENT(PORT p(1000000000)))))");
    let longer = [desk.get("start"), vec![0]].concat();
    let mut other = desk.get("start");
    let type_place = other.windows(1).position(|byte| byte == b"T").unwrap();
    other[type_place] = b'V';
    desk.put("longer", longer).put("other", other).put("bad.sdf", "(CELL (CELLTYPE \"T\")\n  (COND))");
    let names = desk.names();
    for (arguments, line, words) in [
        (
            "start made.sdf 2 c.sdf start",
            "refused 16 at 49 in incoming",
            "c.sdf:3:18: refused 16 at 49 in incoming: a sum",
        ),
        ("start made.sdf 0 c.sdf start", "refused 17 at 0 in file", "made.sdf:1:1: refused 17 at 0 in file: "),
        ("start made.sdf 3 c.sdf start", "refused 17 at 0 in file", "made.sdf:1:1: refused 17 at 0 in file: "),
        ("start made.sdf 99999999999999999999 c.sdf start", "refused 17 at 0 in file", "no cell of that number"),
        ("start made.sdf 1 bad.sdf start", "refused 5 at 24 in incoming", "bad.sdf:2:4: refused 5 at 24 in incoming"),
        ("start bad.sdf 1 c.sdf start", "refused 4 at 1 in file", "bad.sdf:1:2: "),
        ("c.sdf made.sdf 1 c.sdf start", "refused 10 at 0 in file", "the starting sheet is c.sdf\n"),
        ("start made.sdf 1 c.sdf longer", "refused 11 at 0 in file", "the current one longer\n"),
        ("start made.sdf 1 c.sdf other", "refused 18 at 0 in file", "the current one other\n"),
        ("start made.sdf 1 c.sdf start --cells 1", "refused 9 at 101 in file", "no room"),
        ("start made.sdf 1 c.sdf start --entries 1", "refused 9 at 84 in file", "no room"),
        ("start made.sdf 1 c.sdf start --incoming-cells 0", "refused 9 at 2 in incoming", "c.sdf:2:2: "),
        ("start made.sdf 1 c.sdf start --incoming-entries 0", "refused 9 at 49 in incoming", "c.sdf:3:18: "),
    ] {
        let err = desk.refused(&format!("patch {arguments} -o out"), line);
        assert!(err.contains(words), "{err} has no {words}");
    }
    assert_eq!(desk.names(), names);
}

#[test]
fn explanations() {
    let desk = Desk::new("explanations");
    for number in 1..=18 {
        let ran = desk.run(&format!("explain {number}"));
        assert_eq!((ran.status, ran.err.as_str()), (0, ""));
        assert!(ran.out.starts_with(&format!("{number}: ")) && ran.out.contains("place is"), "{}", ran.out);
    }
    for bad in ["0", "19", "99999999999999999999", "x", "-1", "+1"] {
        desk.error(&format!("explain {bad}"), "usage: ");
    }
}
