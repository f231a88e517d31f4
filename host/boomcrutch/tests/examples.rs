//! The examples through the command: listings, header texts, sheets, and a patch that is an annotation with the new file.

mod desk;
use desk::*;

#[test]
fn listings() {
    if !has(&[Functions::Read]) {
        return;
    }
    let desk = Desk::new("listings");
    for name in ["board", "gates", "corner", "motor"] {
        desk.put("file.sdf", example(&format!("{name}.sdf")));
        let expected = String::from_utf8(example(&format!("{name}.list"))).unwrap();
        let ran = desk.run("list file.sdf");
        assert_eq!((ran.status, ran.out, ran.err.as_str()), (0, expected, ""), "{name}");
    }
}

/// Document 01's own listing, from standard input.
#[test]
fn the_listing_in_full() {
    if !has(&[Functions::Read]) {
        return;
    }
    let text = "(DELAYFILE (SDFVERSION \"4.0\") (TIMESCALE 100 ps)\n(CELL (CELLTYPE \"DFF\") (INSTANCE x.f1)\n\
                (DELAY (ABSOLUTE (IOPATH (posedge clk) q (2:3:4) (5)))\n(INCREMENT (IOPATH (posedge clk) q () (-1))))\n\
                (TIMINGCHECK (SETUP d (posedge clk) (1.5)))))\n";
    let expected = "cells 1 entries 3\nC DFF x.f1\n\
                    A IOPATH posedge clk - q 200000:300000:400000 500000:500000:500000\n\
                    I IOPATH posedge clk - q _:_:_ -100000:-100000:-100000\n\
                    T SETUP - d posedge clk 150000:150000:150000\n";
    let desk = Desk::new("the_listing_in_full");
    assert_eq!(desk.run_with_input("list -", text.as_bytes()).out, expected);
    assert_eq!(desk.run_with_input("list --cells 1 --entries 3 -", text.as_bytes()).out, expected);
    assert_eq!(desk.run_with_input("list --entries 99999999999999999999 -", text.as_bytes()).out, expected);
}

#[test]
fn lines_of_all_sorts() {
    if !has(&[Functions::Read]) {
        return;
    }
    let desk = Desk::new("lines_of_all_sorts");
    let cell =
        "(CELL(CELLTYPE\"a\nb\")(INSTANCE *)(DELAY(ABSOLUTE(DEVICE())(DEVICE q(1)))))(CELL(CELLTYPE\"\")(INSTANCE))";
    desk.put("file.sdf", file(cell));
    let expected =
        "cells 2 entries 2\nC a\nb *\nA DEVICE - - - - _:_:_\nA DEVICE - q - - 1000000:1000000:1000000\nC  .\n";
    assert_eq!(desk.run("list file.sdf").out, expected);
}

#[test]
fn labels() {
    if !has(&[Functions::Read]) {
        return;
    }
    let desk = Desk::new("labels");
    desk.put("board.sdf", example("board.sdf")).put("motor.sdf", example("motor.sdf"));
    let board = "SDFVERSION 4.0\nDESIGN interlock_board\nVENDOR Signal Works\nPROGRAM drawer\nVERSION 7.1\n";
    assert_eq!(desk.run("label board.sdf").out, board);
    // VENDOR is there and empty; PROCESS is not there.
    let motor =
        "SDFVERSION 3.0\nDESIGN point_motor\nDATE 2026-11-15\nVENDOR \nPROGRAM fit\nVERSION Version 23.1 Build 991\n";
    assert_eq!(desk.run("label motor.sdf").out, motor);
}

#[test]
fn annotated_and_patched() {
    if !has(&[Functions::Read, Functions::Sheet, Functions::Annotate]) {
        return;
    }
    let desk = Desk::new("annotated_and_patched");
    let (board, reissue) = (example("board.sdf"), example("reissue.sdf"));
    desk.put("board.sdf", &board).put("reissue.sdf", &reissue);
    desk.must("blank board.sdf -o start").must("annotate start board.sdf -o annotated");
    assert_eq!(desk.run("sheet annotated").out.as_bytes(), example("board.annotated"));
    if !has(&[Functions::Patch]) {
        return;
    }
    desk.must("patch start board.sdf 2 reissue.sdf annotated -o patched");
    assert_eq!(desk.run("sheet patched").out.as_bytes(), example("board.patched"));
    // The same, by annotating with the new file.
    desk.put("new.sdf", swapped(&board, &reissue)).must("annotate start new.sdf -o by_new_file");
    assert_eq!(desk.get("patched"), desk.get("by_new_file"));
}

/// The board's text with its second cell, from `(` to `)`, swapped for the re-issued one.
fn swapped(board: &[u8], reissue: &[u8]) -> Vec<u8> {
    let (board, reissue) = (std::str::from_utf8(board).unwrap(), std::str::from_utf8(reissue).unwrap());
    let starts: Vec<usize> = board.match_indices("(CELL\n").map(|found| found.0).collect();
    let end = board[..starts[2]].rfind(')').unwrap() + 1;
    let cell = &reissue[reissue.find("(CELL").unwrap()..=reissue.rfind(')').unwrap()];
    [&board[..starts[1]], cell, &board[end..]].concat().into_bytes()
}

/// Every example has a starting sheet that it can annotate.
#[test]
fn blank_sheets_fit() {
    if !has(&[Functions::Read, Functions::Sheet, Functions::Annotate]) {
        return;
    }
    let desk = Desk::new("blank_sheets_fit");
    for name in ["board", "gates", "corner", "motor"] {
        desk.put("file.sdf", example(&format!("{name}.sdf")));
        desk.must("blank file.sdf -o start --force").must("annotate start file.sdf -o out --force");
        let (start, out) = (desk.run("sheet start").out, desk.run("sheet out").out);
        assert_eq!(keys(&start), keys(&out), "{name}");
        assert!(
            start.lines().filter(|line| line.starts_with("AR")).all(|line| !line.contains("0:")),
            "{name}: {start}"
        );
    }
}

/// The lines of a sheet without their values.
fn keys(sheet: &str) -> Vec<String> {
    sheet.lines().map(|line| line.split(' ').take(6).collect::<Vec<_>>().join(" ")).collect()
}

#[test]
fn blank_with_star_and_device() {
    if !has(&[Functions::Read, Functions::Sheet]) {
        return;
    }
    let desk = Desk::new("blank_with_star_and_device");
    let star = "(CELL(CELLTYPE\"T\")(INSTANCE *)(DELAY(ABSOLUTE(PORT p())(DEVICE q(1))))\
                (TIMINGCHECK(WIDTH(posedge c)())))(CELL(CELLTYPE\"U\")(INSTANCE *)(DELAY(ABSOLUTE(PORT p()))))";
    let named =
        "(CELL(CELLTYPE\"T\")(INSTANCE b\\/c/d))(CELL(CELLTYPE\"T\")(INSTANCE))(CELL(CELLTYPE\"V\")(INSTANCE e))";
    desk.put("file.sdf", format!("(DELAYFILE(SDFVERSION\"\")(DIVIDER /){star}{named})"))
        .must("blank file.sdf -o start");
    let empty = ["_:_:_"; 6].join(" ");
    let expected = format!(
        "instances 3 arcs 4\nIN T .\nIN T b\\/c.d\nIN V e\nAR PORT - b\\/c.d.p - - {empty}\nAR PORT - p - - {empty}\n\
         AR WIDTH posedge b\\/c.d.c - - _:_:_\nAR WIDTH posedge c - - _:_:_\n"
    );
    assert_eq!(desk.run("sheet start").out, expected);
}
