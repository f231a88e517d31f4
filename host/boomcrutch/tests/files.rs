//! Files: which are opened, and that a sheet is written whole or not at all.

mod desk;
use desk::*;

use std::fs;
use std::os::unix::fs::{symlink, PermissionsExt};
use std::process::{Command, Stdio};
use std::time::{Duration, Instant};

const CELL: &str = "(CELL(CELLTYPE\"T\")(INSTANCE a)(DELAY(ABSOLUTE(PORT p(1)))))";

#[test]
fn what_is_no_file() {
    if !has(&[Functions::Read, Functions::Sheet]) {
        return;
    }
    let desk = Desk::new("what_is_no_file");
    desk.put("f.sdf", file(CELL));
    fs::create_dir(desk.path("folder")).unwrap();
    assert!(Command::new("mkfifo").arg(desk.path("pipe")).status().unwrap().success());
    for (name, message) in [
        ("none.sdf", "none.sdf: there is no such file"),
        ("none/f.sdf", "none: No such file"),
        ("folder", "folder: is a folder"),
        ("folder/", "folder/: is no file's name"),
        ("folder/..", "folder/..: is no file's name"),
        ("f.sdf/x", "f.sdf: is no folder"),
        ("f.sdf/", "f.sdf/: is no file's name"),
        ("pipe", "pipe: is no regular file"),
    ] {
        desk.error(&format!("list {name}"), message);
        desk.error(&format!("sheet {name}"), message);
    }
    desk.error("list /", "/: is no file's name");
    desk.error("blank f.sdf -o -", "no sheet goes to standard output");
    for (name, message) in
        [("folder", "is a folder"), ("pipe", "is no regular file"), ("none/out", "none: No such file")]
    {
        desk.error(&format!("blank f.sdf -o {name} --force"), message);
    }
    assert_eq!(desk.run(&format!("list ./folder/.././/{}", "f.sdf")).status, 0);
    assert_eq!(desk.run(&format!("list {}", desk.path("f.sdf").display())).status, 0);
}

#[test]
fn no_link_is_followed() {
    if !has(&[Functions::Read, Functions::Sheet]) {
        return;
    }
    let desk = Desk::new("no_link_is_followed");
    fs::create_dir_all(desk.path("real/deep")).unwrap();
    desk.put("real/deep/f.sdf", file(CELL));
    symlink("real", desk.path("alias")).unwrap();
    symlink("f.sdf", desk.path("real/deep/g.sdf")).unwrap();
    symlink("nowhere", desk.path("dangling")).unwrap();
    let whole = desk.path("alias/deep/f.sdf").display().to_string();
    for (name, link) in [
        ("alias/deep/f.sdf", "alias"),
        ("real/../alias/deep/f.sdf", "real/../alias"),
        ("real/deep/g.sdf", "real/deep/g.sdf"),
        ("dangling", "dangling"),
        (whole.as_str(), &desk.path("alias").display().to_string()),
    ] {
        let message = format!("boomcrutch: {link}: is a symbolic link, and none is followed");
        desk.error(&format!("list {name}"), &message);
        desk.error(&format!("blank real/deep/f.sdf -o {name}"), &message);
        desk.error(&format!("blank real/deep/f.sdf -o {name} --force"), &message);
    }
    desk.error("blank real/deep/f.sdf -o alias/out", "alias: is a symbolic link");
    assert_eq!(desk.get("real/deep/f.sdf"), file(CELL).as_bytes());
    assert!(!desk.path("nowhere").exists() && !desk.path("real/out").exists());
    // Other names of the same file are fine.
    fs::hard_link(desk.path("real/deep/f.sdf"), desk.path("h.sdf")).unwrap();
    assert_eq!(desk.run("list h.sdf").status, 0);
}

#[test]
fn unreadable() {
    if !has(&[Functions::Read]) {
        return;
    }
    let desk = Desk::new("unreadable");
    desk.put("f.sdf", file(CELL));
    fs::set_permissions(desk.path("f.sdf"), fs::Permissions::from_mode(0o000)).unwrap();
    let message = "boomcrutch: f.sdf: Permission denied";
    if fs::read(desk.path("f.sdf")).is_err() {
        return desk.error("list f.sdf", message);
    }
    // This user may read everything, but not from a user namespace of nobody.
    let mut nobody = Command::new("unshare");
    nobody.current_dir(&desk.folder).args(["-U", env!("CARGO_BIN_EXE_boomcrutch"), "list", "f.sdf"]);
    match nobody.stdin(Stdio::null()).output().map(ran) {
        Ok(ran) if !ran.err.contains("unshare") => assert!(ran.status == 2 && ran.err.contains(message), "{ran:?}"),
        _ => eprintln!("left out: this user may read everything"),
    }
}

#[test]
fn an_existing_sheet_stays() {
    if !has(&[Functions::Read, Functions::Sheet, Functions::Annotate]) {
        return;
    }
    let desk = Desk::new("an_existing_sheet_stays");
    desk.put("f.sdf", file(CELL)).must("blank f.sdf -o start").put("out", "old");
    desk.error("annotate start f.sdf -o out", "out: is there already (--force replaces it)");
    desk.error("blank f.sdf -o out", "out: is there already");
    assert_eq!(desk.get("out"), b"old");
    fs::set_permissions(desk.path("out"), fs::Permissions::from_mode(0o640)).unwrap();
    desk.must("annotate start f.sdf -o out --force");
    assert_eq!(desk.run("sheet out").status, 0);
    assert_eq!(fs::metadata(desk.path("out")).unwrap().permissions().mode() & 0o777, 0o640);
    // A refusal leaves the old one, with --force as well.
    desk.put("out", "old").put("bad.sdf", "(");
    desk.refused("annotate start bad.sdf -o out --force", "refused 4 at 1");
    assert_eq!(desk.get("out"), b"old");
    // An input may be replaced: it is read before.
    desk.must("annotate start f.sdf -o start --force");
    assert_eq!(desk.names(), ["bad.sdf", "f.sdf", "out", "start"]);
}

#[test]
fn two_types_and_too_long() {
    if !has(&[Functions::Read, Functions::Sheet]) {
        return;
    }
    let desk = Desk::new("two_types_and_too_long");
    desk.put("f.sdf", file("(CELL(CELLTYPE\"T\")(INSTANCE a))\n(CELL(CELLTYPE\"U\")(INSTANCE a))"));
    desk.error(
        "blank f.sdf -o start",
        "f.sdf:2:2: this cell gives its instance another type than the one at f.sdf:1:29",
    );
    let star = format!("(CELL(CELLTYPE\"T\")(INSTANCE *)(DELAY(ABSOLUTE{})))", "(PORT p[1]())".repeat(3));
    let ports: String = (0..400).map(|number| format!("(PORT p{number}())")).collect();
    let star = star.replace("(PORT p[1]())(PORT p[1]())(PORT p[1]())", &ports);
    let named: String = (0..400).map(|number| format!("(CELL(CELLTYPE\"T\")(INSTANCE a{number}))")).collect();
    desk.put("f.sdf", file(&(star + &named)));
    desk.error("blank f.sdf -o start", "f.sdf: its sheet would be longer than 16,777,216 bytes");
}

/// A shell that limits how large a file may grow, as a full disk would.
fn limited(desk: &Desk, arguments: &str) -> Ran {
    let script = format!("ulimit -f 8; exec \"$0\" {arguments}");
    let mut shell = Command::new("sh");
    let shell = shell.current_dir(&desk.folder).args(["-c", &script, env!("CARGO_BIN_EXE_boomcrutch")]);
    ran(shell.stdin(Stdio::null()).output().expect("a shell"))
}

#[test]
fn a_full_disk() {
    if !has(&[Functions::Read, Functions::Sheet]) {
        return;
    }
    let desk = Desk::new("a_full_disk");
    desk.put("f.sdf", large_file(1000)).put("old", "old");
    for (arguments, name) in [("blank f.sdf -o new", "new"), ("blank f.sdf -o old --force", "old")] {
        let ran = limited(&desk, arguments);
        assert_eq!((ran.status, ran.out.as_str()), (2, ""), "{}", ran.err);
        assert!(ran.err.contains(&format!("boomcrutch: {name}: File too large")), "{}", ran.err);
    }
    assert_eq!((desk.get("old"), desk.names()), (b"old".to_vec(), vec!["f.sdf".to_string(), "old".to_string()]));
}

/// A file system of 64 kB, where this user may make one.
#[test]
fn a_disk_that_is_full_indeed() {
    if !has(&[Functions::Read, Functions::Sheet]) {
        return;
    }
    let desk = Desk::new("a_disk_that_is_full_indeed");
    desk.put("f.sdf", large_file(1000));
    fs::create_dir(desk.path("disk")).unwrap();
    let script = "mount -t tmpfs -o size=64k none disk || exit 77; echo old > disk/old
                  \"$0\" blank f.sdf -o disk/new; echo status $?; \"$0\" blank f.sdf -o disk/old --force; echo status $?
                  cat disk/old; ls -A disk";
    let mut shell = Command::new("unshare");
    let shell = shell.current_dir(&desk.folder).args(["-rm", "sh", "-c", script, env!("CARGO_BIN_EXE_boomcrutch")]);
    let Ok(output) = shell.stdin(Stdio::null()).output() else {
        return eprintln!("left out: there is no unshare here");
    };
    let ran = ran(output);
    if ran.status == 77 || ran.err.contains("unshare") {
        return eprintln!("left out: no file system may be mounted here");
    }
    assert_eq!(ran.out, "status 2\nstatus 2\nold\nold\n", "{}", ran.err);
    assert_eq!(ran.err.matches("No space left on device").count(), 2, "{}", ran.err);
}

#[test]
fn standard_output_that_is_full_or_gone() {
    if !has(&[Functions::Read]) {
        return;
    }
    let desk = Desk::new("standard_output_that_is_full_or_gone");
    desk.put("f.sdf", large_file(2000)).put("bad.sdf", "(");
    for name in ["f.sdf", "bad.sdf"] {
        let full = fs::OpenOptions::new().write(true).open("/dev/full").unwrap();
        let ran = ran(desk.command(&format!("list {name}")).stdout(full).output().unwrap());
        assert_eq!(ran.status, 2);
        assert!(ran.err.contains("standard output: No space left"), "{}", ran.err);
    }
    let mut child = desk.command("list f.sdf").stdout(Stdio::piped()).stderr(Stdio::piped()).spawn().unwrap();
    drop(child.stdout.take());
    let ran = ran(child.wait_with_output().unwrap());
    assert_eq!((ran.status, ran.err.as_str()), (2, ""));
}

/// Killed at any moment of the writing: the name has its old state or its new one.
#[test]
fn killed() {
    if !has(&[Functions::Read, Functions::Sheet]) {
        return;
    }
    let desk = Desk::new("killed");
    desk.put("f.sdf", large_file(20_000)).must("blank f.sdf -o whole");
    let whole = desk.get("whole");
    let mut killed_while_writing = 0;
    for round in 0..12 {
        let old: Option<&[u8]> = if round % 2 == 0 { None } else { Some(b"old") };
        let _ = fs::remove_file(desk.path("out"));
        if let Some(old) = old {
            desk.put("out", old);
        }
        kill_while_writing(&desk, Duration::from_micros(1_000 * round));
        let left: Vec<String> = desk.names().into_iter().filter(|name| name.starts_with(".boomcrutch")).collect();
        killed_while_writing += left.len();
        let out = fs::read(desk.path("out")).ok();
        // With the new file still under its other name, the old state stands; else the new one does.
        let expected = if left.is_empty() { Some(whole.as_slice()) } else { old };
        assert!(out.as_deref() == expected, "round {round}");
        left.iter().for_each(|name| fs::remove_file(desk.path(name)).unwrap());
    }
    assert!(killed_while_writing > 0, "no round was killed while it wrote");
    desk.must("blank f.sdf -o out --force");
    assert_eq!(desk.names(), ["f.sdf", "out", "whole"]);
}

/// Starts the command, waits until it begins to write, then so long, and kills it.
fn kill_while_writing(desk: &Desk, wait: Duration) {
    let mut child = desk.command("blank f.sdf -o out --force").stderr(Stdio::null()).spawn().unwrap();
    let deadline = Instant::now() + Duration::from_secs(60);
    while !desk.names().iter().any(|name| name.starts_with(".boomcrutch")) && child.try_wait().unwrap().is_none() {
        assert!(Instant::now() < deadline, "it never wrote");
    }
    std::thread::sleep(wait);
    // It may have ended by itself.
    let _ = child.kill();
    child.wait().unwrap();
}
