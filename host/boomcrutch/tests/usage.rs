//! Arguments that cannot be, and help.

mod desk;
use desk::*;

const COMMANDS: [&str; 7] = ["list", "label", "annotate", "patch", "sheet", "blank", "explain"];

#[test]
fn help() {
    let desk = Desk::new("help");
    let overall = desk.run("--help");
    assert_eq!((overall.status, overall.err.as_str()), (0, ""));
    for command in COMMANDS {
        let ran = desk.run(&format!("{command} --help"));
        assert_eq!((ran.status, ran.err.as_str()), (0, ""), "{command}");
        assert!(ran.out.starts_with(&format!("usage: boomcrutch {command} ")), "{}", ran.out);
        assert!(overall.out.contains(&format!("\n  {command} ")), "{command}");
        assert!(ran.out.lines().all(|line| line.len() <= 130 || line.starts_with("usage")), "{}", ran.out);
    }
    assert!(desk.run("blank --help").out.contains("NOT PROVED"));
}

/// The manual page knows every command and every option, and says what is not proved.
#[test]
fn manual_page() {
    let desk = Desk::new("manual_page");
    let page = examples().join("../man/boomcrutch.1");
    let page = std::fs::read_to_string(page).expect("the manual page").replace("\\-", "-");
    for command in COMMANDS {
        assert!(page.contains(&format!("\n.B boomcrutch {command}\n")), "{command}");
        let help = desk.run(&format!("{command} --help")).out;
        for option in help.split(|c: char| !c.is_ascii_alphanumeric() && c != '-').filter(|word| word.starts_with("--"))
        {
            assert!(page.contains(option), "{option}");
        }
    }
    assert!(page.contains("not proved"));
}

#[test]
fn wrong_arguments() {
    let desk = Desk::new("wrong_arguments");
    desk.put("f.sdf", "").put("g.sdf", "");
    for (arguments, message) in [
        ("", "a command is missing"),
        ("lst f.sdf", "lst is no command"),
        ("list", "list: FILE is missing"),
        ("list f.sdf g.sdf", "g.sdf is one argument too many"),
        ("list --cells f.sdf", "list: FILE is missing"),
        ("list --cells f.sdf g.sdf", "--cells takes a whole number in digits, not f.sdf"),
        ("list f.sdf --cells", "--cells needs a value"),
        ("list f.sdf --cells -1", "--cells takes a whole number"),
        ("list f.sdf --cells 1 --cells 1", "--cells is given twice"),
        ("list f.sdf --rooms 1", "unknown option --rooms"),
        ("list f.sdf -o out", "unknown option -o"),
        ("annotate f.sdf g.sdf", "annotate: -o is missing"),
        ("annotate f.sdf -o out", "annotate: FILE is missing"),
        ("annotate f.sdf g.sdf -o out -o out", "-o is given twice"),
        ("annotate f.sdf g.sdf -o out --force --force", "--force is given twice"),
        ("patch f.sdf f.sdf x f.sdf f.sdf -o out", "K takes a whole number in digits, not x"),
        ("patch f.sdf f.sdf 1 f.sdf -o out", "patch: CURRENT is missing"),
        ("patch f.sdf f.sdf 1 f.sdf f.sdf -o out --incoming-cells 1e3", "--incoming-cells takes a whole number"),
        ("blank f.sdf", "blank: -o is missing"),
        ("explain", "explain: N is missing"),
    ] {
        let command = arguments.split(' ').next().unwrap_or_default();
        if available(command) {
            desk.error(arguments, message);
            desk.error(arguments, "usage: boomcrutch ");
        } else {
            desk.error(arguments, "boomcrutch: ");
        }
    }
    if has(&[Functions::Read]) {
        desk.error("label -", "only `list` reads standard input; a file of the name - is ./-");
    }
}

/// Whether the program was built with what a command needs.
fn available(command: &str) -> bool {
    let needs: &[Functions] = match command {
        "list" | "label" => &[Functions::Read],
        "annotate" => &[Functions::Annotate],
        "patch" => &[Functions::Patch],
        "sheet" => &[Functions::Sheet],
        "blank" => &[Functions::Read, Functions::Sheet],
        _ => &[],
    };
    has(needs)
}

/// A command that was left out says so.
#[test]
fn left_out() {
    let desk = Desk::new("left_out");
    for (command, arguments) in [("list", "f"), ("annotate", "a b -o c"), ("patch", "a b 1 c d -o e"), ("sheet", "f")] {
        if !available(command) {
            desk.error(
                &format!("{command} {arguments}"),
                &format!("built without the proved functions that `{command}` needs"),
            );
        }
    }
}
