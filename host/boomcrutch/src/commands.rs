//! Each command, from its arguments to what it prints and writes.

use std::ffi::OsString;
use std::io::Write;
use std::path::Path;

use command::arguments::{self, bad_number, number, shown, Given, Parsed, Shape};
use command::blank::{blank, NoSheet};
use command::explain;
use command::listing::write_listing;
use command::report::{line_and_column, About, Refused};
use command::rooms::{Rooms, Wanted};
use command::sheet::write_sheet;
use proved::{Functions, ReadAnswer, ResultAnswer, Swap, HEADER_TEXTS};

use crate::failure::Failure;
use crate::files::{read, read_standard_input, Input, Output};
use crate::help::{self, Help};
use crate::output::{print, say};

type Done = Result<(), Failure>;

struct Command {
    name: &'static str,
    shape: Shape,
    help: Help,
    /// The proved functions that it is made of.
    needs: &'static [Functions],
    run: fn(&Given) -> Done,
}

static COMMANDS: [Command; 7] = [
    Command {
        name: "list",
        shape: Shape { places: &["FILE"], valued: &["--cells", "--entries"], flags: &[] },
        help: help::LIST,
        needs: &[Functions::Read],
        run: list,
    },
    Command {
        name: "label",
        shape: Shape { places: &["FILE"], valued: &[], flags: &[] },
        help: help::LABEL,
        needs: &[Functions::Read],
        run: label,
    },
    Command {
        name: "annotate",
        shape: Shape { places: &["START", "FILE"], valued: &["-o", "--cells", "--entries"], flags: &["--force"] },
        help: help::ANNOTATE,
        needs: &[Functions::Annotate],
        run: annotate,
    },
    Command {
        name: "patch",
        shape: Shape {
            places: &["START", "FILE", "K", "INCOMING", "CURRENT"],
            valued: &["-o", "--cells", "--entries", "--incoming-cells", "--incoming-entries"],
            flags: &["--force"],
        },
        help: help::PATCH,
        needs: &[Functions::Patch],
        run: patch,
    },
    Command {
        name: "sheet",
        shape: Shape { places: &["SHEET"], valued: &[], flags: &[] },
        help: help::SHEET,
        needs: &[Functions::Sheet],
        run: sheet,
    },
    Command {
        name: "blank",
        shape: Shape { places: &["FILE"], valued: &["-o"], flags: &["--force"] },
        help: help::BLANK,
        needs: &[Functions::Read, Functions::Sheet],
        run: blank_sheet,
    },
    Command {
        name: "explain",
        shape: Shape { places: &["N"], valued: &[], flags: &[] },
        help: help::EXPLAIN,
        needs: &[],
        run: explain_number,
    },
];

/// Runs the command that the first argument names.
pub fn run(mut arguments: Vec<OsString>) -> Done {
    if arguments.is_empty() {
        return Err(Failure::Usage("a command is missing".to_string(), help::USAGE));
    }
    let name = arguments.remove(0);
    if name == "--help" || name == "-h" {
        return print(|out| out.write_all(help::OVERALL.as_bytes()));
    }
    let Some(command) = COMMANDS.iter().find(|command| name == command.name) else {
        return Err(Failure::Usage(format!("{} is no command", shown(&name)), help::USAGE));
    };
    let usage = |message: String| Failure::Usage(format!("{}: {message}", command.name), command.help.usage);
    match arguments::parse(&command.shape, arguments).map_err(usage)? {
        Parsed::Help => print(|out| write!(out, "usage: {}\n\n{}", command.help.usage, command.help.text)),
        Parsed::Given(given) => {
            if command.needs.iter().any(|functions| !proved::has(*functions)) {
                let message = format!("built without the proved functions that `{}` needs", command.name);
                return Err(Failure::Error(message));
            }
            (command.run)(&given).map_err(|failure| match failure {
                Failure::Usage(message, _) => usage(message),
                other => other,
            })
        }
    }
}

/// Wrong arguments; the usage line is put in by [`run`].
fn wrong(message: String) -> Failure {
    Failure::Usage(message, "")
}

fn wanted(given: &Given, cells: &str, entries: &str) -> Result<Wanted, Failure> {
    Ok(Wanted { cells: given.number(cells).map_err(wrong)?, entries: given.number(entries).map_err(wrong)? })
}

/// The place for the new sheet.
fn output(given: &Given) -> Result<Output, Failure> {
    let path = given.path("-o").ok_or(wrong("-o is missing".to_string()))?;
    Ok(Output::prepare(path, given.flag("--force"))?)
}

/// A text that was read.
struct Reading {
    input: Input,
    rooms: Rooms,
    answer: ReadAnswer,
}

/// Reads a text, or prints its refusal.
fn reading(input: Input, wanted: Wanted) -> Result<Reading, Failure> {
    let mut rooms = Rooms::new(&input.bytes, wanted);
    let answer = proved::read_file(&input.bytes, &mut rooms.tables());
    if answer.number != 0 {
        return Err(refused(&input, answer.number, answer.place, "", String::new()));
    }
    Ok(Reading { input, rooms, answer })
}

/// Prints a refusal: its number and place on standard output, the rest for people.
fn refused(input: &Input, number: u64, place: u64, which: &str, more: String) -> Failure {
    if let Err(failure) = print(|out| writeln!(out, "refused {number} at {place}{which}")) {
        return failure;
    }
    let refused = Refused { number, place, which, name: &input.name, text: &input.bytes };
    say(&format!("{}{more}", refused.words()));
    Failure::Refused
}

fn list(given: &Given) -> Done {
    let wanted = wanted(given, "--cells", "--entries")?;
    let input = match given.place(0) == Path::new("-") {
        true => read_standard_input()?,
        false => read(given.place(0))?,
    };
    let Reading { input, rooms, answer } = reading(input, wanted)?;
    print(|out| write_listing(out, &input.bytes, &rooms, &answer))
}

fn label(given: &Given) -> Done {
    let Reading { input, answer, .. } = reading(read(given.place(0))?, Wanted::default())?;
    print(|out| {
        for (part, keyword) in answer.texts.chunks(2).zip(HEADER_TEXTS) {
            // No text stands at 0, so this one is missing.
            if part[0] == 0 {
                continue;
            }
            write!(out, "{keyword} ")?;
            out.write_all(input.bytes.get(part[0]..part[1]).unwrap_or(&[]))?;
            out.write_all(b"\n")?;
        }
        Ok(())
    })
}

fn annotate(given: &Given) -> Done {
    let wanted = wanted(given, "--cells", "--entries")?;
    let output = output(given)?;
    let (start, file) = (read(given.place(0))?, read(given.place(1))?);
    let mut rooms = Rooms::new(&file.bytes, wanted);
    let mut sheet = vec![0; start.bytes.len()];
    let answer = proved::annotate(&start.bytes, &file.bytes, &mut rooms.tables(), &mut sheet);
    if answer.number != 0 {
        let more = match answer.number {
            10 => format!("  the starting sheet is {}\n", start.name),
            _ => about(&answer, &file, &rooms, &file, &start),
        };
        return Err(refused(&file, answer.number, answer.place, "", more));
    }
    Ok(output.write(&sheet)?)
}

/// For refusals 12 to 16: the cell and the entry, which stand in `text`; `file` has the divider.
fn about(answer: &ResultAnswer, text: &Input, rooms: &Rooms, file: &Input, start: &Input) -> String {
    if !(12..=16).contains(&answer.number) {
        return String::new();
    }
    let slash = has_slash(&file.bytes);
    let Rooms { cells, entries } = rooms;
    let about = About { text: &text.bytes, slash, cells, entries, start: &start.bytes };
    about.words(answer.number, answer.place)
}

/// Whether a file that can be read has the divider `/`: the answers of annotating and patching do not say.
fn has_slash(file: &[u8]) -> bool {
    let mut rooms = Rooms::new(file, Wanted::default());
    proved::has(Functions::Read) && proved::read_file(file, &mut rooms.tables()).slash == 1
}

fn patch(given: &Given) -> Done {
    let file_wanted = wanted(given, "--cells", "--entries")?;
    let incoming_wanted = wanted(given, "--incoming-cells", "--incoming-entries")?;
    let number = cell_number(given.place(2))?;
    let output = output(given)?;
    let (start, file) = (read(given.place(0))?, read(given.place(1))?);
    let (incoming, mut current) = (read(given.place(3))?, read(given.place(4))?);
    let mut rooms = Rooms::new(&file.bytes, file_wanted);
    let mut incoming_rooms = Rooms::new(&incoming.bytes, incoming_wanted);
    let swap = Swap { start: &start.bytes, file: &file.bytes, number, incoming: &incoming.bytes };
    let answer = proved::patch(swap, &mut current.bytes, &mut rooms.tables(), &mut incoming_rooms.tables());
    if answer.number == 0 {
        return Ok(output.write(&current.bytes)?);
    }
    let (text, rooms, which) = match answer.incoming {
        0 => (&file, &rooms, " in file"),
        _ => (&incoming, &incoming_rooms, " in incoming"),
    };
    let more = match answer.number {
        10 => format!("  the starting sheet is {}\n", start.name),
        11 | 18 => format!("  the starting sheet is {}, the current one {}\n", start.name, current.name),
        _ => about(&answer, text, rooms, &file, &start),
    };
    Err(refused(text, answer.number, answer.place, which, more))
}

fn cell_number(text: &Path) -> Result<u64, Failure> {
    number(text.as_os_str()).ok_or(wrong(bad_number("K", text.as_os_str())))
}

fn sheet(given: &Given) -> Done {
    let input = read(given.place(0))?;
    let answer = proved::check_sheet(&input.bytes);
    if answer.number != 0 {
        return Err(refused(&input, answer.number, answer.place, "", String::new()));
    }
    print(|out| write_sheet(out, &input.bytes, answer.instances, answer.arcs))
}

fn blank_sheet(given: &Given) -> Done {
    let output = output(given)?;
    let Reading { input, rooms, answer } = reading(read(given.place(0))?, Wanted::default())?;
    let sheet = blank(&input.bytes, &rooms, &answer).map_err(|reason| no_sheet(&input, reason))?;
    if proved::check_sheet(&sheet).number != 0 {
        return Err(Failure::Error(format!("{}: the sheet made for it is none; please report this", input.name)));
    }
    Ok(output.write(&sheet)?)
}

fn no_sheet(input: &Input, reason: NoSheet) -> Failure {
    let place = |place: usize| {
        let (line, column) = line_and_column(&input.bytes, place);
        format!("{}:{line}:{column}", input.name)
    };
    Failure::Error(match reason {
        NoSheet::TooLong => format!("{}: its sheet would be longer than 16,777,216 bytes", input.name),
        NoSheet::TwoTypes { first, second } => {
            format!("{}: this cell gives its instance another type than the one at {}", place(second), place(first))
        }
    })
}

fn explain_number(given: &Given) -> Done {
    let text = given.place(0).as_os_str();
    let number = number(text).ok_or(wrong(bad_number("explain", text)))?;
    let refusal = explain::refusal(number).ok_or(wrong(format!("there is no refusal {}", shown(text))))?;
    print(|out| writeln!(out, "{}: {}\n\n{}", refusal.number, refusal.short, refusal.more))
}
