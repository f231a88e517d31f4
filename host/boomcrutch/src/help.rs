//! The help texts. `man/boomcrutch.1` says the same at more length.

pub const OVERALL: &str = "\
Reads SDF files (IEEE 1497), annotates timing sheets and patches them.

usage: boomcrutch COMMAND ...

  list [--cells N] [--entries N] FILE|-     what a file says, cell by cell
  label FILE                                the header's texts, one a line: KEYWORD text
  annotate START FILE -o OUT [--cells N] [--entries N]
                                            the starting sheet with the file's values
  patch START FILE K INCOMING CURRENT -o OUT [--cells N] [--entries N]
        [--incoming-cells N] [--incoming-entries N]
                                            the current sheet with cell K of the file re-issued
  sheet SHEET                               a sheet as text
  blank FILE -o START                       a starting sheet for a file, all values empty (not proved)
  explain N                                 what refusal N means

`boomcrutch COMMAND --help` says more about one of them. --force lets -o replace a file.

A refusal prints `refused N at P` and exits 1; wrong arguments and files that cannot be used exit 2.
";

/// The usage line of `boomcrutch` itself.
pub const USAGE: &str = "boomcrutch list|label|annotate|patch|sheet|blank|explain ...   (--help says more)";

/// What a command's help says: its usage line, and the rest.
pub struct Help {
    pub usage: &'static str,
    pub text: &'static str,
}

pub const LIST: Help = Help {
    usage: "boomcrutch list [--cells N] [--entries N] FILE|-",
    text: "\
Prints what an SDF file says: a line with the counts, a line `C TYPE PATH` for each cell (`.` is the top level), and a line
for each of its entries: group (A, I or T), kind, edge, end, edge, end, values. Times are in femtoseconds, minimum:typical:
maximum; `-` is a missing edge or end, `_` a missing number. `-` reads standard input.

  --cells N     room for N cells (without it: as many as the text can need)
  --entries N   room for N entries

Reading is proved. A refused file prints `refused N at P` only.
",
};

pub const LABEL: Help = Help {
    usage: "boomcrutch label FILE",
    text: "\
Prints the texts of an SDF file's header, the bytes between the quotes, one a line: KEYWORD text. The keywords are SDFVERSION,
DESIGN, DATE, VENDOR, PROGRAM, VERSION and PROCESS; those that the file lacks are left out.

Reading, and where the texts stand, is proved.
",
};

pub const ANNOTATE: Help = Help {
    usage: "boomcrutch annotate START FILE -o OUT [--cells N] [--entries N] [--force]",
    text: "\
Annotates the sheet START with the SDF file FILE and writes the sheet OUT. START stays as it is.

  -o OUT        the new sheet; it must not be there yet
  --force       replace OUT if it is there
  --cells N     room for N cells (without it: as many as the text can need)
  --entries N   room for N entries

Annotating is proved. If it is refused, OUT is not written.
",
};

pub const PATCH: Help = Help {
    usage: "boomcrutch patch START FILE K INCOMING CURRENT -o OUT [--cells N] [--entries N] [--incoming-cells N] \
            [--incoming-entries N] [--force]",
    text: "\
Patches the sheet CURRENT, which came of annotating START with FILE: cell number K of FILE (from 1) is swapped for the one
cell in the text INCOMING. OUT is what annotating START with the new file gives.

  -o OUT                 the new sheet; it must not be there yet
  --force                replace OUT if it is there (OUT may be CURRENT)
  --cells N              room for N cells of FILE (without it: as many as the text can need)
  --entries N            room for N entries of FILE
  --incoming-cells N     room for N cells of INCOMING
  --incoming-entries N   room for N entries of INCOMING

Patching is proved. If it is refused, OUT is not written; the refusal's place is `in file` or `in incoming`.
",
};

pub const SHEET: Help = Help {
    usage: "boomcrutch sheet SHEET",
    text: "\
Prints a timing sheet as text: a line with the counts, a line `IN TYPE PATH` for each instance (`.` is the top level), and a
line `AR KIND EDGE END EDGE END VALUES` for each arc: six values for delays, one or two for checks; `_` is an empty value.

The judgement of the sheet (refusal 10) is proved, the printing is not.
",
};

pub const BLANK: Help = Help {
    usage: "boomcrutch blank FILE -o START [--force]",
    text: "\
Makes a starting sheet for an SDF file: every instance and every arc that the file names, all values empty. A cell with `*`
applies to the instances of its type that the file names elsewhere; DEVICE names no arc of its own.

  -o START   the new sheet; it must not be there yet
  --force    replace START if it is there

NOT PROVED: the sheet is made by plain Rust from the proved reading; only its form is judged by the proved function.
",
};

pub const EXPLAIN: Help =
    Help { usage: "boomcrutch explain N", text: "Says what refusal N means; N is from 1 to 18.\n" };
