//! A folder of its own for each test, and the command run in it.
#![allow(dead_code)]

use std::fs;
use std::io::Write;
use std::path::{Path, PathBuf};
use std::process::{Command, Output, Stdio};

pub use proved::Functions;

/// Whether the library has what a test needs; else the test says so and passes.
pub fn has(functions: &[Functions]) -> bool {
    let all = functions.iter().all(|functions| proved::has(*functions));
    if !all {
        eprintln!("left out: the library was linked without {functions:?}");
    }
    all
}

pub struct Desk {
    pub folder: PathBuf,
}

/// What a run of the command left.
#[derive(Debug)]
pub struct Ran {
    pub status: i32,
    pub out: String,
    pub err: String,
}

impl Desk {
    pub fn new(test: &str) -> Desk {
        let folder = Path::new(env!("CARGO_TARGET_TMPDIR")).join(test);
        let _ = fs::remove_dir_all(&folder);
        fs::create_dir_all(&folder).expect("a folder for the test");
        // What cargo names may go through a link; the tests are about other links.
        Desk { folder: folder.canonicalize().expect("the folder's own path") }
    }

    pub fn path(&self, name: &str) -> PathBuf {
        self.folder.join(name)
    }

    pub fn put(&self, name: &str, bytes: impl AsRef<[u8]>) -> &Desk {
        fs::write(self.path(name), bytes).expect("a file for the test");
        self
    }

    pub fn get(&self, name: &str) -> Vec<u8> {
        fs::read(self.path(name)).unwrap_or_else(|error| panic!("{name}: {error}"))
    }

    /// The names in the folder.
    pub fn names(&self) -> Vec<String> {
        let entries = fs::read_dir(&self.folder).expect("the test's folder");
        let mut names: Vec<String> =
            entries.map(|entry| entry.unwrap().file_name().into_string().expect("a plain name")).collect();
        names.sort();
        names
    }

    /// The command in this folder, its arguments parted by blanks.
    pub fn command(&self, arguments: &str) -> Command {
        let mut command = Command::new(env!("CARGO_BIN_EXE_boomcrutch"));
        command.current_dir(&self.folder).args(arguments.split_whitespace());
        command
    }

    pub fn run(&self, arguments: &str) -> Ran {
        ran(self.command(arguments).stdin(Stdio::null()).output().expect("the command runs"))
    }

    pub fn run_with_input(&self, arguments: &str, input: &[u8]) -> Ran {
        let mut command = self.command(arguments);
        let mut child = command.stdin(Stdio::piped()).stdout(Stdio::piped()).stderr(Stdio::piped()).spawn().unwrap();
        child.stdin.take().expect("its input").write_all(input).expect("it reads all");
        ran(child.wait_with_output().expect("it ends"))
    }

    /// Runs what must succeed and say nothing.
    pub fn must(&self, arguments: &str) -> &Desk {
        let ran = self.run(arguments);
        assert_eq!((ran.status, ran.out.as_str(), ran.err.as_str()), (0, "", ""), "{arguments}");
        self
    }

    /// Runs what must be refused in these words.
    pub fn refused(&self, arguments: &str, line: &str) -> String {
        let ran = self.run(arguments);
        assert_eq!((ran.status, ran.out.as_str()), (1, format!("{line}\n").as_str()), "{arguments}: {}", ran.err);
        ran.err
    }

    /// Runs what must be an error with this in its message, and touch nothing.
    pub fn error(&self, arguments: &str, message: &str) {
        let before = self.names();
        let ran = self.run(arguments);
        assert_eq!((ran.status, ran.out.as_str()), (2, ""), "{arguments}: {}", ran.err);
        assert!(ran.err.contains(message), "{arguments}: {} has no {message}", ran.err);
        assert_eq!(self.names(), before, "{arguments}");
    }
}

pub fn ran(output: Output) -> Ran {
    Ran {
        status: output.status.code().unwrap_or(-1),
        out: String::from_utf8_lossy(&output.stdout).into_owned(),
        err: String::from_utf8_lossy(&output.stderr).into_owned(),
    }
}

/// A file with these cells.
pub fn file(cells: &str) -> String {
    format!("(DELAYFILE(SDFVERSION\"4.0\"){cells})")
}

/// A file of so many cells in no sheet order, each with a path delay and a check.
pub fn large_file(cells: usize) -> String {
    let cell = |number: usize| {
        format!(
            "(CELL (CELLTYPE \"BUF\") (INSTANCE top.u{number})\n (DELAY (ABSOLUTE (IOPATH a y (0.{number:06}) (1))))\n \
             (TIMINGCHECK (SETUP d (posedge c) (0.1))))\n"
        )
    };
    file(&(0..cells).map(cell).collect::<String>())
}

/// The examples' folder.
pub fn examples() -> PathBuf {
    Path::new(env!("CARGO_MANIFEST_DIR")).join("../examples").canonicalize().expect("examples")
}

pub fn example(name: &str) -> Vec<u8> {
    fs::read(examples().join(name)).unwrap_or_else(|error| panic!("{name}: {error}"))
}
