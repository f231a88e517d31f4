//! The header and the static library, used from C: `from_c.c` is compiled, linked and run.

use std::path::Path;
use std::process::Command;

use proved::Functions;

#[test]
fn from_c() {
    let here = Path::new(env!("CARGO_MANIFEST_DIR"));
    let program = Path::new(env!("CARGO_TARGET_TMPDIR")).join("from_c");
    let mut compiler = Command::new("cc");
    compiler.args(["-std=c11", "-Wall", "-Wextra", "-Werror", "-pedantic", "-I"]).arg(here.join("../include"));
    for (functions, name) in [
        (Functions::Read, "-DHAS_READ"),
        (Functions::Cell, "-DHAS_CELL"),
        (Functions::Sheet, "-DHAS_SHEET"),
        (Functions::Annotate, "-DHAS_ANNOTATE"),
        (Functions::Patch, "-DHAS_PATCH"),
    ] {
        if proved::has(functions) {
            compiler.arg(name);
        }
    }
    compiler.arg(here.join("tests/from_c.c")).arg(env!("BOOMCRUTCH_ARCHIVE")).arg("-o").arg(&program);
    let Ok(compiled) = compiler.output() else {
        return eprintln!("left out: there is no C compiler here");
    };
    assert!(compiled.status.success(), "{}", String::from_utf8_lossy(&compiled.stderr));
    let ran = Command::new(&program).output().expect("it runs");
    assert!(ran.status.success(), "{}", String::from_utf8_lossy(&ran.stdout));
}

/// The header declares each function that this crate does.
#[test]
fn header_is_complete() {
    let text = |name: &str| std::fs::read_to_string(Path::new(env!("CARGO_MANIFEST_DIR")).join(name)).unwrap();
    let (header, exports) = (text("../include/boomcrutch.h"), text("src/exports.rs"));
    let declared: Vec<&str> =
        exports.split("fn boomcrutch_").skip(1).map(|rest| rest.split('(').next().unwrap()).collect();
    assert_eq!(declared.len(), 6);
    for name in declared {
        assert!(header.contains(&format!(" boomcrutch_{name}(")), "{name}");
    }
}
