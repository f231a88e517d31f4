//! The comparison as the gate runs it.

use std::process::Command;

fn compare(arguments: &[&str]) -> (Option<i32>, String) {
    let output = Command::new(env!("CARGO_BIN_EXE_compare")).args(arguments).output().expect("it runs");
    (output.status.code(), String::from_utf8_lossy(&output.stdout).into_owned())
}

#[test]
fn no_difference() {
    let (status, out) = compare(&["5000", "--from", "1000000"]);
    assert_eq!(status, Some(0), "{out}");
    assert!(out.contains("5000 cases from seed 1000000"), "{out}");
}

#[test]
fn wrong_arguments() {
    for arguments in [vec![], vec!["x"], vec!["-1"], vec!["1", "--from"], vec!["1", "--from", "x"], vec!["1", "2"]] {
        assert_eq!(compare(&arguments), (Some(2), String::new()), "{arguments:?}");
    }
}
