//! The command that `fuzz/run` runs.

use std::process::{Command, Output};

fn compare(arguments: &[&str]) -> Output {
    let mut command = Command::new(env!("CARGO_BIN_EXE_compare"));
    command.args(arguments).output().expect("the command runs")
}

/// As many cases as asked, two of them histories, or as the time allows.
#[test]
fn no_difference() {
    let first = |output: &Output| {
        assert!(output.status.success(), "{output:?}");
        let text = String::from_utf8(output.stdout.clone()).expect("plain text");
        text.lines().next().expect("a line").to_string()
    };
    let output = compare(&["--cases", "100", "--seed", "50"]);
    assert_eq!(first(&output), "100 cases from seed 50 on, no difference");
    let output = compare(&["--seconds", "0"]);
    assert_eq!(first(&output), "0 cases from seed 7 on, no difference");
}

#[test]
fn wrong_arguments() {
    let wrong: [&[&str]; 4] = [
        &["1"],
        &["--seconds"],
        &["--seconds", "-1"],
        &["--hours", "1"],
    ];
    for arguments in wrong {
        let output = compare(arguments);
        assert!(!output.status.success());
        assert_eq!(output.stdout, b"");
        assert!(output.stderr.starts_with(b"usage: "));
    }
}
