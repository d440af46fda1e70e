//! The program that times the rows and makes single calls.

use std::process::{Command, Output};

use bench::inputs::rows;

fn run(arguments: &[&str]) -> Output {
    Command::new(env!("CARGO_BIN_EXE_bench"))
        .args(arguments)
        .output()
        .expect("the program starts")
}

#[test]
fn names_the_rows() {
    let output = run(&["rows"]);
    assert!(output.status.success());
    let names: String = rows().iter().map(|row| row.name.clone() + "\n").collect();
    assert_eq!(String::from_utf8(output.stdout), Ok(names));
}

#[test]
fn makes_one_call() {
    for fitter in ["library", "comparison"] {
        for row in ["mixed-64", "falling-4096", "take-back", "rv64-mixed-64"] {
            let output = run(&["count", fitter, row]);
            assert!(output.status.success(), "{fitter}, {row}");
            assert_eq!(output.stdout, b"");
        }
    }
}

#[test]
fn wrong_arguments() {
    let no_row = "there is no row mixed-65";
    for (arguments, message) in [
        (&["count", "library"][..], "usage: bench"),
        (&["count", "reference", "mixed-64"], "usage: bench"),
        (&["rows", "mixed-64"], "usage: bench"),
        (&["count", "library", "mixed-65"], no_row),
    ] {
        let output = run(arguments);
        assert!(!output.status.success(), "{arguments:?}");
        assert_eq!(output.stdout, b"");
        let text = String::from_utf8(output.stderr).expect("text");
        assert!(text.starts_with(message), "{text}");
    }
}

/// Times that are worth nothing are not taken.
#[test]
fn no_times_with_debug_assertions() {
    if cfg!(debug_assertions) {
        let output = run(&["mixed-64"]);
        assert!(!output.status.success());
        assert!(output.stderr.starts_with(b"built with debug assertions"));
    }
}
