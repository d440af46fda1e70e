//! The program that compares for as long as asked.

use std::process::{Command, Output};

fn run(arguments: &[&str]) -> Output {
    Command::new(env!("CARGO_BIN_EXE_compare"))
        .args(arguments)
        .output()
        .expect("the program starts")
}

#[test]
fn counts_its_cases() {
    let output = run(&["--seed", "7", "--cases", "120"]);
    assert!(output.status.success());
    let text = String::from_utf8(output.stdout).expect("plain text");
    assert!(
        text.starts_with("120 cases from seed 7 on, no difference\n"),
        "{text}"
    );
    // Seeds 50 and 100 are histories, 51 and 101 lists.
    let line = |start: &str| {
        text.lines()
            .find(|line| line.starts_with(start))
            .expect("a line")
            .to_string()
    };
    let counts = |start: &str| -> Vec<u64> {
        let line = line(start);
        let list = line.split(['[', ']']).nth(1).expect("a list");
        list.split(", ")
            .map(|count| count.parse::<u64>().expect("a count"))
            .collect()
    };
    let sum = |start: &str| counts(start).iter().sum::<u64>();
    assert_eq!(sum("fits") + sum("takings-back"), 116);
    assert!(sum("in histories") > 0);
    assert!(line("in lists").ends_with(", 1 run, 1 not"));
    let unresolved = ["fits", "in histories", "in lists"].map(|start| counts(start)[10]);
    assert_eq!(sum("10 by reason"), unresolved.iter().sum());
}

#[test]
fn no_seconds() {
    let output = run(&["--seconds", "0"]);
    assert!(output.stdout.starts_with(b"0 cases"));
}

#[test]
fn wrong_arguments() {
    for arguments in [&["--seed"][..], &["--seed", "x"], &["--other", "1"]] {
        let output = run(arguments);
        assert!(!output.status.success());
        assert_eq!(output.stdout, b"");
        assert!(output.stderr.starts_with(b"usage: compare"));
    }
}
