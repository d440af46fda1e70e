//! A program whose lines are compared: what it is run on and what it writes are
//! `stdin` and `stdout` of its crate, which the gate holds it to. Here they are
//! held against the cases of a test.

use std::fmt::{Debug, Display};
use std::fs;
use std::path::{Path, PathBuf};

/// A program, by the name of its crate.
pub struct Compared(pub &'static str);

impl Compared {
    fn path(&self, file: &str) -> PathBuf {
        Path::new(env!("CARGO_MANIFEST_DIR"))
            .join("../../crates")
            .join(self.0)
            .join(file)
    }

    fn read(&self, file: &str) -> Vec<u8> {
        fs::read(self.path(file)).expect("the file is in the repository")
    }

    /// Panics unless the program is run on this input.
    pub fn assert_input(&self, input: &[u8]) {
        assert!(input == self.read("stdin"), "another stdin");
    }

    /// Panics unless the program writes these lines, each given after the name
    /// of its case, and nothing else.
    pub fn assert_lines<N: Display>(&self, lines: impl IntoIterator<Item = (N, String)>) {
        let text = String::from_utf8(self.read("stdout")).expect("text");
        let mut written = text.lines();
        for (name, line) in lines {
            assert_eq!(Some(line.as_str()), written.next(), "{name}");
        }
        assert_eq!(None, written.next(), "more lines");
        assert!(text.ends_with('\n'));
    }

    /// Writes the input anew.
    pub fn write_input(&self, input: &[u8]) {
        fs::write(self.path("stdin"), input).expect("stdin can be written");
    }

    /// Writes the lines anew.
    pub fn write_lines(&self, lines: impl IntoIterator<Item = String>) {
        let text: String = lines.into_iter().map(|line| line + "\n").collect();
        fs::write(self.path("stdout"), text).expect("stdout can be written");
    }
}

/// Panics unless every answer that is stated is the one given. Each comes after
/// the name of its case: what is given, and what is stated, if anything is.
pub fn assert_stated<N: Display, A: PartialEq + Debug>(
    answers: impl IntoIterator<Item = (N, A, Option<A>)>,
) {
    let differs = |(name, given, stated): (N, A, Option<A>)| {
        let stated = stated.filter(|stated| *stated != given)?;
        Some(format!("{name}: {given:?}, stated {stated:?}"))
    };
    let wrong: Vec<String> = answers.into_iter().filter_map(differs).collect();
    assert!(wrong.is_empty(), "{}", wrong.join("\n"));
}
