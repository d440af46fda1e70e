//! The shared vectors: `vectors/README.md` has their format.

use std::fs;
use std::io;
use std::path::Path;

use reference::Answer;

/// A line's number and its words.
pub type Line = (usize, Vec<String>);

/// The lines of a vector file with their numbers, split at spaces.
pub fn lines(name: &str) -> Vec<Line> {
    read_lines("../../vectors", name).expect("the vectors are in the repository")
}

/// The same of a file that is shared beside the repository, where it is there.
/// There the names say for which tickets a file is.
pub fn shared_lines(name: &str) -> Option<Vec<Line>> {
    read_lines("../../../shared/vectors", name).ok()
}

fn read_lines(folder: &str, name: &str) -> io::Result<Vec<Line>> {
    let path = Path::new(env!("CARGO_MANIFEST_DIR"))
        .join(folder)
        .join(name);
    let text = fs::read_to_string(path)?;
    let split = |line: &str| line.split(' ').map(str::to_string).collect();
    let numbered = text.lines().enumerate();
    Ok(numbered.map(|(at, line)| (at + 1, split(line))).collect())
}

/// "Bytes are in hexadecimal, `-` is no byte"
pub fn bytes(word: &str) -> Vec<u8> {
    if word == "-" {
        return Vec::new();
    }
    assert!(word.len().is_multiple_of(2), "whole bytes");
    let digits: Vec<u8> = word.bytes().map(digit).collect();
    digits.chunks(2).map(|two| two[0] * 16 + two[1]).collect()
}

fn digit(character: u8) -> u8 {
    match character {
        b'0'..=b'9' => character - b'0',
        b'a'..=b'f' => character - b'a' + 10,
        _ => panic!("not a hexadecimal digit: {character}"),
    }
}

/// "`=` means as before the call"
pub fn bytes_after(word: &str, before: &[u8]) -> Vec<u8> {
    if word == "=" {
        before.to_vec()
    } else {
        bytes(word)
    }
}

/// "`.. NUMBER PLACE REASON ..`"
pub fn answer(words: [&str; 3]) -> Answer {
    let [number, place, reason] = words.map(number);
    Answer {
        number,
        place,
        reason,
    }
}

pub fn number(word: &str) -> u32 {
    word.parse().expect("a number")
}
