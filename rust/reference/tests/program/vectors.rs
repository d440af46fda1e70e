//! Every line of the shared vectors, through files: the line, the image after
//! and the ledger after.

use std::collections::BTreeSet;

use crate::bench::{empty, is_too_long, line, on_both, Bench, FIT, TAKE_BACK};
use testing::vectors::{bytes, bytes_after, lines};

/// Runs a call over the bench's files and compares its line. A file that is
/// longer than the program takes gives another.
fn call(bench: &Bench, at: usize, command: &str, inputs: &[&str], expected: &[&str]) {
    let names = if command == "fit" {
        &FIT[1..]
    } else {
        &TAKE_BACK[1..]
    };
    for (name, input) in names.iter().zip(inputs) {
        bench.write(name, &bytes(input));
    }
    let output = bench.run(if command == "fit" { &FIT } else { &TAKE_BACK });
    let is_long = |name: &&&str| bench.read(name).len() > 65_536;
    if let Some(long) = names.iter().find(is_long) {
        is_too_long(&output, long);
    } else {
        let answer = expected.join(" ") + "\n";
        assert_eq!(line(&output), answer, "line {at}");
    }
    assert_eq!(bench.files().len(), 4, "line {at}");
}

#[test]
fn calls() {
    on_both(|program| {
        let bench = Bench::new(program, &empty());
        let (mut numbers, mut reasons) = (BTreeSet::new(), BTreeSet::new());
        for (at, words) in lines("calls.txt") {
            let words: Vec<&str> = words.iter().map(String::as_str).collect();
            let (inputs, expected) = words.split_at(words.len() - 5);
            call(&bench, at, inputs[0], &inputs[1..], &expected[..3]);
            numbers.insert(expected[0].to_string());
            reasons.insert(expected[2].to_string());
            let [image, ledger] = [inputs.len() - 2, inputs.len() - 1].map(|i| bytes(inputs[i]));
            assert!(
                bench.read("image") == bytes_after(expected[3], &image),
                "line {at}"
            );
            assert!(
                bench.read("ledger") == bytes_after(expected[4], &ledger),
                "line {at}"
            );
        }
        assert_eq!(numbers.len(), 17, "each number from 0 to 16");
        assert_eq!(reasons.len(), 8, "each reason from 1 to 7, and 0");
    });
}

#[test]
fn histories() {
    on_both(|program| {
        let bench = Bench::new(program, &empty());
        for (at, words) in lines("histories.txt") {
            let words: Vec<&str> = words.iter().map(String::as_str).collect();
            match words[..] {
                ["start", image, ledger] => {
                    bench.write("image", &bytes(image));
                    bench.write("ledger", &bytes(ledger));
                }
                ["end", image, ledger] => {
                    assert!(bench.read("image") == bytes(image), "line {at}");
                    assert!(bench.read("ledger") == bytes(ledger), "line {at}");
                }
                ["fit", object, order, ref expected @ ..] => {
                    call(&bench, at, "fit", &[object, order], expected);
                }
                ["take-back", ref expected @ ..] => call(&bench, at, "take-back", &[], expected),
                _ => panic!("a line that is no call"),
            }
        }
    });
}
