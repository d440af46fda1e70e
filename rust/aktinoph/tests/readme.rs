//! What the README shows of this crate, run.

use std::fs;
use std::path::Path;

use aktinoph::{Answer, Refusal};

fn repository() -> &'static Path {
    Path::new(concat!(env!("CARGO_MANIFEST_DIR"), "/../.."))
}

/// The README's lines, with nothing between them but assertions.
#[rustfmt::skip]
fn as_shown(object: Vec<u8>, order: Vec<u8>, laid: &[u8]) -> Result<(), Refusal> {
    let mut image = vec![0xA5; 1024];
    let mut ledger = vec![0; aktinoph::LEDGER_HEAD + image.len()];

    // Err, for example: "relocation 7: its symbol is undefined, not weak, and the order gives it no value"
    aktinoph::fit(&object, &order, &mut image, &mut ledger).check()?;
    assert_eq!(image, laid);
    aktinoph::take_back(&mut image, &mut ledger).check()?;
    assert_eq!(image, vec![0xA5; 1024]);

    let mut calls = aktinoph::Calls::new();
    calls.fit(&object, &order).take_back().take_back();
    let answers = aktinoph::replay(&calls, &mut image, &mut ledger);      // Done, Done, NothingStands
    assert_eq!(answers, [Answer::Done, Answer::Done, Answer::NothingStands]);
    assert_eq!(image, vec![0xA5; 1024]);
    Ok(())
}

#[test]
fn shown_lines_run() {
    let folder = repository().join("objects/clang-switch");
    let read = |name: &str| fs::read(folder.join(name)).expect("a file of the repository");
    let [object, order, laid] = ["clang-switch.o", "order", "image"].map(read);
    assert_eq!(as_shown(object, order, &laid), Ok(()));
}

/// The lines that are run are those of the README, in its order.
#[test]
fn shown_lines_are_these() {
    let readme = fs::read_to_string(repository().join("README.md")).expect("the README");
    let (_, from) = readme.split_once("```rust\n").expect("a Rust example");
    let (shown, _) = from.split_once("```").expect("its end");
    let shown: Vec<&str> = shown.lines().map(str::trim).collect();
    let shown: Vec<&str> = shown.into_iter().filter(|line| !line.is_empty()).collect();
    let own = include_str!("readme.rs").lines().map(str::trim);
    let run: Vec<&str> = own.filter(|line| shown.contains(line)).collect();
    assert_eq!(run, shown);
}
