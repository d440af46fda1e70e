//! What `tools/order` does to files, and says of them: it replaces none without
//! being told to, and gives a line where one cannot be used.

use std::fs;
use std::path::Path;
use std::process::{Command, Output};

use crate::{from_text, root, text_of, tool, Scratch};

/// Enough for the object of `gcc-sections`.
const ALL: [&str; 6] = [
    "--window", "0x1000", "--from", "0x1000", "--value", "outer=5",
];

/// What stands for readelf, where the object is a text.
pub fn with_texts(command: &mut Command) -> &mut Command {
    command.env(
        "READELF",
        root().join("rust/reference/tests/orders/readelf"),
    )
}

/// The order of a text that stands for an object.
pub fn order_of(object: &Path, order: &Path, arguments: &[&str]) -> Output {
    let mut command = tool();
    command.args([object, order]).args(arguments);
    with_texts(&mut command).output().expect("python3 runs")
}

/// A text of the test's own, with a change.
pub fn text_with(case: &str, name: &str, from: &str, to: &str) -> Scratch {
    let text = fs::read_to_string(text_of(case)).expect("the text");
    assert!(text.contains(from), "{from}");
    let file = Scratch::new(name);
    fs::write(&file.0, text.replacen(from, to, 1)).expect("a text");
    file
}

/// A refusal is one message, and no traceback.
pub fn refused_with(done: &Output, message: &str) {
    let said = String::from_utf8_lossy(&done.stderr);
    assert_eq!(done.status.code(), Some(1), "{said}");
    assert!(
        said.starts_with("order: ") && said.contains(message),
        "{said}"
    );
    assert!(done.stdout.is_empty());
}

#[test]
fn keeps_what_exists() {
    let out = Scratch::new("kept");
    fs::write(&out.0, b"something else").expect("a file");
    let text = text_of("gcc-sections");
    let done = from_text(&text, &out.0, &ALL);
    refused_with(&done, "exists, and is replaced only with --force");
    assert_eq!(fs::read(&out.0).expect("the file"), b"something else");
    let done = from_text(&text, &out.0, &[&ALL[..], &["--force"]].concat());
    assert!(done.status.success(), "{done:?}");
    let forced = fs::read(&out.0).expect("the order");
    fs::remove_file(&out.0).expect("it was there");
    assert!(from_text(&text, &out.0, &ALL).status.success());
    assert_eq!(fs::read(&out.0).expect("the order"), forced);
}

/// Not even with `--force` does an order take the place of what it is made from.
#[test]
fn keeps_what_it_reads() {
    let object = text_with("gcc-sections", "own", "outer", "outer");
    let module = text_with("gcc-sections", "module", "outer", "outer");
    let order = Scratch::new("module-order");
    assert!(order_of(&module.0, &order.0, &ALL).status.success());
    let names = [&object.0, &module.0, &order.0];
    let before = names.map(|name| fs::read(name).expect("the file"));
    let [_, module, order] = names.map(|name| name.to_str().expect("plain text"));
    let more = ["--force", "--values-from", module, order];
    for name in names {
        let done = order_of(&object.0, name, &[&ALL[..], &more].concat());
        refused_with(&done, "read by this very call");
        assert_eq!(names.map(|name| fs::read(name).expect("the file")), before);
    }
}

#[test]
fn files_that_cannot_be_used() {
    let text = text_of("gcc-sections");
    let out = Scratch::new("unused");
    let nowhere = out.0.join("inside");
    let missing = format!("{}: ", nowhere.display());
    refused_with(&from_text(&text, &nowhere, &ALL), &missing);
    refused_with(
        &from_text(&text, Path::new("/"), &[&ALL[..], &["--force"]].concat()),
        "/: ",
    );
    refused_with(&order_of(&nowhere, &out.0, &ALL), "inside");
    refused_with(
        &tool()
            .arg("--show")
            .arg(&nowhere)
            .output()
            .expect("python3 runs"),
        &missing,
    );
    let image = [
        &ALL[..],
        &["--image", nowhere.to_str().expect("plain text")],
    ]
    .concat();
    refused_with(&from_text(&text, &out.0, &image), &missing);
    assert!(!out.0.exists(), "no order was written");
}

/// `tools/order` with a standard stream as the shell is told to leave it.
fn redirected(how: &str, arguments: &[&Path]) -> Output {
    let mut command = Command::new("sh");
    command.args(["-c", &format!("exec \"$@\" {how}"), "sh", "python3"]);
    command.arg(root().join("tools/order")).args(arguments);
    command.output().expect("sh runs")
}

#[test]
fn closed_and_full_streams() {
    let order = root().join("objects/gcc-sections/order");
    let shown = [Path::new("--show"), &order];
    refused_with(&redirected(">&-", &shown), "standard output: ");
    refused_with(&redirected("> /dev/full", &shown), "standard output: ");
    let out = Scratch::new("closed");
    let written = [
        Path::new("-"),
        &out.0,
        Path::new("--window"),
        Path::new("0"),
    ];
    refused_with(&redirected("<&-", &written), "standard input: ");
}

/// An order that cannot be written whole, as on a full device: nothing is left of
/// it. What `--force` was told to replace is not removed.
#[test]
fn no_part_of_an_order_is_left() {
    let out = Scratch::new("part");
    let limited = |force: &str| {
        let script = format!("ulimit -f 0; exec \"$@\" {force}");
        let mut command = Command::new("sh");
        command.args(["-c", &script, "sh", "python3"]);
        command.arg(root().join("tools/order"));
        command.args([&text_of("gcc-sections"), &out.0]).args(ALL);
        with_texts(&mut command).output().expect("sh runs")
    };
    let message = format!("{}: ", out.0.display());
    refused_with(&limited(""), &message);
    assert!(!out.0.exists());
    fs::write(&out.0, b"something else").expect("a file");
    refused_with(&limited("--force"), &message);
    assert!(out.0.exists());
}

/// What is allowed and perhaps not meant is said, and the order is written.
fn notes(text: &Path, arguments: &[&str]) -> String {
    let out = Scratch::new("notes");
    let done = from_text(text, &out.0, arguments);
    assert!(done.status.success() && out.0.exists(), "{done:?}");
    String::from_utf8(done.stderr).expect("plain text")
}

#[test]
fn weak_symbols_that_stay_0() {
    let weak = text_with(
        "gcc-sections",
        "weak",
        "GLOBAL DEFAULT  UND outer",
        "WEAK   DEFAULT  UND outer",
    );
    let [window, rest] = [&ALL[..2], &ALL[2..4]];
    let said = notes(&weak.0, &[window, rest].concat());
    assert_eq!(
        said,
        "order: outer (@23) is weak and has no value, so it stays 0\n"
    );
    for silent in [&["--value", "outer=5"], &["--leave", "outer"]] {
        assert_eq!(notes(&weak.0, &[window, rest, silent].concat()), "");
    }
}

/// `.text.first` is at 0x1000 and has 24 bytes, the rest follows it, and no
/// byte of `.bss.room` is laid.
#[test]
fn sections_outside_the_window() {
    let text = text_of("gcc-sections");
    assert_eq!(notes(&text, &ALL), "");
    let image = Scratch::new("image");
    let short = [
        &ALL[..],
        &["--image", image.0.to_str().expect("plain text")],
    ]
    .concat();
    let names = |length: usize| -> Vec<String> {
        fs::write(&image.0, vec![0; length]).expect("an image");
        let said = notes(&text, &short);
        let line = |line: &str| line.split(' ').nth(1).expect("a name").to_string();
        assert!(said
            .lines()
            .all(|line| line.contains("lies outside the window, 0x1000 to 0x")));
        said.lines().map(line).collect()
    };
    assert_eq!(names(0x18).len(), 6);
    assert_eq!(names(0x17)[0], ".text.first");
    assert_eq!(names(0x1000), [""; 0]);
    let low = [&ALL[..], &["--place", ".sdata.odd=0xffc", ".bss.room=0"]].concat();
    let said =
        "order: .sdata.odd (@15), 0xffc to 0x1001, lies outside the window, 0x1000 to 0x101000\n";
    assert_eq!(notes(&text, &low), said);
}

/// The names of an order are shown only of the object that it is for.
#[test]
fn shows_no_order_of_another_object() {
    let order = |case: &str| root().join(format!("objects/{case}/order"));
    let shown = |order: &Path, text: &Path| {
        let mut command = tool();
        command.arg("--show").args([order, text]);
        with_texts(&mut command).output().expect("python3 runs")
    };
    let own = shown(&order("gcc-sections"), &text_of("gcc-sections"));
    let lines = String::from_utf8_lossy(&own.stdout);
    assert!(
        own.status.success() && lines.contains(" .text.first\n"),
        "{own:?}"
    );
    let other = shown(&order("clang-hidden"), &text_of("gcc-sections"));
    refused_with(&other, "section 1 is allocated and has no address");
    let other = shown(&order("gcc-sections"), &text_of("clang-hidden"));
    refused_with(&other, "section 1 has an address and is not allocated");
    let defined = text_with(
        "gcc-sections",
        "defined",
        "DEFAULT  UND outer",
        "DEFAULT  ABS outer",
    );
    let other = shown(&order("gcc-sections"), &defined.0);
    refused_with(&other, "symbol 23 has a value and is not undefined");
}
