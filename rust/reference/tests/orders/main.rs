//! `tools/order` on what readelf says of shipped objects: it writes the shipped
//! orders, and refuses what cannot be right. The texts in this folder are the output
//! of `readelf -SsW` (clang-hidden, rv64-clang-hidden: llvm-readelf). It needs python3. With readelf,
//! all objects: `cargo test --test orders -- --ignored`.

mod files;
mod modules;

use std::collections::BTreeMap;
use std::fs::{self, File};
use std::path::{Path, PathBuf};
use std::process::{Command, Output, Stdio};
use std::sync::atomic::{AtomicU32, Ordering};

use reference::numbers::Address;
use reference::order::{Order, Placement};
use reference::Class;
use testing::build;

const TEXTS: [&str; 6] = [
    "gcc-sections",
    "clang-hidden",
    "nothing",
    "rv64-gcc-sections",
    "rv64-clang-hidden",
    "rv64-nothing",
];

fn root() -> PathBuf {
    Path::new(env!("CARGO_MANIFEST_DIR")).join("../..")
}

fn text_of(case: &str) -> PathBuf {
    root().join(format!("rust/reference/tests/orders/{case}.txt"))
}

/// A file of the test's own, which goes at the end.
struct Scratch(PathBuf);

impl Scratch {
    fn new(name: &str) -> Scratch {
        static COUNT: AtomicU32 = AtomicU32::new(0);
        let number = COUNT.fetch_add(1, Ordering::Relaxed);
        let name = format!("orders-{}-{number}-{name}", std::process::id());
        Scratch(std::env::temp_dir().join(name))
    }
}

impl Drop for Scratch {
    fn drop(&mut self) {
        let _ = fs::remove_file(&self.0);
    }
}

/// `objects/cases.txt`: for each case the arguments that make its order.
fn cases() -> BTreeMap<String, Vec<String>> {
    let text = fs::read_to_string(root().join("objects/cases.txt")).expect("cases.txt");
    let mut cases: BTreeMap<String, Vec<String>> = BTreeMap::new();
    let mut case = String::new();
    for line in text.lines() {
        let words: Vec<&str> = line
            .split('#')
            .next()
            .unwrap_or("")
            .split_whitespace()
            .collect();
        let (flag, from, to) = match words.first() {
            Some(&"case") => {
                case = words[1].to_string();
                continue;
            }
            Some(&"window") => ("--window", 1, 2),
            Some(&"place") => ("--place", 1, words.len()),
            Some(&"extern") => ("--value", 1, words.len()),
            _ => continue,
        };
        let arguments = cases.entry(case.clone()).or_default();
        arguments.push(flag.to_string());
        arguments.extend(words[from..to].iter().map(ToString::to_string));
    }
    // `nothing` names a symbol that no relocation uses.
    let nothing = cases.get_mut("nothing").expect("the case `nothing`");
    nothing.extend(["--leave", "unused"].map(String::from));
    cases
}

fn order<A: AsRef<std::ffi::OsStr>>(
    object: &Path,
    input: Stdio,
    out: &Path,
    arguments: &[A],
) -> Output {
    tool()
        .args([object, out])
        .args(arguments)
        .stdin(input)
        .output()
        .expect("python3 runs")
}

fn tool() -> Command {
    let mut command = Command::new("python3");
    command.arg(root().join("tools/order"));
    command
}

fn show(order: &Path) -> Output {
    let mut command = tool();
    command.arg("--show").arg(order);
    command.output().expect("python3 runs")
}

fn from_text<A: AsRef<std::ffi::OsStr>>(text: &Path, out: &Path, arguments: &[A]) -> Output {
    let input = File::open(text).expect("the text").into();
    order(Path::new("-"), input, out, arguments)
}

/// The order written is the shipped one. Otherwise, what is wrong.
fn same_order(case: &str, done: &Output, out: &Path) -> Result<(), String> {
    if !done.status.success() {
        return Err(format!("{case}: {}", String::from_utf8_lossy(&done.stderr)));
    }
    let shipped = fs::read(root().join(format!("objects/{case}/order"))).expect("the order");
    match fs::read(out) {
        Ok(written) if written == shipped => Ok(()),
        _ => Err(format!("{case}: another order")),
    }
}

#[test]
fn writes_the_shipped_orders_from_texts() {
    let cases = cases();
    for case in TEXTS {
        let out = Scratch::new(case);
        let done = from_text(&text_of(case), &out.0, &cases[case]);
        assert_eq!(same_order(case, &done, &out.0), Ok(()));
    }
}

#[test]
#[ignore = "needs readelf, and takes half a minute"]
fn writes_every_shipped_order() {
    let mut faults = Vec::new();
    for (case, arguments) in cases() {
        let out = Scratch::new(&format!("all-{case}"));
        let object = root().join(format!("objects/{case}/{case}.o"));
        let done = order(&object, Stdio::null(), &out.0, &arguments);
        faults.extend(same_order(&case, &done, &out.0).err());
    }
    assert!(faults.is_empty(), "{}", faults.join("\n"));
}

#[test]
fn places_one_after_another() {
    let out = Scratch::new("rest");
    let arguments = "--window 0x20000000 --place .sdata.odd=0x20000100 --from 0x20000001 --nobits 0x30000001 --value outer=5";
    let arguments: Vec<&str> = arguments.split(' ').collect();
    let done = from_text(&text_of("gcc-sections"), &out.0, &arguments);
    assert!(done.status.success(), "{done:?}");
    let shown = show(&out.0);
    let expected = "window base 0x20000000\nplacements 11\n  \
        row 1: 0x20000002\n  row 2: 0x20000002\n  row 3: 0x30000001\n  row 4: 0x20000002\n  \
        row 6: 0x2000001a\n  row 8: 0x2000004e\n  row 10: 0x20000080\n  row 12: 0x30000004\n  \
        row 13: 0x20000084\n  row 14: 0x20000088\n  row 15: 0x20000100\n\
        outside values 1\n  symbol 23: 0x00000005\n";
    assert_eq!(String::from_utf8_lossy(&shown.stdout), expected);
}

/// The same in class 2, above 2^32.
#[test]
fn places_one_after_another_in_class_2() {
    let out = Scratch::new("rest-64");
    let arguments = "--window 0xffffffffffff0000 --place .sdata.odd=0xffffffffffff0100 --from 0xffffffffffff0001 --nobits 0x300000001 --value outer=0xfedcba9876543210";
    let arguments: Vec<&str> = arguments.split(' ').collect();
    let text = text_of("rv64-gcc-sections");
    let done = from_text(&text, &out.0, &arguments);
    assert!(done.status.success(), "{done:?}");
    let bytes = fs::read(&out.0).expect("the order");
    let order = Order::read(&bytes, Class::Elf64).expect("an order of class 2");
    assert_eq!(order.base, Address(0xFFFF_FFFF_FFFF_0000));
    let (nobits, loaded): (Vec<_>, Vec<_>) = order
        .placements
        .iter()
        .partition(|placement| placement.address.0 < 1 << 34);
    assert!(!nobits.is_empty() && loaded.len() > nobits.len());
    let above = |placement: &&Placement| placement.address.0 > 0xFFFF_FFFF_FFFF_0000;
    assert!(loaded.iter().all(above), "{order:?}");
    let value = order.external_values.iter().map(|external| external.value);
    assert_eq!(value.collect::<Vec<_>>(), [0xFEDC_BA98_7654_3210]);
}

/// Arguments after `--window 0`, and a part of the message.
const REFUSED: [(&str, &str); 12] = [
    ("--from 0", "no value for the undefined\n  outer (@23)"),
    (
        "--place .text=0 --value outer=0",
        "no address for\n  .data (@2, size 0, alignment 1)\n",
    ),
    (
        "--from 0 --value outer=0 --place .none=0",
        ".none: no such section",
    ),
    (
        "--from 0 --value outer=0 --place .symtab=0",
        ".symtab: not allocated",
    ),
    ("--from 0 --value outer=0 none=0", "none: no such symbol"),
    ("--from 0 --value outer=0 first=0", "first: not undefined"),
    ("--from 0 --value outer=0 @0=0", "@0: not undefined"),
    ("--from 0 --value outer=0 @23=0", "@23: given twice"),
    (
        "--from 0 --value outer=0 --leave third",
        "third: not undefined",
    ),
    (
        "--from 0 --value outer=0x100000000",
        "0x100000000: not a number",
    ),
    ("--from 0 --value outer", "outer: not a number"),
    (
        "--from 0xffffffff --value outer=0",
        "above 128 placements, 8,192 values or the address",
    ),
];

fn refused(text: &Path, arguments: &str, message: &str) {
    let out = Scratch::new("refused");
    let arguments: Vec<&str> = ["--window", "0"]
        .into_iter()
        .chain(arguments.split(' '))
        .collect();
    let done = from_text(text, &out.0, &arguments);
    let said = String::from_utf8_lossy(&done.stderr);
    assert_eq!(done.status.code(), Some(1), "{arguments:?}: {said}");
    assert!(said.contains(message), "{arguments:?}: {said}");
    assert!(!out.0.exists(), "{arguments:?}: an order was written");
}

/// The same of an object of class 2.
const REFUSED_64: [(&str, &str); 3] = [
    ("--from 0", "no value for the undefined\n  outer (@"),
    (
        "--from 0 --value outer=0x10000000000000000",
        "0x10000000000000000: not a number",
    ),
    (
        "--from 0xffffffffffffffff --value outer=0",
        "above 128 placements, 8,192 values or the address",
    ),
];

#[test]
fn refuses_what_cannot_be_right() {
    for (arguments, message) in REFUSED {
        refused(&text_of("gcc-sections"), arguments, message);
    }
    for (arguments, message) in REFUSED_64 {
        refused(&text_of("rv64-gcc-sections"), arguments, message);
    }
    // two sections of one name, a line that is lost, a text that is none
    let sections = fs::read_to_string(text_of("gcc-sections")).expect("the text");
    let twice = sections.replace(".text.second ", ".text.first  ");
    let lost = sections.replacen("[ 5]", "", 1);
    for (text, message) in [
        (&twice, ".text.first: several have this name: @4 @6"),
        (&lost, "not one ELF32 object"),
        (&String::new(), "not one ELF32 object"),
    ] {
        let file = Scratch::new("text");
        fs::write(&file.0, text).expect("a text");
        refused(
            &file.0,
            "--from 0 --value outer=0 --place .text.first=0",
            message,
        );
    }
}

#[test]
fn shows_no_malformed_order() {
    let shipped = fs::read(root().join("objects/gcc-sections/order")).expect("the order");
    let longer = [&shipped[..], &[0; 4]].concat();
    let mut falling = shipped.clone();
    falling.swap(12, 20);
    for bytes in [&shipped[..shipped.len() - 1], &longer, &falling, &[]] {
        let file = Scratch::new("malformed");
        fs::write(&file.0, bytes).expect("an order");
        let done = show(&file.0);
        assert_eq!(done.status.code(), Some(1));
        assert!(done.stdout.is_empty());
    }
}

/// An order with as many entries as it may have is shown, and one with an entry
/// more is malformed.
#[test]
fn shows_the_longest_order() {
    let entries = |count: u32| -> Vec<(u32, u64)> { (1..=count).map(|at| (at, 9)).collect() };
    for class in Class::ALL {
        for (placements, values, fits) in
            [(128, 8_192, true), (129, 8_192, false), (128, 8_193, false)]
        {
            let file = Scratch::new("longest");
            let bytes = build::order(class, 0, &entries(placements), &entries(values));
            fs::write(&file.0, bytes).expect("an order");
            let shown = show(&file.0);
            assert_eq!(shown.status.success(), fits, "{placements}, {values}");
            let lines = String::from_utf8_lossy(&shown.stdout).lines().count();
            assert_eq!(lines, if fits { 3 + 128 + 8_192 } else { 0 });
        }
    }
}
