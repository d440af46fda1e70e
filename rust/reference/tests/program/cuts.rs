//! A program that ends, or whose calls of the system fail, at any moment.

use std::fs;
use std::os::unix::fs::MetadataExt;
use std::path::{Path, PathBuf};
use std::process::{Command, Output};
use std::sync::OnceLock;

use crate::bench::{good, line, on_both, Bench, Program, FIT, TAKE_BACK};

/// The library that is preloaded. It is compiled once.
fn preload() -> &'static Path {
    static LIBRARY: OnceLock<PathBuf> = OnceLock::new();
    LIBRARY.get_or_init(|| {
        let library = Path::new(env!("CARGO_TARGET_TMPDIR")).join("libpreload.so");
        let source = Path::new(env!("CARGO_MANIFEST_DIR")).join("tests/program/preload/calls.rs");
        let mut compiler = Command::new(std::env::var_os("RUSTC").unwrap_or("rustc".into()));
        compiler.args(["--edition=2021", "--crate-type=cdylib", "-O", "-o"]);
        compiler.arg(&library).arg(source);
        assert!(compiler.status().expect("the compiler starts").success());
        library
    })
}

/// Runs a call that ends or fails at its `at`-th call of the system. `None` if
/// there was no such call, and so nothing was disturbed.
fn disturbed(bench: &Bench, arguments: &[&str], act: &str, call: &str, at: u32) -> Option<Output> {
    disturbed_with(bench, arguments, act, (call, at), [])
}

/// The same with more variables for the preloaded library.
pub fn disturbed_with<const N: usize>(
    bench: &Bench,
    arguments: &[&str],
    act: &str,
    (call, at): (&str, u32),
    more: [(&str, &str); N],
) -> Option<Output> {
    let mut command = bench.command(arguments);
    command.env("LD_PRELOAD", preload()).envs(more);
    command.env("PRELOAD_ACT", act).env("PRELOAD_CALL", call);
    command.env("PRELOAD_AT", at.to_string());
    let output = command.output().expect("the program starts");
    let has_acted = fs::remove_file(bench.path("acted")).is_ok();
    has_acted.then_some(output)
}

/// The image and the ledger.
pub type Pair = (Vec<u8>, Vec<u8>);

pub fn pair(bench: &Bench) -> Pair {
    (bench.read("image"), bench.read("ledger"))
}

/// The files of a fit, with this image and ledger.
pub fn bench_with(program: Program, (image, ledger): &Pair) -> Bench {
    let bench = Bench::new(program, &good());
    bench.write("image", image);
    bench.write("ledger", ledger);
    bench
}

/// The files before a fit, and after it.
pub fn before_and_after() -> (Pair, Pair) {
    let fit = good();
    let (_, image, ledger) = fit.run();
    ((fit.image, fit.journal), (image, ledger))
}

/// Ends a call at each call of the system in its turn. The files are then in
/// one of three states, which come in the order of the renames, and a
/// taking-back repairs them. In the state `bare` no fit stands.
fn ended_at_every_call(program: Program, arguments: &[&str], states: [&Pair; 3], bare: usize) {
    let (old, _) = before_and_after();
    let mut seen = Vec::new();
    for at in 1.. {
        let bench = bench_with(program, states[0]);
        let Some(output) = disturbed(&bench, arguments, "end", "any", at) else {
            break;
        };
        assert_eq!(output.status.code(), Some(99));
        let state = states.iter().position(|state| **state == pair(&bench));
        let state = state.expect("each file is old or new, and the right one is new first");
        let said: &[&[u8]] = if state == 2 {
            &[b"", b"0 0 0\n"]
        } else {
            &[b""]
        };
        assert!(said.contains(&&output.stdout[..]), "only what is done");
        seen.push(state);
        let expected = if state == bare { "16 0 0\n" } else { "0 0 0\n" };
        assert_eq!(line(&bench.take_back()), expected);
        assert_eq!(pair(&bench), old);
    }
    assert!(seen.is_sorted() && [0, 1, 2].iter().all(|state| seen.contains(state)));
}

/// "a cut between the two leaves something that a taking-back repairs"
#[test]
fn ended_at_every_call_of_either() {
    on_both(|program| {
        let (old, new) = before_and_after();
        let cut = (old.0.clone(), new.1.clone());
        ended_at_every_call(program, &FIT, [&old, &cut, &new], 0);
        ended_at_every_call(program, &TAKE_BACK, [&new, &cut, &old], 2);
    });
}

/// The folder is brought onto its device after each rename, and the second
/// comes after that. Before it the new files themselves are.
#[test]
fn folder_synced_after_each_rename() {
    on_both(|program| {
        let (old, new) = before_and_after();
        let cut = (old.0.clone(), new.1.clone());
        let calls = [
            (&FIT[..], [&old, &cut, &new]),
            (&TAKE_BACK[..], [&new, &cut, &old]),
        ];
        for (arguments, states) in calls {
            for (at, state) in (2..).zip(states) {
                let bench = bench_with(program, states[0]);
                let output = disturbed(&bench, arguments, "end", "fsync", at);
                assert_eq!(output.expect("a sync").status.code(), Some(99));
                assert_eq!(pair(&bench), *state);
            }
        }
    });
}

/// Until a new file has the mode of the one that it replaces, nobody else can
/// open it.
#[test]
fn new_files_are_private() {
    on_both(|program| {
        let (old, new) = before_and_after();
        for (arguments, before) in [(&FIT[..], &old), (&TAKE_BACK[..], &new)] {
            let bench = bench_with(program, before);
            disturbed(&bench, arguments, "end", "fchmod", 1).expect("a mode");
            let names = ["object", "order", "image", "ledger"];
            let is_new = |path: &PathBuf| !names.iter().any(|name| path.ends_with(name));
            let paths = bench.files().into_iter().map(|(path, _)| path);
            let made: Vec<PathBuf> = paths.filter(is_new).collect();
            assert_eq!(made.len(), 1);
            let mode = fs::metadata(&made[0]).expect("the new file").mode();
            assert_eq!(mode & 0o7777, 0o600);
        }
    });
}

/// What the message is about: the last part of the path before ": ".
pub fn named(output: &Output) -> String {
    let message = String::from_utf8(output.stderr.clone()).expect("plain text");
    let (path, _) = message.split_once(": ").expect("a name and what is wrong");
    path.rsplit('/').next().expect("a name").to_string()
}

/// Fails each of the calls of this name in its turn, until there are no more.
/// Nothing has changed and there is a message, or the call is done. Only where
/// the line itself cannot be written are the files new and the output empty.
/// Gives what the messages name, without repeats.
fn failed_in_turn(
    program: Program,
    arguments: &[&str],
    call: &str,
    old: &Pair,
    new: &Pair,
) -> Vec<String> {
    let mut names = Vec::new();
    let mut failed = 0;
    loop {
        let bench = bench_with(program, old);
        let Some(output) = disturbed(&bench, arguments, "fail", call, failed + 1) else {
            break;
        };
        failed += 1;
        assert_eq!(bench.files().len(), 4, "no file is left over");
        if output.stderr.is_empty() {
            assert_eq!(line(&output), "0 0 0\n");
            assert_eq!(pair(&bench), *new);
            continue;
        }
        let name = named(&output);
        bench.says(&output, &format!("{name}: "));
        let state = if name == "standard output" { new } else { old };
        assert_eq!(pair(&bench), *state, "{call} {failed}: {name}");
        names.push(name);
    }
    assert!(failed > 0, "{call} has failed");
    names.dedup();
    names
}

/// Each call of the system that can fail, and what the messages name: the files
/// in the order in which they are read, read once more for their old bytes,
/// written and renamed, and their folders in that order. Where a file is closed or
/// given to its owner, a failure changes nothing.
#[test]
fn failed_at_every_call() {
    let fit: [(&str, &[&str]); 7] = [
        ("read", &["object", "order", "image", "ledger", "image"]),
        ("fchown", &[]),
        ("fchmod", &["ledger", "image"]),
        ("write", &["ledger", "image", "standard output"]),
        ("fsync", &["ledger", "image", "ledger", "image"]),
        ("close", &[]),
        ("rename", &["ledger", "image"]),
    ];
    let take_back: [(&str, &[&str]); 7] = [
        ("read", &["image", "ledger", "image", "ledger"]),
        ("fchown", &[]),
        ("fchmod", &["image", "ledger"]),
        ("write", &["image", "ledger", "standard output"]),
        ("fsync", &["image", "ledger", "image", "ledger"]),
        ("close", &[]),
        ("rename", &["image", "ledger"]),
    ];
    on_both(|program| {
        let (old, new) = before_and_after();
        for (call, names) in fit {
            assert_eq!(failed_in_turn(program, &FIT, call, &old, &new), names);
        }
        for (call, names) in take_back {
            assert_eq!(failed_in_turn(program, &TAKE_BACK, call, &new, &old), names);
        }
    });
}

/// The second rename fails: the file whose name it was is named, and the first
/// is as before.
#[test]
fn second_rename_fails() {
    on_both(|program| {
        let (old, new) = before_and_after();
        for (arguments, before, name) in
            [(&FIT[..], &old, "image"), (&TAKE_BACK[..], &new, "ledger")]
        {
            let bench = bench_with(program, before);
            let files = bench.files();
            let output = disturbed(&bench, arguments, "fail", "rename", 2).expect("a rename");
            assert_eq!(named(&output), name);
            bench.says(&output, &format!("{name}: "));
            assert_eq!(bench.files(), files);
        }
    });
}
