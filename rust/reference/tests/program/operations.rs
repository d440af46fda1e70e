//! What an operator meets: other processes on the same files, devices that fail
//! for good, standard output that nobody can read, and the words about the program.

use std::process::{Command, Output};

use crate::bench::{good, line, on_both, Bench, Program, FIT, TAKE_BACK};
use crate::cuts::{before_and_after, bench_with, disturbed_with, named, pair, Pair};
use testing::build::{journal, Fit, Section};

/// Each call with what its files hold before it and after it, and the names of
/// the files that it replaces, in their order.
fn calls() -> [(&'static [&'static str], Pair, Pair, [&'static str; 2]); 2] {
    let (old, new) = before_and_after();
    [
        (&FIT, old.clone(), new.clone(), ["ledger", "image"]),
        (&TAKE_BACK, new, old, ["image", "ledger"]),
    ]
}

fn message(output: &Output) -> String {
    String::from_utf8(output.stderr.clone()).expect("plain text")
}

/// Another process gives one of the two files another content while the new
/// files are written: by a rename, or in place. Nothing is replaced.
#[test]
fn changed_in_between() {
    on_both(|program| {
        for (arguments, before, _, names) in calls() {
            for (act, name) in [("swap", 0), ("swap", 1), ("cut", 0), ("cut", 1)] {
                let name = names[name];
                let bench = bench_with(program, &before);
                bench.write("other", &bench.read(name));
                let file = [("PRELOAD_FILE", name)];
                let output = disturbed_with(&bench, arguments, act, ("fsync", 2), file);
                let output = output.expect("a sync");
                bench.says(&output, &format!("/{name}: changed by another process"));
                let mut expected = before.clone();
                if act == "cut" {
                    let bytes = if name == "image" {
                        &mut expected.0
                    } else {
                        &mut expected.1
                    };
                    bytes.pop();
                }
                assert_eq!(pair(&bench), expected, "{act} {name}");
                let left = bench.files().len();
                assert_eq!(
                    left,
                    if act == "swap" { 4 } else { 5 },
                    "no new file is left over"
                );
            }
        }
    });
}

/// The second rename fails, and so does the putting back: the message says what
/// is where, and a taking-back repairs it.
#[test]
fn nothing_can_be_put_back() {
    on_both(|program| {
        let (old, new) = before_and_after();
        let mixed = (old.0.clone(), new.1.clone());
        for (arguments, before, _, [first, second]) in calls() {
            for (call, at) in [("rename", 2), ("fsync", 3)] {
                let bench = bench_with(program, &before);
                let output = disturbed_with(&bench, arguments, "fail-on", (call, at), []);
                let output = output.expect("a call that fails");
                let [first, second] = [first, second].map(|name| bench.real_path(name));
                let state =
                    format!("{first}: new, and {second} is old; a taking-back repairs this\n");
                bench.says(&output, &state);
                assert_eq!(pair(&bench), mixed, "{call}");
                assert_eq!(bench.files().len(), 4, "no file is left over");
                line(&bench.take_back());
                assert_eq!(pair(&bench), old);
            }
        }
    });
}

/// The folder cannot be synced after the last rename, nor anything be put back
/// after that: both files are new, and the message says so.
#[test]
fn both_stay_new() {
    on_both(|program| {
        for (arguments, before, after, [first, second]) in calls() {
            let bench = bench_with(program, &before);
            let output = disturbed_with(&bench, arguments, "fail-on", ("fsync", 4), []);
            let output = output.expect("a sync");
            let [first_path, second_path] = [first, second].map(|name| bench.real_path(name));
            assert_eq!(named(&output), second);
            bench.says(
                &output,
                &format!("{first_path}: new, as is {second_path}; "),
            );
            assert_eq!(pair(&bench), after);
        }
    });
}

/// A file system that cannot sync a folder is as good as any other.
#[test]
fn folders_that_cannot_be_synced() {
    const NOT_SUPPORTED: [&str; 2] = ["22", "95"];
    on_both(|program| {
        for (arguments, before, after, _) in calls() {
            for (error, at) in NOT_SUPPORTED
                .into_iter()
                .flat_map(|error| [(error, 3), (error, 4)])
            {
                let bench = bench_with(program, &before);
                let kind = [("PRELOAD_ERROR", error)];
                let output = disturbed_with(&bench, arguments, "fail", ("fsync", at), kind);
                let output = output.expect("a sync");
                assert_eq!(message(&output), "", "{error}");
                assert_eq!(pair(&bench), after);
            }
        }
    });
}

/// The program with standard output as the shell is told to leave it.
fn redirected(bench: &Bench, how: &str, arguments: &[&str]) -> Output {
    let mut command = Command::new("sh");
    command.args(["-c", &format!("exec \"$@\" {how}"), "sh"]);
    command.arg(bench.program.path()).args(arguments);
    let output = command.current_dir(bench.path("")).output();
    output.expect("sh starts")
}

/// An answer that nobody can read: the files of a done call are new, and the
/// message says so. Of a refused call it does not. A program in Rust finds
/// `/dev/null` where a standard stream is closed.
#[test]
fn answers_that_are_lost() {
    on_both(|program| {
        let lost: &[&str] = match program {
            Program::Aktinoph => &["> /dev/full", ">&-"],
            Program::Reference => &["> /dev/full"],
        };
        for how in lost {
            for (arguments, before, after, _) in calls() {
                let bench = bench_with(program, &before);
                let output = redirected(&bench, how, arguments);
                bench.says(&output, "standard output: ");
                assert!(message(&output).ends_with("the call is done, image and ledger are new\n"));
                assert_eq!(pair(&bench), after, "{how}");
            }
            let bench = Bench::new(program, &good());
            let files = bench.files();
            let output = redirected(&bench, how, &TAKE_BACK);
            bench.says(&output, "standard output: ");
            assert_eq!(message(&output).lines().count(), 1);
            assert_eq!(bench.files(), files);
        }
    });
}

/// What the two commands of README say of the files: n, and whether a
/// taking-back is the repair.
fn told(bench: &Bench) -> String {
    let readme = concat!(env!("CARGO_MANIFEST_DIR"), "/../../README.md");
    let readme = std::fs::read_to_string(readme).expect("README");
    let commands = readme.split_once("    e=($(od").expect("the commands").1;
    let commands = commands.split_once("\n\n").expect("their end").0;
    let mut bash = Command::new("bash");
    bash.arg("-c").arg(format!("e=($(od{commands}"));
    let output = bash
        .current_dir(bench.path(""))
        .output()
        .expect("bash starts");
    assert_eq!(message(&output), "");
    String::from_utf8(output.stdout).expect("plain text")
}

/// They tell a cut fit from one that is not made and one that is done, also
/// where another fit stands already.
#[test]
fn the_commands_that_tell_of_a_cut() {
    on_both(|program| {
        let mut fit = good();
        fit.journal = journal(8);
        let bench = Bench::new(program, &fit);
        assert_eq!(told(&bench), "0\n");
        for n in 1..3 {
            let image = bench.read("image");
            line(&bench.fit());
            assert_eq!(told(&bench), format!("{n}\n"), "done");
            let done = bench.read("image");
            bench.write("image", &image);
            assert_eq!(told(&bench), format!("{n}\nstill the old bytes\n"), "cut");
            bench.write("image", &done);
            fit.placements[0].1 += 8;
            bench.write("order", &fit.order());
        }
    });
}

/// The longest span that the program can save: a ledger has 65,536 bytes, and 136
/// are its own.
#[test]
fn the_longest_span() {
    on_both(|program| {
        for (length, is_saved) in [(65_400, true), (65_401, false)] {
            let ends = [0x1000, 0x1000 + length - 4];
            let sections = ends.map(|address| (Section::loaded(1, &[7; 4]), address));
            let mut fit = Fit::placed(0x1000, length as usize, &sections);
            fit.journal = journal(65_400);
            let bench = Bench::new(program, &fit);
            let expected = if is_saved { "0 " } else { "15 " };
            let answer = line(&bench.fit());
            assert!(answer.starts_with(expected), "{length}: {answer}");
        }
    });
}

/// On standard output, where somebody asked for it.
#[test]
fn help_and_version() {
    on_both(|program| {
        let bench = Bench::new(program, &good());
        let name = match program {
            Program::Aktinoph => "aktinoph",
            Program::Reference => "reference",
        };
        let help = line(&bench.run(&["--help"]));
        assert!(help.starts_with(&format!("usage: {name} fit OBJECT ORDER IMAGE LEDGER\n")));
        assert_eq!(
            message(&bench.run(&[])),
            help,
            "the same as of a wrong call"
        );
        let version = format!("{name} {}\n", env!("CARGO_PKG_VERSION"));
        assert_eq!(line(&bench.run(&["--version"])), version);
    });
}
