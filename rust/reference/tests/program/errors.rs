//! Calls that cannot be made, or whose result cannot be kept: a message that
//! names the file, nothing on standard output, and no file changes. Without the
//! cause the same call is done.

use std::fs;
use std::io::Write;
use std::os::unix::fs::{chown, symlink, FileTypeExt, MetadataExt, PermissionsExt};
use std::os::unix::net::UnixListener;
use std::os::unix::process::CommandExt;
use std::path::Path;
use std::process::{Command, Stdio};

use crate::bench::{empty, good, line, on_both, Bench, Program, FIT, TAKE_BACK};
use testing::build::{journal, Fit};

/// A user that owns no file.
const NOBODY: u32 = 65_534;

/// The arguments of a call.
type Call = &'static [&'static str];

/// Each call with files of its own: a fit where none stands, and a taking-back
/// where one does.
fn calls(program: Program, fit: &Fit) -> [(Bench, Call); 2] {
    let [before, after] = [(); 2].map(|()| Bench::new(program, fit));
    assert_eq!(line(&after.fit()), "0 0 0\n");
    [(before, &FIT), (after, &TAKE_BACK)]
}

/// The call with another name in one place, counted from the end.
fn with(call: Call, place: usize, name: &str) -> Vec<&str> {
    let mut arguments = call.to_vec();
    arguments[call.len() - place] = name;
    arguments
}

const LEDGER: usize = 1;
const IMAGE: usize = 2;

fn is_done(bench: &Bench, call: Call) {
    command_is_done(&mut bench.command(call));
}

fn command_is_done(command: &mut Command) {
    let output = command.output().expect("the program starts");
    assert_eq!(line(&output), "0 0 0\n");
}

#[test]
fn missing_files() {
    on_both(|program| {
        for (bench, call) in calls(program, &good()) {
            for place in 1..call.len() {
                for name in ["nowhere", "no/where", "object/inside", ""] {
                    bench.fails(&with(call, place, name), &format!("{name}: "));
                }
            }
            is_done(&bench, call);
        }
    });
}

/// What cannot be read is said before what is too long.
#[test]
fn missing_beside_long_files() {
    on_both(|program| {
        let bench = Bench::new(program, &good());
        bench.write("long", &vec![0; 65_537]);
        bench.fails(&["take-back", "long", "nowhere"], "nowhere: ");
        bench.fails(&["fit", "long", "long", "long", "nowhere"], "nowhere: ");
    });
}

#[test]
fn directories() {
    on_both(|program| {
        for (bench, call) in calls(program, &good()) {
            for place in 1..call.len() {
                bench.fails(&with(call, place, "."), ".: ");
            }
            is_done(&bench, call);
        }
    });
}

#[test]
fn wrong_arguments() {
    let wrong: [&[&str]; 16] = [
        &[],
        &[""],
        &["fit"],
        &["fit", "object", "order", "image"],
        &["fit", "object", "order", "image", "ledger", "more"],
        &["take-back", "image"],
        &["take-back", "image", "ledger", "more"],
        &["install", "object", "order", "image", "ledger"],
        &["Fit", "object", "order", "image", "ledger"],
        &["fit ", "object", "order", "image", "ledger"],
        &["take-backs", "image", "ledger"],
        &["fit", "image", "ledger"],
        &["--help", "fit"],
        &["--version", "--version"],
        &["help"],
        &["-version"],
    ];
    on_both(|program| {
        for (bench, call) in calls(program, &good()) {
            for arguments in wrong {
                bench.fails(arguments, "usage");
            }
            is_done(&bench, call);
        }
    });
}

/// A path of this many bytes to a file of the directory.
fn padded(length: usize, name: &str) -> String {
    let slashes = "/".repeat(length - 1 - name.len());
    format!(".{slashes}{name}")
}

/// Linux takes paths of at most 4,095 bytes, and names of at most 255.
#[test]
fn long_names() {
    on_both(|program| {
        for (bench, call) in calls(program, &good()) {
            for (place, name) in (1..call.len()).zip(call.iter().rev()) {
                for length in [4_096, 4_097, 8_000] {
                    bench.fails(&with(call, place, &padded(length, name)), ".////");
                }
                bench.fails(&with(call, place, &"n".repeat(256)), "nnnn");
            }
            // There is no longer name for a new file beside this one.
            let widest = "n".repeat(255);
            fs::copy(bench.path("image"), bench.path(&widest)).expect("a copy");
            bench.fails(&with(call, IMAGE, &widest), "nnnn");
            let [image, ledger] = [padded(4_095, "image"), padded(4_094, "ledger")];
            let mut longest = with(call, IMAGE, &image);
            longest[call.len() - LEDGER] = &ledger;
            assert_eq!(line(&bench.run(&longest)), "0 0 0\n");
        }
    });
}

/// The program as a user who may do nothing that the modes do not allow.
fn unprivileged(bench: &Bench, programs: &Bench, call: Call) -> Command {
    let copy = programs.path("program");
    if !copy.exists() {
        copy_program(&bench.program.path(), &copy);
    }
    let mut command = Command::new(copy);
    command.args(call).current_dir(bench.path(""));
    // Only the superuser has to become somebody else.
    if is_superuser() {
        command.uid(NOBODY).gid(NOBODY);
    }
    command
}

/// By a process of its own. A file that is open for writing cannot be run, and
/// what this process has open, a child that another test starts has too until
/// it runs its program.
fn copy_program(program: &Path, copy: &Path) {
    let mut command = Command::new("cp");
    command.arg("-p").arg(program).arg(copy);
    assert!(command.status().expect("cp starts").success());
}

fn is_superuser() -> bool {
    let own = fs::metadata("/proc/self").expect("this process");
    own.uid() == 0
}

/// Whether files can be given to another owner. Where they cannot, a message
/// says that the test is not run.
fn can_give_files(test: &str) -> bool {
    if !is_superuser() {
        // Past the harness, which keeps what a passed test prints.
        let why = format!("{test}: not run, only the superuser can give a file away\n");
        std::io::stderr()
            .write_all(why.as_bytes())
            .expect("a message");
    }
    is_superuser()
}

fn set_mode(path: &Path, mode: u32) {
    fs::set_permissions(path, fs::Permissions::from_mode(mode)).expect("permissions");
}

#[test]
fn unreadable_files() {
    on_both(|program| {
        let programs = Bench::new(program, &good());
        for (bench, call) in calls(program, &good()) {
            for name in &call[1..] {
                set_mode(&bench.path(name), 0);
                let mut command = unprivileged(&bench, &programs, call);
                bench.command_fails(&mut command, &format!("{name}: "));
                set_mode(&bench.path(name), 0o666);
            }
            set_mode(&bench.path(""), 0o777);
            command_is_done(&mut unprivileged(&bench, &programs, call));
        }
    });
}

/// No file can be made in the directory, so none can be replaced.
#[test]
fn unwritable_directories() {
    on_both(|program| {
        let programs = Bench::new(program, &good());
        let first = ["ledger", "image"];
        for ((bench, call), first) in calls(program, &good()).into_iter().zip(first) {
            set_mode(&bench.path("image"), 0o666);
            set_mode(&bench.path("ledger"), 0o666);
            set_mode(&bench.path(""), 0o555);
            let mut command = unprivileged(&bench, &programs, call);
            bench.command_fails(&mut command, &format!("{first}: "));
            set_mode(&bench.path(""), 0o777);
            command_is_done(&mut command);
        }
    });
}

/// A file in a directory that lets nobody replace another's: the new file is
/// made, and cannot take its name. The first file is put back.
#[test]
fn files_of_others() {
    if !can_give_files("files_of_others") {
        return;
    }
    on_both(|program| {
        let programs = Bench::new(program, &good());
        let second = ["image", "ledger"];
        for ((bench, call), second) in calls(program, &good()).into_iter().zip(second) {
            set_mode(&bench.path(""), 0o1777);
            for name in &call[1..] {
                let owner = if *name == second { 0 } else { NOBODY };
                chown(bench.path(name), Some(owner), None).expect("an owner");
            }
            set_mode(&bench.path(second), 0o666);
            let mut command = unprivileged(&bench, &programs, call);
            bench.command_fails(&mut command, &format!("/{second}: "));
            chown(bench.path(second), Some(NOBODY), None).expect("an owner");
            command_is_done(&mut command);
        }
    });
}

/// A file that the superuser replaces stays its owner's.
#[test]
fn owners() {
    if !can_give_files("owners") {
        return;
    }
    on_both(|program| {
        for (bench, call) in calls(program, &good()) {
            let owners = [("image", (NOBODY, 7)), ("ledger", (7, NOBODY))];
            for (name, (owner, group)) in owners {
                chown(bench.path(name), Some(owner), Some(group)).expect("an owner");
                set_mode(&bench.path(name), 0o600);
            }
            is_done(&bench, call);
            for (name, owner) in owners {
                let file = fs::metadata(bench.path(name)).expect("the file is there");
                assert_eq!((file.uid(), file.gid()), owner, "{name}");
                assert_eq!(file.mode() & 0o7777, 0o600);
            }
        }
    });
}

/// A rename could replace a file that the user may not write: it is refused.
#[test]
fn read_only_files() {
    on_both(|program| {
        let programs = Bench::new(program, &good());
        for (bench, call) in calls(program, &good()) {
            set_mode(&bench.path(""), 0o777);
            set_mode(&bench.path("image"), 0o666);
            set_mode(&bench.path("ledger"), 0o666);
            for name in ["image", "ledger"] {
                set_mode(&bench.path(name), 0o444);
                let mut command = unprivileged(&bench, &programs, call);
                bench.command_fails(&mut command, &format!("{name}: Permission denied"));
                set_mode(&bench.path(name), 0o666);
            }
            command_is_done(&mut unprivileged(&bench, &programs, call));
        }
    });
}

/// A file that can be read and not replaced, even by the superuser: no file can
/// be made beside it. Neither file changes, whichever comes first.
#[test]
fn unwritable_places() {
    on_both(|program| {
        let comm = "/proc/self/comm";
        for (bench, call) in calls(program, &empty()) {
            bench.fails(&with(call, IMAGE, comm), comm);
            is_done(&bench, call);
        }
    });
}

const FILES: [&str; 4] = ["object", "order", "image", "ledger"];

/// The call is refused at once, and the files stay: a program that waits is
/// ended. Other files of the directory may be such that nobody can read them.
fn refused_at_once(bench: &Bench, call: &[&str], input: Stdio, name: &str) {
    let kept = FILES.map(|name| bench.read(name));
    let mut command = Command::new("timeout");
    command.arg("20").arg(bench.program.path()).args(call);
    command.current_dir(bench.path("")).stdin(input);
    let output = command.output().expect("the program starts");
    bench.says(&output, &format!("{name}: not a plain file\n"));
    assert_eq!(FILES.map(|name| bench.read(name)), kept);
}

/// Only plain files are read: not a device, a pipe whose other end nobody has
/// opened, or a socket.
#[test]
fn devices_pipes_and_sockets() {
    on_both(|program| {
        for (bench, call) in calls(program, &empty()) {
            let made = Command::new("mkfifo").arg(bench.path("pipe")).status();
            assert!(made.expect("mkfifo starts").success());
            let _socket = UnixListener::bind(bench.path("socket")).expect("a socket");
            for name in ["/dev/null", "/dev/zero", "pipe", "socket"] {
                for place in 1..call.len() {
                    refused_at_once(&bench, &with(call, place, name), Stdio::null(), name);
                }
            }
            for device in ["/dev/null", "/dev/zero"] {
                let device = fs::metadata(device).expect("the device is there");
                assert!(device.file_type().is_char_device());
            }
            is_done(&bench, call);
        }
    });
}

/// What comes through a pipe is not read: here its other end stays open.
#[test]
fn pipes() {
    on_both(|program| {
        for (bench, call) in calls(program, &good()) {
            for place in 1..call.len() {
                let (read_end, write_end) = std::io::pipe().expect("a pipe");
                let name = "/dev/stdin";
                refused_at_once(&bench, &with(call, place, name), read_end.into(), name);
                drop(write_end);
            }
            is_done(&bench, call);
        }
    });
}

#[test]
fn one_file_for_image_and_ledger() {
    on_both(|program| {
        for (bench, call) in calls(program, &empty()) {
            symlink("ledger", bench.path("link-to-ledger")).expect("a link");
            let here = fs::canonicalize(bench.path("ledger")).expect("the file is there");
            let here = here.to_str().expect("plain text");
            for other in ["ledger", "./ledger", here, "link-to-ledger"] {
                bench.fails(&with(call, IMAGE, other), "ledger: ");
            }
            is_done(&bench, call);
        }
    });
}

/// No more than 512 bytes fit in a new file.
#[test]
fn full_files() {
    on_both(|program| {
        let mut long_image = good();
        long_image.image.resize(4_096, 0xA5);
        let mut long_ledger = good();
        long_ledger.journal = journal(4_000);
        for (fit, long) in [(long_image, "image"), (long_ledger, "ledger")] {
            for (bench, call) in calls(program, &fit) {
                let mut command = Command::new("sh");
                command.args(["-c", "trap '' XFSZ; ulimit -f 1; exec \"$@\"", "sh"]);
                command.arg(bench.program.path()).args(call);
                command.current_dir(bench.path(""));
                bench.command_fails(&mut command, &format!("{long}: "));
                is_done(&bench, call);
            }
        }
    });
}
