//! `tools/progress`, through which the demo and the gate show how far rt is: on a
//! terminal a line for each crate and each edit, and nowhere else anything but
//! what rt wrote. It needs bash, and python3 for a terminal.

use std::fs::{File, Permissions};
use std::os::unix::fs::PermissionsExt;
use std::path::{Path, PathBuf};
use std::process::{Command, Output};

/// What rt writes, in short.
const WRITTEN: &str = "== numbers_definitions
statements std: modules loaded=0 checked=0
logic=proved functions=0 sum=dac8208d650f15bf
rt: numbers_definitions proved
fn program_modes::ask: proved
rt: program_modes is kept: an earlier run on this machine proved the same files over the same libraries
rt: numbers_bytes: its tests are proved
crate numbers_bytes: modules loaded=34 checked=2
logic=proved functions=7 sum=dac8208d650f15bf
rt: numbers_bytes proved
rt: numbers_bytes: trying its must-fail edits (3)
crate order_format: modules loaded=34 checked=2
logic=not-proved
rt: order_format NOT PROVED
rt: must-fail numbers_bytes/one.edit: refused, as it must be: proofs/a/Answers.antt:8:3: error
rt: must-fail numbers_bytes/two.edit: NOT REFUSED: the crate is still proved with this edit
rt: must-fail numbers_bytes/three.edit: BAD EDIT: an 'old:' text is in src/lib.rt 0 times, and not once
3 passed, 2 failed
";

fn root() -> PathBuf {
    Path::new(env!("CARGO_MANIFEST_DIR")).join("../..")
}

/// The tool on what rt writes. The shell is told where its output goes.
fn progress(name: &str, shell: &[&str], crates: &str, redirected: &str) -> Output {
    let text = Path::new(env!("CARGO_TARGET_TMPDIR")).join(format!("progress-{name}"));
    std::fs::write(&text, WRITTEN).expect("a text");
    let script = format!("tools/progress {crates} {redirected}");
    let mut command = Command::new(shell[0]);
    command.args(&shell[1..]).arg(script).current_dir(root());
    command.stdin(File::open(&text).expect("the text"));
    command.output().expect("the shell starts")
}

#[test]
fn without_a_terminal() {
    let output = progress("none", &["sh", "-c"], "aktinoph", "");
    assert!(output.status.success());
    assert_eq!(String::from_utf8_lossy(&output.stdout), WRITTEN);
    assert_eq!(output.stderr, b"");
}

/// Standard error is a terminal. What goes there comes back as standard output,
/// with the line ends of a terminal.
#[test]
fn on_a_terminal() {
    const TERMINAL: &str = "import os, pty, sys
rest = os.dup(0)
shell = lambda: os.execvp('sh', ['sh', '-c', 'exec 0<&%d; %s' % (rest, sys.argv[1])])
os.set_inheritable(rest, True)
child, end = pty.fork()
child == 0 and shell()
try:
    while got := os.read(end, 4096): sys.stdout.buffer.write(got)
except OSError: pass
sys.exit(os.WEXITSTATUS(os.waitpid(child, 0)[1]))";
    let copy = Path::new(env!("CARGO_TARGET_TMPDIR")).join("progress-copy");
    for (crates, count) in [("program_replace", 7), ("program_modes", 1)] {
        let redirected = format!("> {}", copy.display());
        let output = progress(crates, &["python3", "-c", TERMINAL], crates, &redirected);
        assert!(output.status.success(), "{output:?}");
        let shown = String::from_utf8_lossy(&output.stdout).replace('\r', "");
        let edits = shown
            .split(" of ")
            .last()
            .and_then(|rest| rest.split_once(','));
        let edits: u32 = edits.expect("a count").0.parse().expect("a number");
        assert!(edits > 100, "{shown}");
        let expected = format!(
            "1 of {count}, numbers_definitions\n\
             3 of {count}, numbers_bytes\n\
             edit 1 of {edits}, numbers_bytes/one.edit\n"
        );
        assert_eq!(shown, expected);
        let copied = std::fs::read_to_string(&copy).expect("the copy");
        assert_eq!(copied, WRITTEN);
    }
}

/// Where rt does not prove the program, the demo shows what rt said, and goes no
/// further.
#[test]
fn a_demo_of_what_is_not_proved() {
    let folder = Path::new(env!("CARGO_TARGET_TMPDIR")).join("progress-rt");
    std::fs::create_dir_all(&folder).expect("a folder");
    let rt = folder.join("rt");
    std::fs::write(&rt, "#!/bin/sh\necho 'rt: fitter NOT PROVED'\nexit 1\n").expect("a program");
    let executable = Permissions::from_mode(0o755);
    std::fs::set_permissions(&rt, executable).expect("a mode");
    let path = std::env::var("PATH").expect("a path");
    let path = format!("{}:{path}", folder.display());
    let mut demo = Command::new("bash");
    demo.arg("demo").current_dir(root()).env("PATH", path);
    demo.env_remove("AKTINOPH_PROGRAM");
    let output = demo.output().expect("bash starts");
    assert_eq!(output.status.code(), Some(1));
    let shown = String::from_utf8_lossy(&output.stdout);
    assert_eq!(shown.lines().count(), 1, "{shown}");
    assert_eq!(output.stderr, b"rt: fitter NOT PROVED\n");
}
