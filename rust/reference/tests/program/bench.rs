//! The two programs, and directories to run them in.

use std::env;
use std::fs;
use std::path::{Path, PathBuf};
use std::process::{Command, Output};
use std::sync::atomic::{AtomicU32, Ordering};

use testing::build::{Fit, Relocation, Symbol};

#[derive(Clone, Copy, Debug, PartialEq)]
pub enum Program {
    Aktinoph,
    Reference,
}

impl Program {
    /// Where the program is. `AKTINOPH_PROGRAM` names another `aktinoph`.
    pub fn path(self) -> PathBuf {
        if self == Program::Reference {
            return PathBuf::from(env!("CARGO_BIN_EXE_reference"));
        }
        let built = Path::new(env!("CARGO_MANIFEST_DIR")).join("../../target/bin/aktinoph");
        let path = env::var_os("AKTINOPH_PROGRAM").map_or(built, PathBuf::from);
        let Ok(path) = fs::canonicalize(&path) else {
            panic!("{} is missing: make it by `tools/build program`, or name the program in AKTINOPH_PROGRAM", path.display());
        };
        path
    }

    /// The exit status of a call that was not made: a program in Rattle has
    /// none but 0.
    pub fn failed(self) -> i32 {
        match self {
            Program::Aktinoph => 0,
            Program::Reference => 1,
        }
    }
}

/// Runs a test with both programs. What is printed shows with which it failed.
pub fn on_both(test: impl Fn(Program)) {
    for program in [Program::Reference, Program::Aktinoph] {
        println!("with {program:?}");
        test(program);
    }
}

/// All files of a directory with their bytes, sorted by name.
pub type Files = Vec<(PathBuf, Vec<u8>)>;

/// A directory with the four files of a fit. It goes when the test ends.
pub struct Bench {
    pub program: Program,
    directory: PathBuf,
}

impl Bench {
    pub fn new(program: Program, fit: &Fit) -> Bench {
        static COUNT: AtomicU32 = AtomicU32::new(0);
        let number = COUNT.fetch_add(1, Ordering::Relaxed);
        let name = format!("aktinoph-{}-{number}", std::process::id());
        let directory = env::temp_dir().join(name);
        let bench = Bench { program, directory };
        fs::create_dir_all(&bench.directory).expect("a temporary directory");
        bench.write("object", &fit.object());
        bench.write("order", &fit.order());
        bench.write("image", &fit.image);
        bench.write("ledger", &fit.journal);
        bench
    }

    pub fn path(&self, name: &str) -> PathBuf {
        self.directory.join(name)
    }

    pub fn read(&self, name: &str) -> Vec<u8> {
        fs::read(self.path(name)).expect("the file is there")
    }

    pub fn write(&self, name: &str, bytes: &[u8]) {
        fs::write(self.path(name), bytes).expect("a file in the temporary directory");
    }

    /// The program, to be run in the directory.
    pub fn command(&self, arguments: &[&str]) -> Command {
        let mut command = Command::new(self.program.path());
        command.args(arguments).current_dir(&self.directory);
        command
    }

    pub fn run(&self, arguments: &[&str]) -> Output {
        let output = self.command(arguments).output();
        output.expect("the program starts")
    }

    pub fn fit(&self) -> Output {
        self.run(&FIT)
    }

    pub fn take_back(&self) -> Output {
        self.run(&TAKE_BACK)
    }

    /// The path of a file, with every link followed.
    pub fn real_path(&self, name: &str) -> String {
        let path = fs::canonicalize(self.path(name)).expect("the file is there");
        path.to_str().expect("plain text").to_string()
    }

    pub fn files(&self) -> Files {
        let entries = fs::read_dir(&self.directory).expect("the directory is there");
        let mut files: Files = entries
            .map(|entry| entry.expect("an entry").path())
            .map(|path| (path.clone(), fs::read(&path).unwrap_or_default()))
            .collect();
        files.sort();
        files
    }

    /// The call is not made: a message that names the file, no output, no
    /// change.
    pub fn fails(&self, arguments: &[&str], named: &str) {
        self.command_fails(&mut self.command(arguments), named);
    }

    pub fn command_fails(&self, command: &mut Command, named: &str) {
        let before = self.files();
        let output = command.output().expect("the program starts");
        self.says(&output, named);
        assert_eq!(self.files(), before);
    }

    /// A message that names the file, and no output.
    pub fn says(&self, output: &Output, named: &str) {
        let message = String::from_utf8_lossy(&output.stderr);
        assert_eq!(output.status.code(), Some(self.program.failed()));
        assert_eq!(output.stdout, b"");
        assert!(message.contains(named), "{message}");
        assert!(message.ends_with('\n') && !message.contains("panicked"));
    }
}

impl Drop for Bench {
    fn drop(&mut self) {
        let _ = fs::remove_dir_all(&self.directory);
    }
}

pub const FIT: [&str; 5] = ["fit", "object", "order", "image", "ledger"];
pub const TAKE_BACK: [&str; 3] = ["take-back", "image", "ledger"];

/// The line on standard output of a call that was answered.
pub fn line(output: &Output) -> String {
    let message = String::from_utf8_lossy(&output.stderr);
    assert_eq!(message, "");
    assert_eq!(output.status.code(), Some(0));
    String::from_utf8(output.stdout.clone()).expect("plain text")
}

/// The line `too long`, and beside it a message that names the file.
pub fn is_too_long(output: &Output, named: &str) {
    let message = String::from_utf8_lossy(&output.stderr);
    let why = "longer than 65,536 bytes, the most that this program takes";
    assert_eq!(message, format!("{named}: {why}\n"));
    assert_eq!(output.stdout, b"too long\n");
    assert_eq!(output.status.code(), Some(0));
}

/// A fit that is done: four bytes over an image of zeros.
pub fn good() -> Fit {
    let list = [Relocation::new(0, 1, 1, 0)];
    Fit::code(0x1000, &[0; 4], &[Symbol::absolute(0x0403_0201)], &list)
}

/// A fit that is done whatever the image holds: it lays nothing.
pub fn empty() -> Fit {
    let mut fit = good();
    fit.sections.truncate(1);
    fit.placements.clear();
    fit
}
