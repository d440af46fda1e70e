//! The program: one call over files.
//!
//! A done or refused call writes its number, place and reason and exits with 0,
//! and so does a file that is too long, which a line on standard error then names.
//! Anything else gives a line on standard error, changes no file and exits with 1;
//! only where the answer itself cannot be written are the files of a done call new.

#![forbid(unsafe_code)]

mod files;

use std::env;
use std::ffi::OsString;
use std::fs::File;
use std::io::{self, Write};
use std::os::fd::AsFd;
use std::path::Path;
use std::process::ExitCode;

use files::{read, replace_both, Contents};
use reference::Answer;

const USAGE: &str = "usage: reference fit OBJECT ORDER IMAGE LEDGER\n       \
                     reference take-back IMAGE LEDGER\n       \
                     reference --help\n       \
                     reference --version";
const VERSION: &str = concat!("reference ", env!("CARGO_PKG_VERSION"));

/// A line for standard output, and what is said beside it on standard error:
/// why a file is too long, or that files are new if the line cannot be written.
struct Said {
    line: String,
    beside: Option<String>,
    lost: &'static str,
}

impl Said {
    fn line(line: impl Into<String>) -> Said {
        Said {
            line: line.into(),
            beside: None,
            lost: "",
        }
    }

    fn answer(answer: Answer) -> Said {
        let is_done = answer == Answer::DONE;
        Said {
            lost: if is_done {
                "\nthe call is done, image and ledger are new"
            } else {
                ""
            },
            ..Said::line(line(answer))
        }
    }

    /// "A longer file gives the line `too long`, and no file changes."
    fn too_long(why: String) -> Said {
        Said {
            beside: Some(why),
            ..Said::line("too long")
        }
    }
}

fn main() -> ExitCode {
    let arguments: Vec<OsString> = env::args_os().skip(1).collect();
    let done = run(&arguments).and_then(|said| {
        if let Some(why) = &said.beside {
            let _ = writeln!(io::stderr(), "{why}");
        }
        print(&format!("{}\n", said.line))
            .map_err(|error| format!("standard output: {error}{}", said.lost))
    });
    match done {
        Ok(()) => ExitCode::SUCCESS,
        Err(message) => {
            let _ = writeln!(io::stderr(), "{message}");
            ExitCode::FAILURE
        }
    }
}

/// Without a buffer, which would be written once more when the program ends.
fn print(line: &str) -> io::Result<()> {
    let mut output = File::from(io::stdout().as_fd().try_clone_to_owned()?);
    output.write_all(line.as_bytes())
}

/// What is said of a call that is answered, or the message of one that is not made.
fn run(arguments: &[OsString]) -> Result<Said, String> {
    let words: Vec<&Path> = arguments.iter().map(Path::new).collect();
    match words.split_first() {
        Some((command, [object, order, image, ledger])) if *command == Path::new("fit") => {
            fit(object, order, image, ledger)
        }
        Some((command, [image, ledger])) if *command == Path::new("take-back") => {
            take_back(image, ledger)
        }
        Some((command, [])) if *command == Path::new("--help") => Ok(Said::line(USAGE)),
        Some((command, [])) if *command == Path::new("--version") => Ok(Said::line(VERSION)),
        _ => Err(USAGE.to_string()),
    }
}

fn fit(object: &Path, order: &Path, image: &Path, ledger: &Path) -> Result<Said, String> {
    let files = [read(object)?, read(order)?, read(image)?, read(ledger)?];
    if let Some(why) = files.iter().find_map(Contents::too_long) {
        return Ok(Said::too_long(why));
    }
    let [object, order, image, ledger] = files;
    let (mut new_image, mut new_ledger) = (image.bytes.clone(), ledger.bytes.clone());
    let answer = reference::install(&object.bytes, &order.bytes, &mut new_image, &mut new_ledger);
    // The ledger first: a cut between the two leaves a ledger that still holds
    // the image's old bytes.
    if answer == Answer::DONE {
        replace_both((&ledger, &new_ledger), (&image, &new_image))?;
    }
    Ok(Said::answer(answer))
}

fn take_back(image: &Path, ledger: &Path) -> Result<Said, String> {
    let files = [read(image)?, read(ledger)?];
    if let Some(why) = files.iter().find_map(Contents::too_long) {
        return Ok(Said::too_long(why));
    }
    let [image, ledger] = files;
    let (mut new_image, mut new_ledger) = (image.bytes.clone(), ledger.bytes.clone());
    let answer = reference::rollback(&mut new_image, &mut new_ledger);
    // The image first: a cut between the two leaves a fit that can be taken
    // back again.
    if answer == Answer::DONE {
        replace_both((&image, &new_image), (&ledger, &new_ledger))?;
    }
    Ok(Said::answer(answer))
}

/// "number and place in decimal, a space between, then a line end"; the reason:
/// "the program writes it third".
fn line(answer: Answer) -> String {
    format!("{} {} {}", answer.number, answer.place, answer.reason)
}
