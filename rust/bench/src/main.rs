//! Times every row, or makes one call of one row so that its instructions can
//! be counted.

#![forbid(unsafe_code)]

mod times;

use std::process::ExitCode;

use bench::inputs::{row, rows};
use bench::run::{Buffers, Fitter};

const USAGE: &str = "usage: bench [ROW..]                   times the rows, or all
       bench rows                    names the rows
       bench growth                  times installs of growing size
       bench count library ROW       makes one call by the library
       bench count comparison ROW    makes one call by the comparison fitter";

fn main() -> ExitCode {
    let words: Vec<String> = std::env::args().skip(1).collect();
    let words: Vec<&str> = words.iter().map(String::as_str).collect();
    let done = match words[..] {
        ["rows"] => name_rows(),
        ["growth"] => times::print_growth(),
        ["count", "library", name] => count(Fitter::Library, name),
        ["count", "comparison", name] => count(Fitter::Comparison, name),
        ["count" | "rows" | "growth", ..] => Err(USAGE.into()),
        _ => times::print(&words),
    };
    match done {
        Ok(()) => ExitCode::SUCCESS,
        Err(wrong) => {
            eprintln!("{wrong}");
            ExitCode::FAILURE
        }
    }
}

fn name_rows() -> Result<(), String> {
    for row in rows() {
        println!("{}", row.name);
    }
    Ok(())
}

/// One call on fresh buffers. A profiler counts the instructions between the
/// start of the fitter's function and its end.
fn count(fitter: Fitter, name: &str) -> Result<(), String> {
    let row = row(name).ok_or(format!("there is no row {name}"))?;
    let mut buffers = Buffers::new(&row.input);
    buffers.fill(&row.input);
    let answer = buffers.call(fitter, row.call);
    match answer == row.answer {
        true => Ok(()),
        false => Err(format!("{name}: answered {answer:?}, not {:?}", row.answer)),
    }
}
