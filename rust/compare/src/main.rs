//! Compares the static library with the reference for as long as asked, on
//! random calls, histories and lists of calls from a seed on.

#![forbid(unsafe_code)]

use std::process::ExitCode;
use std::time::{Duration, Instant};

use compare::{fault, Compare};

const USAGE: &str = "usage: compare [--seconds SECONDS] [--seed SEED] [--cases CASES]";

/// One seed in this many is a history, and the one after it a list; the others
/// are calls.
const HISTORY_EVERY: u64 = 50;

struct Options {
    seconds: u64,
    seed: u64,
    cases: u64,
}

fn main() -> ExitCode {
    let Some(options) = options(std::env::args().skip(1)) else {
        eprintln!("{USAGE}");
        return ExitCode::FAILURE;
    };
    fault::watch();
    match run(&options) {
        Ok(summary) => {
            println!("{summary}");
            ExitCode::SUCCESS
        }
        Err((seed, what)) => {
            eprintln!("seed {seed}: {what}\nagain: compare --seed {seed} --cases 1");
            ExitCode::FAILURE
        }
    }
}

fn options(mut words: impl Iterator<Item = String>) -> Option<Options> {
    let mut options = Options {
        seconds: 60,
        seed: 7,
        cases: u64::MAX,
    };
    while let Some(word) = words.next() {
        let number = words.next()?.parse().ok()?;
        match word.as_str() {
            "--seconds" => options.seconds = number,
            "--seed" => options.seed = number,
            "--cases" => options.cases = number,
            _ => return None,
        }
    }
    Some(options)
}

/// What was done, or the first seed at which something differs.
fn run(options: &Options) -> Result<String, (u64, String)> {
    let end = Instant::now() + Duration::from_secs(options.seconds);
    let mut compare = Compare::new();
    let mut cases = 0;
    while cases < options.cases && Instant::now() < end {
        let seed = options.seed.wrapping_add(cases);
        fault::seed(seed);
        let done = match seed % HISTORY_EVERY {
            0 => compare.history(seed),
            1 => compare.list(seed),
            _ => compare.call(seed),
        };
        done.map_err(|what| (seed, what))?;
        cases += 1;
    }
    let (histories, lists) = (&compare.histories, &compare.lists);
    let all = [compare.fits, histories.answers, lists.answers];
    let reasons: Vec<u64> = (1..=7)
        .map(|reason| all.iter().map(|counts| counts.reasons[reason]).sum())
        .collect();
    Ok(format!(
        "{cases} cases from seed {} on, no difference\n\
         fits by answer:         {:?}\n\
         takings-back by answer: {:?}\n\
         in histories:           {:?}, at most {} standing\n\
         in lists:               {:?}, {} run, {} not\n\
         10 by reason, in all:   {reasons:?}",
        options.seed,
        compare.fits.numbers,
        compare.rollbacks.numbers,
        histories.answers.numbers,
        histories.most_standing,
        lists.answers.numbers,
        lists.run,
        lists.not_run
    ))
}
