//! The times of each row: the two fitters and a copying in turn, so that all
//! see the same machine.

use std::hint::black_box;
use std::time::{Duration, Instant};

use bench::inputs::{growth, rows, Row};
use bench::run::{Buffer, Buffers, Fitter};

/// A row is run until it has been run this often, or has taken this long, but
/// never less than a few times.
const MOST_RUNS: usize = 1_001;
const LONGEST: Duration = Duration::from_secs(3);
const LEAST_RUNS: usize = 21;

/// Times in microseconds; the last two columns are multiples of the time that
/// copying the image and the object takes.
const HEADER: &str = "\
| Row | Relocations | Library | Comparison | Ratio | Ratio of medians | Library, copies | Comparison, copies |
|---|---|---|---|---|---|---|---|";

const GROWTH_HEADER: &str = "\
| Row | Library, RV32 | Comparison, RV32 | Library, RV64 | Comparison, RV64 |
|---|---|---|---|---|";

/// Writes a table of the rows with these names, or of all.
pub fn print(names: &[&str]) -> Result<(), String> {
    // Checks that only the comparison fitter has would spoil the ratio.
    if cfg!(debug_assertions) {
        return Err("built with debug assertions; run it with `cargo run --profile bench`".into());
    }
    let rows = rows();
    if let Some(name) = names
        .iter()
        .find(|name| rows.iter().all(|row| row.name != **name))
    {
        return Err(format!("there is no row {name}; `bench rows` names them"));
    }
    println!("{HEADER}");
    for row in &rows {
        if names.is_empty() || names.contains(&row.name.as_str()) {
            println!("{}", line(row));
        }
    }
    Ok(())
}

/// Writes a table of how the times grow.
pub fn print_growth() -> Result<(), String> {
    if cfg!(debug_assertions) {
        return Err("built with debug assertions; run it with `cargo run --profile bench`".into());
    }
    println!("{GROWTH_HEADER}");
    for of_both in growth().chunks(2) {
        let mut line = format!("| {} |", of_both[0].name);
        for row in of_both {
            let [library, comparison, _] = measure(row);
            let (library, comparison) = (library.least(), comparison.least());
            line += &format!(" {library:.1} | {comparison:.1} |");
        }
        println!("{line}");
    }
    Ok(())
}

/// Sorted times of one kind of run.
struct Times(Vec<Duration>);

impl Times {
    /// The least, in microseconds.
    fn least(&self) -> f64 {
        micros(self.0[0])
    }

    fn median(&self) -> f64 {
        micros(self.0[self.0.len() / 2])
    }
}

fn line(row: &Row) -> String {
    let [library, comparison, copying] = measure(row);
    let copy = copying.least();
    format!(
        "| {} | {} | {:.1} | {:.1} | {:.2} | {:.2} | {:.1} | {:.1} |",
        row.name,
        row.relocations,
        library.least(),
        comparison.least(),
        library.least() / comparison.least(),
        library.median() / comparison.median(),
        library.least() / copy,
        comparison.least() / copy,
    )
}

/// The times of the library, of the comparison fitter, and of copying image and
/// object.
fn measure(row: &Row) -> [Times; 3] {
    let mut buffers = Buffers::new(&row.input);
    let mut copies = [&row.input.image, &row.input.object].map(|bytes| Buffer::new(bytes.len()));
    let mut times = [vec![], vec![], vec![]];
    let start = Instant::now();
    for run in 0..MOST_RUNS {
        if run >= LEAST_RUNS && start.elapsed() > LONGEST {
            break;
        }
        // The second of two is taken, so that none pays for what another left
        // in the caches.
        times[0].push(second(|| call(row, &mut buffers, Fitter::Library)));
        times[1].push(second(|| call(row, &mut buffers, Fitter::Comparison)));
        times[2].push(second(|| copy(row, &mut copies)));
    }
    times.map(|mut times| {
        times.sort();
        Times(times)
    })
}

fn second<T>(mut run: impl FnMut() -> T) -> T {
    run();
    run()
}

/// The time of one call. Filling the buffers is not part of it.
fn call(row: &Row, buffers: &mut Buffers, fitter: Fitter) -> Duration {
    buffers.fill(&row.input);
    let buffers = black_box(buffers);
    let start = Instant::now();
    let answer = buffers.call(fitter, row.call);
    let taken = start.elapsed();
    assert_eq!(black_box(answer), row.answer, "{}", row.name);
    taken
}

/// The time of copying the image and the object.
fn copy(row: &Row, copies: &mut [Buffer; 2]) -> Duration {
    let [image, object] = black_box(copies);
    let start = Instant::now();
    image.bytes_mut().copy_from_slice(&row.input.image);
    object.bytes_mut().copy_from_slice(&row.input.object);
    let taken = start.elapsed();
    black_box((image, object));
    taken
}

fn micros(time: Duration) -> f64 {
    time.as_nanos() as f64 / 1_000.0
}
