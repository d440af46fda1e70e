//! The calls that are timed, each a row with a name. All are the same in every
//! run.
//!
//! Most have an image of 65,536 bytes and a span of the whole image, so that
//! all of it is saved. An object has at most 65,536 bytes, as many as the program
//! takes, of which 4,096 relocations take 49,152. What is left has no room for
//! 4,096 instructions, so that some relocations stand at one place (ADD and SUB)
//! or take no bytes (RELAX).
//!
//! The rows of class 2 have the same shapes, and names that begin with `rv64-`.
//! Their relocations are twice as long, so that an object has room for half as
//! many.

mod code;
mod mixed;
mod others;
mod pairs;

pub use others::relocations;

use mixed::Arrangement;

use testing::build::Class;
use testing::damage::Input;
use testing::{Numbers, DONE};

/// The length of the image, but for the real objects.
pub const IMAGE: usize = 65_536;
/// The most relocations of a row of class 1: of growth there are more.
pub const MOST: usize = 4_096;

/// The most relocations of a row of this class.
fn most(class: Class) -> usize {
    match class {
        Class::Elf32 => MOST,
        Class::Elf64 => MOST / 2,
    }
}

/// The most relocations of a row in which every second one names a label of its
/// own.
fn most_near(class: Class) -> usize {
    match class {
        Class::Elf32 => 2_000,
        Class::Elf64 => 1_600,
    }
}

/// Which of the two calls.
#[derive(Clone, Copy, PartialEq, Eq, Debug)]
pub enum Call {
    Fit,
    TakeBack,
}

/// One call that is timed.
#[derive(Clone, Debug)]
pub struct Row {
    pub name: String,
    pub relocations: usize,
    pub call: Call,
    pub input: Input,
    pub answer: Numbers,
}

/// An install that is done, and has this many relocations.
fn done(name: &str, relocations: usize, input: Input) -> Row {
    Row {
        name: name.into(),
        relocations,
        call: Call::Fit,
        input,
        answer: DONE,
    }
}

/// All rows, in the order of the table. A rollback has no class.
pub fn rows() -> Vec<Row> {
    let mut rows = rows_of(Class::Elf32);
    rows.push(others::take_back());
    rows.extend(rows_of(Class::Elf64));
    rows
}

fn rows_of(class: Class) -> Vec<Row> {
    let most = most(class);
    let sized = |name: &str, count: usize, input: Input| {
        let name = format!("{name}-{count}");
        done(&name, count, input)
    };
    let in_runs = mixed::input(class, most, Arrangement::InRuns);
    let mut rows = vec![sized("mixed-in-runs", most, in_runs)];
    for count in [64, 256, 1_024, most] {
        let input = mixed::input(class, count, Arrangement::Shuffled);
        rows.push(sized("mixed", count, input));
    }
    for count in [64, 256, 1_024, most] {
        rows.push(sized("pairs", count, pairs::far(class, count)));
    }
    for count in [64, 256, 1_024, most_near(class)] {
        rows.push(sized("near-pairs", count, pairs::near(class, count)));
    }
    rows.push(sized("crowded", most, pairs::crowded(class, most)));
    rows.push(Row {
        answer: (9, most as u32 - 1, 0),
        ..sized("falling", most, pairs::falling(class, most))
    });
    let many_symbols = others::many_symbols(class, 1_023, 64);
    rows.push(sized("many-symbols", 64, many_symbols));
    rows.push(done("many-sections", 15, others::many_sections(class, 32)));
    rows.extend(["many-relocations", "gcc-relaxed"].map(|name| others::real(class, name)));
    rows.push(done("no-relocations", 0, others::no_relocations(class)));
    rows.push(Row {
        answer: (13, most as u32 - 1, 0),
        ..sized("refused-last", most, mixed::too_far_at_last(class, most))
    });
    if class == Class::Elf64 {
        for row in &mut rows {
            row.name.insert_str(0, "rv64-");
        }
    }
    rows
}

/// The row with this name, which may be one of growth.
pub fn row(name: &str) -> Option<Row> {
    let all = rows().into_iter().chain(growth());
    all.into_iter().find(|row| row.name == name)
}

/// How the time of a done install grows: in relocations, symbols, sections and
/// bytes, up to what an object may have. The row of class 2 follows that of
/// class 1.
pub fn growth() -> Vec<Row> {
    let both = |name: String, input: &dyn Fn(Class) -> Input| {
        [("", Class::Elf32), ("rv64-", Class::Elf64)].map(|(before, class)| {
            let input = input(class);
            let count = relocations(&input.object).len();
            done(&format!("{before}{name}"), count, input)
        })
    };
    let mut rows = Vec::new();
    for count in [4_096, 8_192, 16_384, 32_768] {
        let image = 8 * count.max(8_192);
        let mixed = |class| mixed::input_in(image, class, count);
        rows.extend(both(format!("{count}-relocations"), &mixed));
    }
    for count in [4_096, 8_192, 16_384, 32_768] {
        let image = 8 * count.max(8_192);
        let pairs = |class| pairs::far_in(image, class, count);
        rows.extend(both(format!("{count}-in-pairs"), &pairs));
    }
    let crowded = |class| pairs::crowded_in(262_144, class, 32_768);
    rows.extend(both("32768-crowded".into(), &crowded));
    let turned = |class| pairs::turned(262_144, class, 32_768);
    for row in both("32768-turned".into(), &turned) {
        rows.push(Row {
            answer: (9, 3, 0),
            ..row
        });
    }
    for count in [1_024, 2_048, 4_096, 8_192] {
        let symbols = |class| others::many_symbols(class, count - 1, 64);
        rows.extend(both(format!("{count}-symbols"), &symbols));
    }
    for count in [32, 64, 128] {
        let sections = |class| others::many_sections(class, count);
        rows.extend(both(format!("{count}-sections"), &sections));
    }
    for image in [65_536, 131_072, 262_144, 524_288, 1_048_576] {
        let plain = |class| others::plain(image, class, image as u32 / 4 - 256);
        rows.extend(both(format!("{image}-bytes"), &plain));
    }
    rows
}
