//! The timed calls are what their names say, and the library, the reference and
//! the comparison fitter answer them alike and leave the same bytes.

use bench::inputs::{growth, relocations, row, rows, Call, Row, IMAGE};
use bench::run::{Buffers, Fitter};
use reference::object::{Header, Object};
use reference::Class;
use testing::damage::get;
use testing::{numbers, DONE};

/// The rows that are real objects, but for what names of class 2 begin with.
const REAL: [&str; 2] = ["many-relocations", "gcc-relaxed"];

const PCREL_HI20: usize = 23;
const RELAX: usize = 51;

fn named(name: &str) -> Row {
    row(name).expect("a row")
}

/// How many relocations of each type a row has.
fn types(row: &Row) -> [usize; 256] {
    let mut counts = [0; 256];
    for (_, kind) in relocations(&row.input.object) {
        counts[kind as usize] += 1;
    }
    counts
}

/// How many symbols a row's object has.
fn symbols(row: &Row) -> u32 {
    let object = &row.input.object;
    let header = Header::read(object).expect("an object");
    let object = Object::read(object, header).expect("an object");
    let table = object.symbol_table().expect("a symbol table");
    (0..)
        .find(|index| table.get(*index).is_none())
        .expect("an end")
}

/// How many PCREL_LO12.
fn low_halves(types: &[usize; 256]) -> usize {
    types[24] + types[25]
}

/// The types of a row's relocations, in file order.
fn order_of_types(name: &str) -> Vec<u32> {
    let all = relocations(&named(name).input.object).into_iter();
    all.map(|(_, kind)| kind).collect()
}

#[test]
fn names_and_counts() {
    let rows = rows();
    for (index, row) in rows.iter().enumerate() {
        let twice = rows[..index].iter().any(|other| other.name == row.name);
        assert!(!twice, "{} is one name", row.name);
        let count = relocations(&row.input.object).len();
        assert_eq!(row.relocations, count, "{}", row.name);
        if let Ok(count) = row.name.rsplit('-').next().unwrap_or("").parse::<usize>() {
            assert_eq!(row.relocations, count, "{}", row.name);
        }
    }
}

#[test]
fn answered_alike() {
    for row in rows().into_iter().chain(growth()) {
        let input = &row.input;
        let (mut image, mut journal) = (input.image.clone(), input.journal.clone());
        let answer = match row.call {
            Call::Fit => reference::install(&input.object, &input.order, &mut image, &mut journal),
            Call::TakeBack => reference::rollback(&mut image, &mut journal),
        };
        assert_eq!(numbers(answer), row.answer, "{}", row.name);
        for fitter in [Fitter::Library, Fitter::Comparison] {
            let mut buffers = Buffers::new(input);
            buffers.fill(input);
            assert_eq!(buffers.call(fitter, row.call), row.answer, "{}", row.name);
            assert!(buffers.image.bytes() == image, "{}: {fitter:?}", row.name);
            assert!(
                buffers.journal.bytes() == journal,
                "{}: {fitter:?}",
                row.name
            );
        }
    }
}

/// Growth goes to what an object may have: 32,768 relocations, 8,192 symbols,
/// 128 sections and an image of 1,048,576 bytes.
#[test]
fn growth_to_the_limits() {
    for before in ["", "rv64-"] {
        let named = |name: &str| named(&format!("{before}{name}"));
        for name in ["32768-relocations", "32768-in-pairs"] {
            assert_eq!(named(name).relocations, 32_768, "{name}");
        }
        let types = types(&named("32768-in-pairs"));
        assert_eq!((types[PCREL_HI20], low_halves(&types)), (16_384, 16_384));
        assert_eq!(symbols(&named("8192-symbols")), 8_192);
        let object = named("128-sections").input.object;
        let header = Header::read(&object).expect("an object");
        let object = Object::read(&object, header).expect("an object");
        assert_eq!(object.sections().len(), 128);
        assert_eq!(named("1048576-bytes").input.image.len(), 1_048_576);
    }
}

/// All of the image is saved by an install that is made for the benchmark.
#[test]
fn the_span_is_the_whole_image() {
    for row in rows() {
        let is_real = REAL.contains(&row.name.trim_start_matches("rv64-"));
        if row.call == Call::TakeBack {
            let span = (get(&row.input.journal, 4, 4), get(&row.input.journal, 8, 4));
            assert_eq!(span, (0, IMAGE), "{}", row.name);
        } else if row.answer == DONE && !is_real {
            let mut buffers = Buffers::new(&row.input);
            buffers.fill(&row.input);
            buffers.call(Fitter::Library, row.call);
            let ledger = buffers.journal.bytes();
            assert_eq!((get(ledger, 4, 4), get(ledger, 8, 4)), (0, IMAGE));
            assert_eq!(row.input.image.len(), IMAGE, "{}", row.name);
        }
    }
}

#[test]
fn mixed() {
    for (name, turns, words) in [
        ("mixed-in-runs-4096", 372, 376),
        ("mixed-4096", 372, 376),
        ("rv64-mixed-in-runs-2048", 186, 188),
        ("rv64-mixed-2048", 186, 188),
    ] {
        let types = types(&named(name));
        for kind in [16, 17, 18, 26, 27, 28] {
            assert_eq!(types[kind], turns, "{name}, type {kind}");
        }
        let found = (types[35], types[39], types[1]);
        assert_eq!(found, (2 * turns, 2 * turns, words), "{name}");
    }
    // ADD32 and SUB32 take turns at one place after the other.
    let changes = |name| {
        let types = order_of_types(name);
        let differs = |two: &&[u32]| two[0] != two[1] && (two[0], two[1]) != (39, 35);
        types.windows(2).filter(differs).count()
    };
    assert_eq!(changes("mixed-in-runs-4096"), 744 + 8);
    assert!(changes("mixed-4096") > 3_000, "{}", changes("mixed-4096"));
    assert_eq!(changes("rv64-mixed-in-runs-2048"), 372 + 8);
    assert!(changes("rv64-mixed-2048") > 1_500);
}

#[test]
fn pairs() {
    for (name, pairs) in [
        ("pairs-64", 32),
        ("pairs-4096", 1_984),
        ("rv64-pairs-64", 32),
        ("rv64-pairs-2048", 1_024),
    ] {
        let types = types(&named(name));
        let relax = named(name).relocations - 2 * pairs;
        let found = (types[PCREL_HI20], low_halves(&types), types[RELAX]);
        assert_eq!(found, (pairs, pairs, relax), "{name}");
    }
    for (name, pairs) in [("near-pairs-2000", 1_000), ("rv64-near-pairs-1600", 800)] {
        let types = types(&named(name));
        assert_eq!((types[PCREL_HI20], low_halves(&types)), (pairs, pairs));
        // A label for each, the target, and symbol 0.
        assert_eq!(symbols(&named(name)), pairs as u32 + 2, "{name}");
    }
}

#[test]
fn crowded() {
    for (name, half) in [("crowded-4096", 2_000), ("rv64-crowded-2048", 1_000)] {
        let row = named(name);
        let types = types(&row);
        assert_eq!(types[PCREL_HI20], 1, "{name}");
        assert!(types[RELAX] > half && low_halves(&types) > half, "{name}");
        let crowd = relocations(&row.input.object);
        let at_one_place = crowd.iter().filter(|(offset, _)| *offset == 0).count();
        assert_eq!(at_one_place, types[RELAX] + 1, "{name}");
    }
}

#[test]
fn falling() {
    for (name, low, last) in [
        ("falling-4096", 1_984, 4_095),
        ("rv64-falling-2048", 1_023, 2_047),
    ] {
        let row = named(name);
        assert_eq!(low_halves(&types(&row)), low, "{name}");
        let offsets = relocations(&row.input.object);
        let falls = |two: &[(u64, u32)]| two[1].0 < two[0].0;
        assert_eq!(offsets.windows(2).position(falls), Some(last - 1), "{name}");
    }
}

/// The two classes have the same rows, but for the rollback.
#[test]
fn rows_of_both_classes() {
    let names: Vec<String> = rows().into_iter().map(|row| row.name).collect();
    let shape = |name: &String| {
        name.trim_end_matches(|c: char| c.is_ascii_digit())
            .to_string()
    };
    let (of_64, of_32): (Vec<_>, Vec<_>) = names.iter().partition(|name| name.starts_with("rv64-"));
    let of_64: Vec<String> = of_64
        .iter()
        .map(|name| shape(&name.replace("rv64-", "")))
        .collect();
    let of_32 = of_32.into_iter().filter(|name| *name != "take-back");
    assert_eq!(of_64, of_32.map(shape).collect::<Vec<_>>());
    for row in rows().iter().filter(|row| row.call == Call::Fit) {
        let class = match row.name.starts_with("rv64-") {
            true => Class::Elf64,
            false => Class::Elf32,
        };
        assert_eq!(Class::of(&row.input.object), Some(class), "{}", row.name);
    }
}

#[test]
fn others() {
    for start in ["", "rv64-"] {
        let name = |name: &str| format!("{start}{name}");
        assert_eq!(symbols(&named(&name("many-symbols-64"))), 1_024);
        let object = named(&name("many-sections")).input.object;
        let header = Header::read(&object).expect("an object");
        let object = Object::read(&object, header).expect("an object");
        assert_eq!(object.sections().len(), 32);
    }
    for name in ["refused-last-4096", "rv64-refused-last-2048"] {
        assert_eq!(order_of_types(name).last(), Some(&17), "{name}");
    }
    for class in Class::ALL {
        let objects = testing::given::objects().into_iter();
        let objects = objects.filter(|given| Class::of(&given.object) == Some(class));
        let most = objects
            .max_by_key(|given| relocations(&given.object).len())
            .expect("objects");
        let name = most.name.trim_start_matches("rv64-");
        assert_eq!(name, "many-relocations", "{class:?}");
    }
}
