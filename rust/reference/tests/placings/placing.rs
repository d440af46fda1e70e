//! Check 8, each sentence of "Placing" just kept and just broken, with the
//! answer. `top` is the last address, 2^32 - 1 or 2^64 - 1.

use crate::Case;
use testing::build::*;

const BASE: u64 = 0x1000;
const DONE: (u32, u32) = (0, 0);
/// A window, sections with their addresses, and the answer.
type Row = (&'static str, (u64, usize), Vec<(Section, u64)>, (u32, u32));

fn bytes(size: usize) -> Section {
    Section::loaded(1, &vec![7; size])
}

fn room(size: u64) -> Section {
    Section::nobits(1, size)
}

fn aligned(alignment: u64, size: usize) -> Section {
    Section::loaded(alignment, &vec![7; size])
}

/// A section that is not allocated.
fn note(size: usize) -> Section {
    Section {
        flags: 0,
        ..bytes(size)
    }
}

/// "an address is a multiple of the row's alignment (0 counts as 1)"
fn alignments(top: u64) -> Vec<Row> {
    let window = (BASE, 100);
    let half = top / 2 + 1;
    let one = |name, section, address, answer| (name, window, vec![(section, address)], answer);
    vec![
        one("alignment 0", aligned(0, 1), BASE + 3, DONE),
        one("alignment 1", aligned(1, 1), BASE + 3, DONE),
        one("alignment 2", aligned(2, 1), BASE + 2, DONE),
        one("alignment 2, odd", aligned(2, 1), BASE + 1, (8, 1)),
        one("alignment 4", aligned(4, 1), BASE + 4, DONE),
        one("alignment 4, half", aligned(4, 1), BASE + 2, (8, 1)),
        one("alignment 4, odd", aligned(4, 1), BASE + 7, (8, 1)),
        one("alignment 16", aligned(16, 1), BASE + 16, DONE),
        one("alignment 16, half", aligned(16, 1), BASE + 8, (8, 1)),
        one("alignment 4,096", aligned(4_096, 1), BASE, DONE),
        one("alignment 8,192", aligned(8_192, 1), BASE, (8, 1)),
        one("empty, aligned", aligned(16, 0), top - 15, DONE),
        one("empty, half", aligned(16, 0), top - 7, (8, 1)),
        one("NOBITS, aligned", Section::nobits(8, 4), 0x28, DONE),
        one("NOBITS, half", Section::nobits(8, 4), 0x2C, (8, 1)),
        one(
            "the highest alignment at 0",
            Section::nobits(half, 1),
            0,
            DONE,
        ),
        one(
            "the highest alignment",
            Section::nobits(half, 1),
            half,
            DONE,
        ),
        one(
            "the highest alignment at half of it",
            Section::nobits(half, 1),
            half / 2,
            (8, 1),
        ),
        one(
            "the highest alignment one above it",
            Section::nobits(half, 1),
            half + 1,
            (8, 1),
        ),
        one(
            "the highest alignment at the top",
            Section::nobits(half, 1),
            top,
            (8, 1),
        ),
        (
            "the highest alignment, loaded",
            (half, 8),
            vec![(aligned(half, 8), half)],
            DONE,
        ),
        (
            "the second is not aligned",
            window,
            vec![(aligned(4, 4), BASE), (aligned(4, 4), BASE + 6)],
            (8, 2),
        ),
    ]
}

/// "the row ends at or below 2^32", or 2^64
fn ends(top: u64) -> Vec<Row> {
    let one = |name, section, address, answer| (name, (BASE, 9), vec![(section, address)], answer);
    let at_top = |name, section, address, answer| {
        let window = (top - 255, 256);
        (name, window, vec![(section, address)], answer)
    };
    vec![
        one("ends at the end", room(16), top - 15, DONE),
        one("ends one past it", room(17), top - 15, (8, 1)),
        one("all but one at 0", room(top), 0, DONE),
        one("all but one at 1", room(top), 1, DONE),
        one("all but one at 2", room(top), 2, (8, 1)),
        one("all but one at the top", room(top), top, (8, 1)),
        one("the upper half", room(top / 2 + 1), top / 2 + 1, DONE),
        one("one more", room(top / 2 + 2), top / 2 + 1, (8, 1)),
        one("no byte at the top", room(0), top, DONE),
        one("a byte at the top", room(1), top, DONE),
        one("two bytes at the top", room(2), top, (8, 1)),
        at_top("a whole window", bytes(256), top - 255, DONE),
        at_top("loaded byte at the top", bytes(1), top, DONE),
        at_top("loaded bytes at the top", bytes(2), top, (8, 1)),
        at_top("no loaded byte at the top", bytes(0), top, DONE),
        at_top("from the end around", bytes(257), top - 255, (8, 1)),
        (
            "the last 16 bytes",
            (top - 1_048_575, 1_048_576),
            vec![(bytes(16), top - 15)],
            DONE,
        ),
        (
            "the last 16 bytes and one",
            (top - 1_048_575, 1_048_576),
            vec![(bytes(17), top - 15)],
            (8, 1),
        ),
    ]
}

/// "a laid row of size above 0 lies in the window"
fn windows(top: u64) -> Vec<Row> {
    let note = Section {
        kind: 7,
        ..bytes(1)
    };
    let one =
        |name, section, address, answer| (name, (BASE, 100), vec![(section, address)], answer);
    let other = |name, window, section, address, answer| {
        let sections: Vec<(Section, u64)> = vec![(section, address)];
        (name, window, sections, answer)
    };
    vec![
        one("the whole window", bytes(100), BASE, DONE),
        one("its first byte", bytes(1), BASE, DONE),
        one("its last byte", bytes(1), BASE + 99, DONE),
        one("just before it", bytes(1), BASE - 1, (8, 1)),
        one("just behind it", bytes(1), BASE + 100, (8, 1)),
        one("over its start", bytes(2), BASE - 1, (8, 1)),
        one("over its end", bytes(2), BASE + 99, (8, 1)),
        one("longer than it", bytes(101), BASE, (8, 1)),
        one("around it", bytes(102), BASE - 1, (8, 1)),
        one("at 0", bytes(1), 0, (8, 1)),
        one("at the top", bytes(1), top, (8, 1)),
        one("at 2^31", bytes(1), 1 << 31, (8, 1)),
        one("2^16 further", bytes(1), BASE + 65_536, (8, 1)),
        one("empty, at 0", bytes(0), 0, DONE),
        one("empty, at the top", bytes(0), top, DONE),
        one("empty, just before it", bytes(0), BASE - 1, DONE),
        one("empty, at its end", bytes(0), BASE + 100, DONE),
        one("empty, behind its end", bytes(0), BASE + 101, DONE),
        one("NOBITS at 5", room(9), 5, DONE),
        one("NOBITS over its end", room(9), BASE + 99, DONE),
        one("NOBITS around it", room(9_000), 0, DONE),
        one("another type", note.clone(), BASE + 5, DONE),
        one("another type at 5", note, 5, (8, 1)),
        other("no window, no byte", (BASE, 0), bytes(0), BASE, DONE),
        other("no window, a byte", (BASE, 0), bytes(1), BASE, (8, 1)),
        other("no window, NOBITS", (BASE, 0), room(9), BASE, DONE),
        other("a window of 1", (BASE, 1), bytes(1), BASE, DONE),
        other("a window from 0", (0, 4), bytes(4), 0, DONE),
        other("behind one from 0", (0, 4), bytes(1), 4, (8, 1)),
        other("the top and one from 0", (0, 4), bytes(1), top, (8, 1)),
        other("a window at the top", (top, 1), bytes(1), top, DONE),
        other("none at the top", (top, 0), bytes(1), top, (8, 1)),
        other("before the top", (top, 1), bytes(1), top - 1, (8, 1)),
        other("0 and the top", (top, 1), bytes(1), 0, (8, 1)),
        other(
            "the longest window",
            (0, 1_048_576),
            bytes(1),
            1_048_575,
            DONE,
        ),
        other(
            "behind the longest",
            (0, 1_048_576),
            bytes(1),
            1_048_576,
            (8, 1),
        ),
        other("too long a window", (0, 1_048_577), bytes(1), 0, (3, 0)),
        other("a window past the top", (top, 2), bytes(1), top, (3, 0)),
    ]
}

/// "two rows of size above 0 share no address, the higher row being at fault"
fn overlaps() -> Vec<Row> {
    let rows = |name, sections: &[(Section, u64)], answer| {
        let place = |(section, at): &(Section, u64)| (section.clone(), BASE + at);
        let placed = sections.iter().map(place).collect();
        (name, (BASE, 100), placed, answer)
    };
    let b = bytes;
    vec![
        rows("touch upward", &[(b(4), 0), (b(4), 4)], DONE),
        rows("touch downward", &[(b(4), 4), (b(4), 0)], DONE),
        rows("share one upward", &[(b(4), 0), (b(4), 3)], (8, 2)),
        rows("share one downward", &[(b(4), 3), (b(4), 0)], (8, 2)),
        rows("the same", &[(b(4), 8), (b(4), 8)], (8, 2)),
        rows("inside", &[(b(9), 0), (b(1), 4)], (8, 2)),
        rows("around", &[(b(1), 4), (b(9), 0)], (8, 2)),
        rows("same start", &[(b(4), 8), (b(9), 8)], (8, 2)),
        rows("same end", &[(b(4), 8), (b(1), 11)], (8, 2)),
        rows("empty inside", &[(b(9), 0), (b(0), 4)], DONE),
        rows("empty around", &[(b(0), 4), (b(9), 0)], DONE),
        rows("empty at the start", &[(b(9), 8), (b(0), 8)], DONE),
        rows("empty at the end", &[(b(9), 8), (b(0), 17)], DONE),
        rows("two empty ones", &[(b(0), 4), (b(0), 4)], DONE),
        rows("empty NOBITS inside", &[(b(9), 0), (room(0), 4)], DONE),
        rows("NOBITS above", &[(b(4), 0), (room(4), 3)], (8, 2)),
        rows("NOBITS below", &[(room(4), 3), (b(4), 0)], (8, 2)),
        rows("NOBITS touches", &[(b(4), 0), (room(4), 4)], DONE),
        rows("far", &[(room(4), 5_000), (room(4), 5_003)], (8, 2)),
        rows("far, touch", &[(room(4), 5_000), (room(4), 5_004)], DONE),
        rows(
            "the third in both",
            &[(b(4), 0), (b(4), 8), (b(7), 2)],
            (8, 3),
        ),
        rows(
            "the third in the first",
            &[(b(4), 0), (b(4), 8), (b(2), 3)],
            (8, 3),
        ),
        rows(
            "the third in the second",
            &[(b(4), 0), (b(4), 8), (b(2), 11)],
            (8, 3),
        ),
        rows(
            "the second before the third",
            &[(b(4), 0), (b(4), 2), (b(4), 200)],
            (8, 2),
        ),
        rows(
            "the third in the first, which is outside",
            &[(b(4), 98), (b(4), 8), (b(4), 99)],
            (8, 1),
        ),
        rows("three that touch", &[(b(4), 4), (b(4), 8), (b(4), 0)], DONE),
        rows(
            "the second inside and not aligned",
            &[(b(9), 0), (aligned(4, 1), 2)],
            (8, 2),
        ),
    ]
}

/// The ends of the address space, and sections that have no address.
fn far_overlaps(top: u64) -> Vec<Row> {
    let none = Section {
        kind: NULL,
        ..bytes(8)
    };
    let last = room(16);
    vec![
        (
            "the last and the first addresses",
            (0, 16),
            vec![(last.clone(), top - 15), (bytes(16), 0)],
            DONE,
        ),
        (
            "the last addresses twice",
            (0, 16),
            vec![(last.clone(), top - 15), (room(1), top)],
            (8, 2),
        ),
        (
            "all but the last, and the last",
            (top, 1),
            vec![(room(top), 0), (bytes(1), top)],
            DONE,
        ),
        (
            "all but the first, and the last",
            (top, 1),
            vec![(room(top), 1), (bytes(1), top)],
            (8, 2),
        ),
        (
            "past the end, and over the first addresses",
            (0, 16),
            vec![(bytes(16), 0), (room(32), top - 15)],
            (8, 2),
        ),
        (
            "past the end, and below it",
            (0, 16),
            vec![(room(32), top - 15), (last, top - 15)],
            (8, 1),
        ),
        (
            "0 beside a section that is not allocated",
            (0, 16),
            vec![(note(8), 0), (bytes(8), 0), (note(8), 0)],
            DONE,
        ),
        (
            "0 beside NULL",
            (0, 16),
            vec![(none, 0), (bytes(8), 0)],
            DONE,
        ),
    ]
}

/// 127 sections of two bytes one behind the other; then one of them moves.
fn many() -> Vec<Row> {
    let line: Vec<(Section, u64)> = (0..127).map(|at| (bytes(2), BASE + 2 * at)).collect();
    let moved = |section: usize, address: u64| {
        let mut sections = line.clone();
        sections[section - 1].1 = address;
        sections
    };
    vec![
        ("127 in a line", (BASE, 254), line.clone(), DONE),
        (
            "127 in a shorter window",
            (BASE, 253),
            line.clone(),
            (8, 127),
        ),
        ("127 in half a window", (BASE, 127), line.clone(), (8, 64)),
        ("127 before a window", (BASE + 1, 399), line.clone(), (8, 1)),
        (
            "the last on the first",
            (BASE, 254),
            moved(127, BASE),
            (8, 127),
        ),
        (
            "the first on the last",
            (BASE, 254),
            moved(1, BASE + 252),
            (8, 127),
        ),
        (
            "the tenth on the ninth",
            (BASE, 254),
            moved(10, BASE + 17),
            (8, 10),
        ),
        (
            "the tenth on the last",
            (BASE, 254),
            moved(10, BASE + 251),
            (8, 126),
        ),
    ]
}

pub fn cases(class: Class) -> Vec<Case> {
    let top = (class.address_end() - 1) as u64;
    let tables = [
        alignments(top),
        ends(top),
        windows(top),
        overlaps(),
        far_overlaps(top),
        many(),
    ];
    let case = |(name, (base, length), sections, stated): Row| {
        let mut fit = Fit::placed(base, length, &sections);
        let sections = &fit.sections;
        fit.placements.retain(|(index, _)| {
            let section = &sections[*index as usize];
            section.flags != 0 && section.kind != NULL
        });
        Case::new(
            format!("placing, {class:?}: {name}"),
            &fit.of(class),
            stated,
        )
    };
    tables.into_iter().flatten().map(case).collect()
}
