//! Which fault is named: the lowest number of the first relocation, counted
//! over all RELA sections.

use crate::fits::*;
use crate::{Answer, Case, DONE};
use testing::build::*;

/// jal, branch, jal, branch.
const CODE: [u32; 4] = [0x6F, 0x63, 0x6F, 0x63];

/// Offset, type, symbol and A. Symbol 1 is absolute, at PLACE.
type Entry = (u64, u32, u32, i64);

const KEPT: Entry = (0, JAL, 1, 0);
const KEPT_NEXT: Entry = (4, BRANCH, 1, 0);
const SHAPE: Entry = (8, 3, 1, 0);
const SYMBOL: Entry = (8, JAL, 9, 0);
const FORM: Entry = (8, BRANCH, 1, 0);
const FAR: Entry = (8, JAL, 1, 1);
const OFF: Entry = (9, ALIGN, 1, 0);

fn section(index: u32, list: &[Entry]) -> Section {
    let relocation =
        |(offset, kind, symbol, addend): &Entry| Relocation::new(*offset, *kind, *symbol, *addend);
    let list: Vec<Relocation> = list.iter().map(relocation).collect();
    Section::relocations(index, 2, &list)
}

/// A section that is relocated, and its relocations.
type List<'l> = (u32, &'l [Entry]);

/// Sections 1, 4 and 7 are loaded and section 6 is not allocated. The RELA
/// sections are 3, 5, 8 and 9; those that are not given count for nothing.
fn with(lists: &[List]) -> Fit {
    let mut fit = at(PLACE, &words(&CODE), &[Symbol::absolute(PLACE)], &[]);
    let loaded = Section::loaded(1, &words(&CODE));
    let note = Section {
        flags: 0,
        ..loaded.clone()
    };
    let list = |at: usize| lists.get(at).copied().unwrap_or((6, &[]));
    let [first, second, third, fourth] = [0, 1, 2, 3].map(|at| section(list(at).0, list(at).1));
    fit.sections[3] = first;
    fit.sections
        .extend([loaded.clone(), second, note, loaded, third, fourth]);
    fit.placements.extend([(4, PLACE + 16), (7, PLACE + 32)]);
    fit
}

fn case(name: &str, lists: &[List], answer: Answer) -> Case {
    Case::new(name, &with(lists), answer)
}

/// The place is counted over all relocations.
fn places() -> Vec<Case> {
    let first_two: List = (1, &[KEPT, KEPT_NEXT]);
    let second_two: List = (4, &[KEPT, KEPT_NEXT]);
    let one: List = (1, &[KEPT]);
    let shape: List = (4, &[SHAPE]);
    vec![
        case("no relocation", &[], DONE),
        case("empty sections", &[(1, &[]), (4, &[]), (7, &[])], DONE),
        case("none broken", &[first_two, second_two, (7, &[KEPT])], DONE),
        case("the first", &[(1, &[FAR]), shape], (13, 0, 0)),
        case("the second", &[(1, &[KEPT, FAR]), shape], (13, 1, 0)),
        case("third", &[(1, &[KEPT, KEPT_NEXT, FORM]), shape], (11, 2, 0)),
        case(
            "in the next",
            &[one, (4, &[FAR]), (7, &[SHAPE])],
            (13, 1, 0),
        ),
        case("its second", &[one, (4, &[KEPT, SYMBOL])], (10, 2, 1)),
        case(
            "in the last",
            &[one, second_two, (7, &[KEPT, OFF])],
            (14, 4, 0),
        ),
        case("behind an empty one", &[(1, &[]), (4, &[FORM])], (11, 0, 0)),
        case(
            "behind two",
            &[one, (4, &[]), (7, &[KEPT, FORM])],
            (11, 2, 0),
        ),
    ]
}

/// RELA sections count only for allocated sections, and go by their own number.
fn sections() -> Vec<Case> {
    let note: List = (6, &[SHAPE, SHAPE]);
    let late: List = (1, &[(12, NONE, 0, 0)]);
    let one: List = (7, &[KEPT]);
    vec![
        case("does not count", &[note, (4, &[KEPT, FAR])], (13, 1, 0)),
        case(
            "none counts",
            &[note, note, (31, &[OFF]), (32, &[FAR])],
            DONE,
        ),
        case(
            "by RELA section",
            &[one, (1, &[KEPT, FORM]), (4, &[FAR])],
            (11, 2, 0),
        ),
        case(
            "higher one first",
            &[(7, &[FAR]), (1, &[SHAPE])],
            (13, 0, 0),
        ),
        case("offsets start anew", &[late, (4, &[KEPT]), one], DONE),
        case(
            "overlap starts anew",
            &[(1, &[(12, WORD, 1, 0)]), one],
            DONE,
        ),
    ]
}

/// "each through 9 to 14 before the next"
fn two_relocations() -> Vec<Case> {
    let broken = [
        ((9, 0, 0), (0, 3, 1, 0)),
        ((10, 0, 1), (0, JAL, 9, 0)),
        ((11, 0, 0), (0, BRANCH, 1, 0)),
        ((13, 0, 0), (0, JAL, 1, 1)),
        ((14, 0, 0), (0, ALIGN, 1, 2)),
    ];
    let mut cases = Vec::new();
    for (answer, first) in broken {
        for second in [SHAPE, SYMBOL, FORM, FAR, OFF] {
            let list = [first, second];
            let name = format!("{answer:?}, and then {second:?}");
            cases.push(case(&name, &[(1, &list)], answer));
        }
    }
    cases
}

/// Two faults of one relocation: the lower number.
fn two_faults() -> Vec<Case> {
    let rows: [(Entry, Answer); 15] = [
        ((1, JAL, 9, 0), (10, 0, 1)),
        ((14, JAL, 9, 0), (9, 0, 0)),
        ((13, JAL, 1, 1), (9, 0, 0)),
        ((0, BRANCH, 9, 1), (10, 0, 1)),
        ((0, BRANCH, 1, 1), (11, 0, 0)),
        ((1, JAL, 1, 0), (11, 0, 0)),
        ((0, JAL, 1, 1), (13, 0, 0)),
        ((0, PCREL_LO12_I, 9, 1), (9, 0, 0)),
        ((0, PCREL_LO12_I, 9, 0), (10, 0, 1)),
        ((0, PCREL_LO12_I, 1, 1), (9, 0, 0)),
        ((0, PCREL_LO12_I, 1, 0), (10, 0, 7)),
        ((0, PCREL_LO12_I, 2, 0), (11, 0, 0)),
        ((1, ALIGN, 1, 1), (9, 0, 0)),
        ((15, ALIGN, 1, 2), (9, 0, 0)),
        ((1, ALIGN, 1, 2), (14, 0, 0)),
    ];
    let case = |(entry, answer): (Entry, Answer)| {
        let mut fit = with(&[(1, &[entry])]);
        let label = Symbol::new(0, 1, 4);
        let symbols = [Symbol::default(), Symbol::absolute(PLACE), label];
        fit.sections[2] = Section::symbols(&symbols);
        Case::new(format!("{entry:?} alone"), &fit, answer)
    };
    rows.map(case).into_iter().collect()
}

/// Every loaded section has its own relocations, and one has none.
fn bytes() -> Case {
    let fit = with(&[
        (7, &[(0, JAL, 1, 2), (8, JAL, 0, 0x1020)]),
        (6, &[SHAPE]),
        (1, &[KEPT_NEXT]),
    ]);
    let mut case = Case::new("three sections", &fit, DONE);
    case.bytes = vec![
        (1, words(&[0x6F, 0xFE00_0EE3, 0x6F, 0x63])),
        (4, words(&CODE)),
        (7, words(&[0xFE3F_F06F, 0x63, 0xFF9F_F06F, 0x63])),
    ];
    case
}

/// As many relocations as there may be, and a fault at the last.
fn many() -> Vec<Case> {
    let with = |last: u32| {
        let mut list = vec![Relocation::new(0, NONE, 0, 0); 32_766];
        list.push(Relocation::new(0, SET8, 1, 0));
        list.push(Relocation::new(0, last, 1, 0));
        at(PLACE, &[0x21], &[Symbol::absolute(0x35)], &list)
    };
    vec![
        Case::done("32,768 relocations", &with(ADD8), &[0x6A]),
        Case::new("the last of 32,768", &with(ADD16), (9, 32_767, 0)),
    ]
}

/// The longest section that an object of 65,536 bytes has room for, at the end
/// of a whole window, with a relocation at each end. Lines of longer ones would
/// be too long.
fn long() -> Case {
    const SIZE: usize = 65_536 - 52 - 4 * 40 - 2 * 16 - 2 * 12;
    let last = SIZE as u64 - 4;
    let list = [
        Relocation::new(0, WORD, 1, 1),
        Relocation::new(last, WORD_PCREL, 1, 0),
    ];
    let address = 0x10_0000 - SIZE as u64;
    let symbols = [Symbol::absolute(0x10_0000)];
    let mut fit = at(address, &[0; SIZE], &symbols, &list);
    fit.base = 0x10_0000 - 65_536;
    fit.image = vec![0; 65_536];
    let mut after = vec![0; SIZE];
    after[..4].copy_from_slice(&words(&[0x10_0001]));
    after[last as usize..].copy_from_slice(&words(&[4]));
    Case::done("a long section", &fit, &after).only_in_class_1()
}

pub fn cases() -> Vec<Case> {
    let mut cases = places();
    cases.extend(sections());
    cases.extend(two_relocations());
    cases.extend(two_faults());
    cases.push(bytes());
    cases.extend(many());
    cases.push(long());
    cases
}
