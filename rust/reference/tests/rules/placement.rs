//! Placements (check 6), outside values (check 7) and placing (check 8).

use testing::build::*;
use testing::DONE;

const BASE: u64 = 0x1000;

/// Sections on an image of 100 bytes from 0x1000 on, each with its address.
fn placed(sections: &[(Section, u64)]) -> Fit {
    Fit::placed(BASE, 100, sections)
}

fn bytes(size: usize) -> Section {
    Section::loaded(1, &vec![7; size])
}

#[test]
fn placements_name_exactly_the_allocated_rows() {
    let two = placed(&[(bytes(1), BASE), (bytes(1), BASE + 1)]);
    let with = |placements: &[(u32, u64)]| {
        let mut fit = two.clone();
        fit.placements = placements.to_vec();
        fit.answer_of_both()
    };
    let (first, second) = (two.placements[0], two.placements[1]);
    assert_eq!(with(&[first, second]), DONE);
    assert_eq!(with(&[]), (6, 1, 0));
    assert_eq!(with(&[first]), (6, 2, 0));
    assert_eq!(with(&[second]), (6, 1, 0));
    assert_eq!(with(&[(0, BASE), first, second]), (6, 0, 0));
    assert_eq!(with(&[first, second, (3, BASE)]), (6, 3, 0), "no such row");
    assert_eq!(with(&[first, second, (u32::MAX, 0)]), (6, u32::MAX, 0));
    assert_eq!(with(&[(0, BASE), first]), (6, 0, 0), "the lowest of two");
    assert_eq!(with(&[first, (77, BASE)]), (6, 2, 0), "the lowest of two");
}

#[test]
fn rows_that_need_a_placement() {
    let nobits = placed(&[(Section::nobits(1, 4), 0)]);
    assert_eq!(nobits.answer_of_both(), DONE);
    let with_none = |section: Section| {
        let mut fit = placed(&[(section, BASE)]);
        fit.placements.clear();
        fit.answer_of_both()
    };
    assert_eq!(with_none(Section::nobits(1, 4)), (6, 1, 0));
    assert_eq!(with_none(bytes(0)), (6, 1, 0), "an empty row too");
    let unallocated = Section {
        flags: !ALLOCATED,
        ..bytes(3)
    };
    assert_eq!(with_none(unallocated.clone()), DONE);
    assert_eq!(placed(&[(unallocated, BASE)]).answer_of_both(), (6, 1, 0));
}

#[test]
fn outside_values_name_undefined_symbols() {
    let symbols = [
        Symbol::new(GLOBAL, 0, 0),
        Symbol::absolute(5),
        Symbol::new(0, 1, 0),
        Symbol::new(WEAK + 6, 0, 0),
        Symbol::new(0, 0xFFF2, 0),
    ];
    let with = |list: &[(u32, u64)]| {
        let mut fit = Fit::code(BASE, &[0; 4], &symbols, &[]);
        fit.external_values = list.to_vec();
        fit.answer_of_both()
    };
    assert_eq!(with(&[(1, 9)]), DONE);
    assert_eq!(with(&[(1, 9), (4, 9)]), DONE, "undefined, even if TLS");
    assert_eq!(with(&[(0, 9)]), (7, 0, 0));
    assert_eq!(with(&[(1, 9), (2, 9), (3, 9)]), (7, 2, 0));
    assert_eq!(with(&[(3, 9)]), (7, 3, 0));
    assert_eq!(with(&[(5, 9)]), (7, 5, 0));
    assert_eq!(with(&[(6, 9)]), (7, 6, 0), "past the table");
    assert_eq!(with(&[(u32::MAX, 9)]), (7, u32::MAX, 0));
    let mut no_table = placed(&[]);
    no_table.external_values = vec![(1, 0)];
    assert_eq!(no_table.answer_of_both(), (7, 1, 0));
}

#[test]
fn addresses_are_multiples_of_the_alignment() {
    let at = |alignment, address| {
        placed(&[(Section::loaded(alignment, &[1]), address)]).answer_of_both()
    };
    assert_eq!(at(0, BASE + 3), DONE);
    assert_eq!(at(1, BASE + 3), DONE);
    assert_eq!(at(4, BASE + 4), DONE);
    assert_eq!(at(4, BASE + 2), (8, 1, 0));
    let empty = |address| placed(&[(Section::loaded(16, &[]), address)]).answer_of_both();
    assert_eq!(empty(0xFFFF_FFF0), DONE);
    assert_eq!(empty(0xFFFF_FFF8), (8, 1, 0), "an empty row too");
    let top = |address| placed(&[(Section::nobits(1 << 31, 1), address)]).answer_of_both();
    assert_eq!(top(1 << 31), DONE);
    assert_eq!(top(1 << 30), (8, 1, 0));
}

#[test]
fn rows_end_at_or_below_the_top() {
    for (class, top) in [
        (Class::Elf32, u64::from(u32::MAX)),
        (Class::Elf64, u64::MAX),
    ] {
        let at = |size, address| {
            let fit = placed(&[(Section::nobits(1, size), address)]);
            fit.of(class).answer()
        };
        assert_eq!(at(16, top - 15), DONE, "{class:?}");
        assert_eq!(at(17, top - 15), (8, 1, 0), "{class:?}");
        assert_eq!(at(top, 1), DONE, "{class:?}");
        assert_eq!(at(top, 2), (8, 1, 0), "{class:?}");
        assert_eq!(at(top, top), (8, 1, 0), "{class:?}");
        assert_eq!(at(0, top), DONE, "{class:?}");
    }
}

/// Above 2^32, where class 1 has no address.
#[test]
fn placing_in_class_2() {
    let above = |address| 0xFFFF_FFFF_0000_0000 + address;
    let at = |alignment, address| {
        let section = Section::loaded(alignment, &[1; 8]);
        let fit = Fit::placed(above(BASE), 100, &[(section, address)]);
        fit.of(Class::Elf64).answer()
    };
    assert_eq!(at(8, above(BASE)), DONE);
    assert_eq!(at(8, above(BASE) + 92), (8, 1, 0), "not aligned");
    assert_eq!(at(4, above(BASE) + 92), DONE);
    assert_eq!(at(1, above(BASE) + 93), (8, 1, 0), "past the window");
    assert_eq!(at(8, BASE), (8, 1, 0), "the same modulo 2^32");
    assert_eq!(at(1 << 63, above(BASE)), (8, 1, 0));
    let far = |alignment, address| {
        let fit = placed(&[(Section::nobits(alignment, 1), address)]);
        fit.of(Class::Elf64).answer()
    };
    assert_eq!(far(1 << 63, 1 << 63), DONE);
    assert_eq!(far(1 << 63, 1 << 62), (8, 1, 0));
    assert_eq!(far(1 << 63, 0), DONE);
    let two = |first, second| {
        let sections = [
            (Section::nobits(1, 16), first),
            (Section::nobits(1, 16), second),
        ];
        placed(&sections).of(Class::Elf64).answer()
    };
    assert_eq!(two(0, 1 << 32), DONE, "the same modulo 2^32");
    assert_eq!(two(1 << 32, (1 << 32) + 16), DONE);
    assert_eq!(two(1 << 32, (1 << 32) + 15), (8, 2, 0));
    assert_eq!(two(u64::MAX - 15, u64::MAX - 31), DONE);
    assert_eq!(two(u64::MAX - 15, u64::MAX - 30), (8, 2, 0));
    assert_eq!(two(u64::MAX - 15, 0), DONE, "the last and the first");
}

#[test]
fn laid_rows_lie_in_the_window() {
    let at = |size, address| placed(&[(bytes(size), address)]).answer_of_both();
    assert_eq!(at(100, BASE), DONE);
    assert_eq!(at(1, BASE + 99), DONE);
    assert_eq!(at(1, BASE - 1), (8, 1, 0));
    assert_eq!(at(2, BASE + 99), (8, 1, 0));
    assert_eq!(at(1, BASE + 100), (8, 1, 0));
    assert_eq!(at(0, 5), DONE, "an empty row lies anywhere");
    assert_eq!(placed(&[(Section::nobits(1, 9), 5)]).answer_of_both(), DONE);
    let note = Section {
        kind: 7,
        ..bytes(1)
    };
    assert_eq!(
        placed(&[(note, 5)]).answer_of_both(),
        (8, 1, 0),
        "any laid type"
    );
}

#[test]
fn rows_share_no_address() {
    let two = |first: Section, at: u64, second: Section, also_at: u64| {
        placed(&[(first, BASE + at), (second, BASE + also_at)]).answer_of_both()
    };
    assert_eq!(two(bytes(4), 0, bytes(4), 4), DONE);
    assert_eq!(two(bytes(4), 4, bytes(4), 0), DONE);
    assert_eq!(two(bytes(4), 0, bytes(4), 3), (8, 2, 0));
    assert_eq!(two(bytes(4), 3, bytes(4), 0), (8, 2, 0));
    assert_eq!(
        two(bytes(9), 0, bytes(1), 4),
        (8, 2, 0),
        "one inside another"
    );
    assert_eq!(two(bytes(9), 0, bytes(0), 4), DONE, "an empty row");
    assert_eq!(two(bytes(0), 4, bytes(9), 0), DONE, "an empty row");
    assert_eq!(two(bytes(4), 0, Section::nobits(1, 4), 3), (8, 2, 0));
    assert_eq!(two(Section::nobits(1, 4), 3, bytes(4), 0), (8, 2, 0));
    let far = Section::nobits(1, 4);
    assert_eq!(two(far.clone(), 5_000, far.clone(), 5_003), (8, 2, 0));
    assert_eq!(two(far.clone(), 5_000, far, 5_004), DONE);
}

#[test]
fn the_lowest_row_is_named() {
    let three = placed(&[
        (bytes(4), BASE),
        (bytes(4), BASE + 2),
        (bytes(4), BASE + 200),
    ]);
    assert_eq!(three.answer_of_both(), (8, 2, 0));
}

/// Each check in turn is broken together with all later ones.
#[test]
fn checks_5_to_9_in_order() {
    let list = [Relocation::new(0, 3, 9, 0)];
    let mut fit = Fit::code(BASE, &[0; 4], &[], &list);
    fit.sections[1].alignment = 3;
    fit.placements = vec![(2, 5)];
    fit.external_values = vec![(8, 0)];
    assert_eq!(fit.answer_of_both(), (5, 1, 0));
    fit.sections[1].alignment = 4;
    assert_eq!(fit.answer_of_both(), (6, 1, 0));
    fit.placements = vec![(1, 5)];
    assert_eq!(fit.answer_of_both(), (7, 8, 0));
    fit.external_values.clear();
    assert_eq!(fit.answer_of_both(), (8, 1, 0));
    fit.placements = vec![(1, BASE)];
    assert_eq!(fit.answer_of_both(), (9, 0, 0));
}
