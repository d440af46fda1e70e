//! The rules of a record, checks 9 to 14 but for symbols, instruction forms and
//! pairs.

use testing::build::*;
use testing::{Numbers, DONE};

const PLACE: u64 = 0x1000;
const MARKERS: [u32; 3] = [0, 43, 51];

/// Relocations against symbol 1, which is absolute 0, as (offset, type, A).
fn fit(size: usize, relocations: &[(u64, u32, i64)]) -> Fit {
    let relocation = |(offset, kind, addend): &(u64, u32, i64)| {
        let symbol = if MARKERS.contains(kind) { 999 } else { 1 };
        Relocation::new(*offset, *kind, symbol, *addend)
    };
    let relocations: Vec<Relocation> = relocations.iter().map(relocation).collect();
    Fit::code(PLACE, &vec![0; size], &[Symbol::absolute(0)], &relocations)
}

/// The answer to such relocations, the same in both classes.
fn list(size: usize, relocations: &[(u64, u32, i64)]) -> Numbers {
    fit(size, relocations).answer_of_both()
}

/// The answer to such relocations in class 2.
fn list_64(size: usize, relocations: &[(u64, u32, i64)]) -> Numbers {
    fit(size, relocations).of(Class::Elf64).answer()
}

#[test]
fn every_type_has_a_line() {
    const SUPPORTED: [u32; 30] = [
        0, 1, 16, 17, 18, 19, 23, 24, 25, 26, 27, 28, 33, 34, 35, 36, 37, 38, 39, 40, 43, 44, 45,
        51, 52, 53, 54, 55, 56, 57,
    ];
    for kind in (0..=255).filter(|kind| *kind != 2) {
        let (number, _, _) = list(8, &[(0, kind, 0)]);
        assert_eq!(number == 9, !SUPPORTED.contains(&kind), "type {kind}");
    }
}

/// "Type 2 (word64, T) is added for class 2 only"
#[test]
fn type_2_is_of_class_2() {
    assert_eq!(fit(8, &[(0, 2, 0)]).answer(), (9, 0, 0));
    assert_eq!(list_64(8, &[(0, 2, 0)]), DONE);
    assert_eq!(list_64(8, &[(1, 2, 0)]), (9, 0, 0), "eight bytes");
    assert_eq!(list_64(9, &[(1, 2, 0)]), DONE, "at any address");
    assert_eq!(list_64(16, &[(0, 2, 0), (8, 2, 0)]), DONE);
    assert_eq!(list_64(16, &[(0, 2, 0), (7, 2, 0)]), (9, 1, 0));
    assert_eq!(
        list_64(8, &[(0, 2, 0), (0, 2, 0)]),
        (9, 1, 0),
        "it shares nothing"
    );
    assert_eq!(list_64(8, &[(0, 2, 0), (0, 36, 0)]), (9, 1, 0));
    assert_eq!(list_64(8, &[(0, 36, 0), (0, 2, 0)]), (9, 1, 0));
}

/// "Type numbers above 255 give 9": the whole number counts.
#[test]
fn types_above_255() {
    for low in 0..=255 {
        for high in [1, 2, 255, 256, 1 << 16, (1 << 24) - 1] {
            let kind = high << 8 | low;
            assert_eq!(list_64(8, &[(0, kind, 0)]), (9, 0, 0), "type {kind:#x}");
        }
    }
    let late = [(0, 1, 0), (4, 256, 0)];
    assert_eq!(list_64(8, &late), (9, 1, 0), "at its turn");
}

/// Offsets of class 2 that class 1 does not have.
#[test]
fn offsets_count_whole() {
    const ABOVE: u64 = 1 << 32;
    for offset in [
        ABOVE,
        ABOVE + 4,
        1 << 63,
        u64::MAX,
        u64::MAX - 3,
        u64::MAX - 7,
    ] {
        for kind in [1, 2, 17, 18, 23, 36, 0, 43, 51] {
            let answer = list_64(8, &[(offset, kind, 0)]);
            assert_eq!(answer, (9, 0, 0), "type {kind} at {offset:#x}");
        }
    }
    assert_eq!(list_64(8, &[(ABOVE, 1, 0), (0, 1, 0)]), (9, 0, 0));
    assert_eq!(list_64(8, &[(4, 1, 0), (ABOVE, 1, 0)]), (9, 1, 0));
}

/// Addends of class 2 that class 1 does not have.
#[test]
fn addends_count_whole() {
    const ABOVE: i64 = 1 << 32;
    for addend in [ABOVE, ABOVE + 6, i64::MIN, i64::MAX - 1, -ABOVE] {
        assert_eq!(
            list_64(8, &[(0, 43, addend)]),
            (9, 0, 0),
            "ALIGN, {addend:#x}"
        );
    }
}

#[test]
fn record_offsets_never_fall() {
    assert_eq!(list(8, &[(4, 1, 0), (0, 1, 0)]), (9, 1, 0));
    assert_eq!(list(8, &[(4, 51, 0), (3, 51, 0)]), (9, 1, 0), "markers too");
    assert_eq!(list(8, &[(4, 51, 0), (0, 1, 0)]), (9, 1, 0));
    assert_eq!(list(8, &[(4, 1, 0), (3, 0, 0)]), (9, 1, 0));
    assert_eq!(list(8, &[(4, 1, 0), (4, 51, 0)]), DONE);
    assert_eq!(list(8, &[(4, 51, 0), (4, 1, 0)]), DONE);
    assert_eq!(list(8, &[(4, 1, 0), (6, 51, 0)]), DONE, "inside a field");
}

#[test]
fn bytes_touched_lie_in_the_row() {
    let widths: [(u64, &[u32]); 4] = [
        (1, &[33, 37, 52, 53, 54]),
        (2, &[34, 38, 55]),
        (4, &[1, 57, 35, 39, 56]),
        (8, &[36, 40]),
    ];
    for (width, kinds) in widths {
        for kind in kinds {
            assert_eq!(list(9, &[(9 - width, *kind, 0)]), DONE, "type {kind}");
            assert_eq!(list(9, &[(10 - width, *kind, 0)]), (9, 0, 0), "type {kind}");
        }
    }
    for kind in [16, 17, 23, 26, 27, 28, 24, 25] {
        assert_eq!(list(8, &[(6, kind, 0)]), (9, 0, 0), "type {kind}");
    }
    for (kind, offset) in [(18, 2), (19, 2), (44, 8), (45, 8)] {
        assert_eq!(list(8, &[(offset, kind, 0)]), (9, 0, 0), "type {kind}");
    }
    assert_eq!(list(8, &[(0xFFFF_FFFF, 1, 0)]), (9, 0, 0));
}

#[test]
fn a_marker_starts_at_most_at_the_row_size() {
    for kind in MARKERS {
        assert_eq!(list(8, &[(8, kind, 0)]), DONE, "type {kind}");
        assert_eq!(list(8, &[(9, kind, 0)]), (9, 0, 0), "type {kind}");
        assert_eq!(list(0, &[(0, kind, 0)]), DONE, "type {kind}");
    }
}

#[test]
fn non_markers_do_not_overlap() {
    assert_eq!(list(9, &[(0, 1, 0), (4, 1, 0)]), DONE);
    assert_eq!(list(9, &[(0, 1, 0), (3, 1, 0)]), (9, 1, 0));
    assert_eq!(
        list(9, &[(0, 1, 0), (0, 1, 0)]),
        (9, 1, 0),
        "1 shares nothing"
    );
    assert_eq!(list(9, &[(0, 57, 0), (0, 35, 0)]), (9, 1, 0));
    assert_eq!(list(9, &[(0, 35, 0), (0, 1, 0)]), (9, 1, 0));
    let over_marker = [(0, 1, 0), (2, 51, 0), (3, 1, 0)];
    assert_eq!(list(9, &over_marker), (9, 2, 0), "the previous non-marker");
}

#[test]
fn records_that_share_a_place() {
    let widths: [&[u32]; 5] = [
        &[52, 53],
        &[33, 37, 54],
        &[34, 38, 55],
        &[35, 39, 56],
        &[36, 40],
    ];
    for (at, first) in widths.iter().enumerate() {
        for (also_at, second) in widths.iter().enumerate() {
            let expected = if at == also_at { DONE } else { (9, 1, 0) };
            for (one, two) in first
                .iter()
                .flat_map(|a| second.iter().map(move |b| (a, b)))
            {
                let both = [(0, *one, 0), (0, *two, 0)];
                assert_eq!(list(8, &both), expected, "{one} and {two}");
            }
        }
    }
    assert_eq!(
        list(8, &[(0, 35, 0), (1, 35, 0)]),
        (9, 1, 0),
        "another offset"
    );
    let three = [(0, 35, 0), (0, 51, 0), (0, 39, 0), (0, 56, 0)];
    assert_eq!(list(4, &three), DONE);
}

#[test]
fn align_addend() {
    // P + A is 0x2000, a multiple of everything asked for.
    let with = |addend: i64, size: i64| {
        let offset = 4_096 - addend.clamp(0, 4_096);
        list((offset + size) as usize, &[(offset as u64, 43, addend)])
    };
    assert_eq!(with(0, 0), DONE);
    assert_eq!(with(2, 2), DONE);
    assert_eq!(with(2, 1), (9, 0, 0), "offset + A past the row");
    assert_eq!(with(3, 3), (9, 0, 0), "odd");
    assert_eq!(with(4_094, 4_094), DONE);
    assert_eq!(with(4_096, 4_096), (9, 0, 0));
    assert_eq!(with(-2, 8), (9, 0, 0));
    assert_eq!(with(i64::from(i32::MIN), 8), (9, 0, 0));
}

#[test]
fn align_boundary() {
    // A, and the smallest power of two at least A + 2.
    for (addend, boundary) in [(0, 2), (2, 4), (4, 8), (6, 8), (8, 16), (14, 16), (16, 32)] {
        for offset in 0..64 {
            let reached = (PLACE + offset + addend).is_multiple_of(boundary);
            let expected = if reached { DONE } else { (14, 0, 0) };
            let given = list(128, &[(offset, 43, addend as i64)]);
            assert_eq!(given, expected, "A {addend} at {offset}");
        }
    }
    for (offset, expected) in [(2, DONE), (4, (14, 0, 0)), (0, (14, 0, 0)), (4_098, DONE)] {
        assert_eq!(list(9_000, &[(offset, 43, 4_094)]), expected);
    }
}

#[test]
fn markers_skip_10() {
    for kind in MARKERS {
        let relocation = [Relocation::new(0, kind, 0xFF_FFFF, 0)];
        assert_eq!(
            Fit::code(PLACE, &[0; 4], &[], &relocation).answer_of_both(),
            DONE
        );
    }
}

/// "each through 9 to 14 before the next", counted over all RELA rows.
#[test]
fn records_go_one_by_one() {
    let jal = 0x6F_u32.to_le_bytes();
    let code = [jal, jal].concat();
    let far = Relocation::new(0, 17, 1, 1);
    let refused = Relocation::new(4, 3, 1, 0);
    let symbols = [Symbol::absolute(PLACE)];
    let fit = Fit::code(PLACE, &code, &symbols, &[far, refused]);
    assert_eq!(fit.answer_of_both(), (13, 0, 0));
    let near = Relocation::new(0, 17, 1, 0);
    let mut fit = Fit::code(PLACE, &code, &symbols, &[near]);
    fit.sections.push(Section::loaded(1, &code));
    fit.placements.push((4, PLACE + 8));
    let list = [near, Relocation::new(4, 17, 1, 1)];
    fit.sections.push(Section::relocations(4, 2, &list));
    assert_eq!(fit.answer_of_both(), (13, 2, 0));
}

/// Each check in turn is broken together with all later ones that can be.
#[test]
fn checks_9_to_12_in_order() {
    let with = |addend, symbol, opcode: u8, pair: u32| {
        let code = [opcode, 0, 0, 0, 0x17, 0, 0, 0];
        let list = [
            Relocation::new(0, 24, symbol, addend),
            Relocation::new(4, pair, 0, 0),
        ];
        Fit::code(PLACE, &code, &[Symbol::new(0, 1, 4)], &list).answer_of_both()
    };
    assert_eq!(with(1, 9, 0x33, 51), (9, 0, 0));
    assert_eq!(with(0, 9, 0x33, 51), (10, 0, 1));
    assert_eq!(with(1, 0, 0x33, 51), (9, 0, 0));
    assert_eq!(with(0, 0, 0x33, 51), (10, 0, 7));
    assert_eq!(with(0, 1, 0x33, 51), (11, 0, 0));
    assert_eq!(with(0, 1, 0x13, 51), (12, 0, 0));
    assert_eq!(with(0, 1, 0x13, 23), DONE);
}

#[test]
fn checks_9_to_13_in_order() {
    let with = |offset, symbol, opcode: u8, target| {
        let code = [opcode, 0, 0, 0];
        let list = [Relocation::new(offset, 17, symbol, 0)];
        Fit::code(PLACE, &code, &[Symbol::absolute(target)], &list).answer_of_both()
    };
    assert_eq!(with(1, 9, 0x33, PLACE + 1), (9, 0, 0));
    assert_eq!(with(0, 9, 0x33, PLACE + 1), (10, 0, 1));
    assert_eq!(with(0, 1, 0x33, PLACE + 1), (11, 0, 0));
    assert_eq!(with(0, 1, 0x6F, PLACE + 1), (13, 0, 0));
    assert_eq!(with(0, 1, 0x6F, PLACE + 2), DONE);
}

/// "A even" is 9, and the boundary 14.
#[test]
fn align_9_before_14() {
    assert_eq!(list(8, &[(1, 43, 1)]), (9, 0, 0));
    assert_eq!(list(8, &[(1, 43, 2)]), (14, 0, 0));
}
