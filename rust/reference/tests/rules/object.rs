//! "What the object may hold": checks 4 and 5.

use reference::{judge, Answer};
use testing::build::*;
use testing::{numbers, Numbers, DONE};

/// The answer to an object with no order's placements, on an empty image.
fn unplaced(class: Class, object: &[u8]) -> Numbers {
    let refusal = judge(object, &order(class, 0, &[], &[]), 0).err();
    numbers(refusal.unwrap_or(Answer::DONE))
}

/// The answer to an object of these sections, the same in both classes.
fn whole(sections: &[Section]) -> Numbers {
    let [first, second] = Class::ALL.map(|class| unplaced(class, &object(class, sections)));
    assert_eq!(first, second, "class 1 and class 2");
    first
}

fn rows(sections: &[Section]) -> Numbers {
    whole(&[&[Section::default()], sections].concat())
}

/// A fit with a loaded section 1, a symbol table 2 and a RELA section 3.
fn usual() -> Fit {
    let list = [Relocation::new(0, 1, 1, 0), Relocation::new(4, 1, 1, 0)];
    Fit::code(0x1000, &[0; 8], &[Symbol::absolute(7)], &list)
}

/// The usual fit with one change.
fn changed(change: impl Fn(&mut Vec<Section>)) -> Numbers {
    let mut fit = usual();
    change(&mut fit.sections);
    fit.answer_of_both()
}

/// The header of an object without content, with one number changed. The
/// order is of the class that the object has then.
fn header_with(class: Class, at: usize, value: &[u8]) -> Numbers {
    let mut file = object(class, &[Section::default()]);
    file[at..at + value.len()].copy_from_slice(value);
    unplaced(Class::of(&file).unwrap_or(class), &file)
}

#[test]
fn header_fields() {
    for (class, own_size) in [(Class::Elf32, 40), (Class::Elf64, 52)] {
        let with = |at, value: u8| header_with(class, at, &[value]);
        assert_eq!(with(0, 0x7F), DONE);
        for at in [0, 1, 2, 3, 5, 6, 16, 18, 20, own_size] {
            assert_eq!(with(at, 0), (4, 0, 0), "a 0 at {at}, {class:?}");
            assert_eq!(with(at, 2), (4, 0, 0), "a 2 at {at}, {class:?}");
        }
        for at in [17, 19, 21, 22, 23, own_size + 1] {
            assert_eq!(with(at, 1), (4, 0, 0), "a 1 at {at}, {class:?}");
        }
    }
}

/// Byte 4 is 1 or 2, and anything else gives 4, and so does a header of the
/// other class.
#[test]
fn classes() {
    for class in Class::ALL {
        for byte in 0..=255 {
            let answer = header_with(class, 4, &[byte]);
            let is_own = object(class, &[])[4] == byte;
            assert_eq!(answer == DONE, is_own, "{byte}, {class:?}");
            assert!(is_own || answer == (4, 0, 0), "{byte}, {class:?}");
        }
    }
}

#[test]
fn header_numbers_that_refuse_nothing() {
    for class in Class::ALL {
        let with = |at, value: &[u8]| header_with(class, at, value);
        let [entry, flags, programs, names] = match class {
            Class::Elf32 => [24..32, 36..40, 42..46, 50..52],
            Class::Elf64 => [24..40, 48..52, 54..58, 62..64],
        };
        let all = |fields: std::ops::Range<usize>| with(fields.start, &vec![0xFF; fields.len()]);
        assert_eq!(with(7, &[9; 9]), DONE, "rest of the ident");
        assert_eq!(all(entry), DONE, "e_entry, e_phoff");
        assert_eq!(all(flags), DONE, "e_flags");
        assert_eq!(all(programs), DONE, "e_phentsize, e_phnum");
        assert_eq!(all(names), DONE, "e_shstrndx");
    }
}

#[test]
fn file_length() {
    for (class, header) in [(Class::Elf32, 52), (Class::Elf64, 64)] {
        let mut file = object(class, &[Section::default()]);
        for length in 0..header {
            let cut = &file[..length];
            assert_eq!(unplaced(class, cut), (4, 0, 0), "{length}, {class:?}");
        }
        let cut = &file[..header];
        assert_eq!(unplaced(class, cut), (5, 0, 0), "the table is missing");
        file.resize(1_048_576, 0);
        assert_eq!(unplaced(class, &file), DONE);
        file.push(0);
        assert_eq!(unplaced(class, &file), (4, 0, 0));
    }
}

#[test]
fn table_numbers() {
    for (class, size, size_at, table_at) in [(Class::Elf32, 40, 46, 32), (Class::Elf64, 64, 58, 40)]
    {
        let with = |at, value: &[u8]| header_with(class, at, value);
        let past = header_size(class) as u8 + 1;
        assert_eq!(with(size_at, &[size - 1]), (5, 0, 0), "e_shentsize");
        assert_eq!(with(size_at, &[size, 1]), (5, 0, 0), "e_shentsize");
        assert_eq!(with(size_at + 2, &[0]), (5, 0, 0), "no row");
        assert_eq!(
            with(size_at + 2, &[2]),
            (5, 0, 0),
            "second row past the file"
        );
        assert_eq!(with(table_at, &[past]), (5, 0, 0), "one byte past the file");
        assert_eq!(with(table_at, &[0xFF; 4]), (5, 0, 0), "e_shoff");
    }
    let many = |count| whole(&vec![Section::default(); count]);
    assert_eq!(many(128), DONE);
    assert_eq!(many(129), (5, 0, 0));
}

/// A table that ends at 2^64 or past it, also where its end wraps into the file.
#[test]
fn table_at_the_top() {
    for below in [1_u64, 63, 64, 65, 128, 1 << 32, 1 << 63] {
        let offset = 0_u64.wrapping_sub(below).to_le_bytes();
        let answer = header_with(Class::Elf64, 40, &offset);
        assert_eq!(answer, (5, 0, 0), "{below} below 2^64");
    }
    assert_eq!(
        header_with(Class::Elf64, 44, &[1]),
        (5, 0, 0),
        "2^32 too far"
    );
}

#[test]
fn row_0_is_null() {
    let first = Section {
        kind: PROGBITS,
        ..Section::default()
    };
    assert_eq!(whole(&[first]), (5, 0, 0));
}

#[test]
fn bytes_stay_inside_the_file() {
    // The header, no bytes, and two rows.
    for (class, end) in [(Class::Elf32, 132), (Class::Elf64, 192)] {
        let at = |kind, offset, size| {
            let section = Section {
                kind,
                offset: Some(offset),
                size: Some(size),
                ..Section::default()
            };
            unplaced(class, &object(class, &[Section::default(), section]))
        };
        for kind in [PROGBITS, 3, 7, 0x7000_0003] {
            assert_eq!(at(kind, 100, end - 100), DONE, "type {kind}");
            assert_eq!(at(kind, 100, end - 99), (5, 1, 0), "type {kind}");
            assert_eq!(at(kind, end, 0), DONE, "type {kind}");
            assert_eq!(at(kind, end + 1, 0), (5, 1, 0), "type {kind}");
            assert_eq!(at(kind, u64::MAX, u64::MAX), (5, 1, 0), "type {kind}");
            assert_eq!(
                at(kind, 100, 0_u64.wrapping_sub(100)),
                (5, 1, 0),
                "wraps to 0"
            );
            assert_eq!(at(kind, u64::MAX, 101), (5, 1, 0), "wraps into the file");
        }
        assert_eq!(at(NULL, u64::MAX, u64::MAX), DONE);
        assert_eq!(at(NOBITS, u64::MAX, u64::MAX), DONE);
        assert_eq!(
            at(RELA, end + 1, 0),
            (5, 1, 0),
            "a RELA that does not count"
        );
    }
}

/// Bits of class 2 that class 1 does not have count too.
#[test]
fn the_upper_half_of_a_number_counts() {
    let changed = |change: &dyn Fn(&mut Vec<Section>)| {
        let mut fit = usual().of(Class::Elf64);
        change(&mut fit.sections);
        fit.answer()
    };
    const ABOVE: u64 = 1 << 32;
    assert_eq!(changed(&|rows| rows[1].size = Some(ABOVE + 8)), (5, 1, 0));
    assert_eq!(
        changed(&|rows| rows[1].offset = Some(ABOVE + 64)),
        (5, 1, 0)
    );
    assert_eq!(changed(&|rows| rows[1].alignment = ABOVE + 4), (5, 1, 0));
    assert_eq!(changed(&|rows| rows[1].alignment = ABOVE), (8, 1, 0));
    assert_eq!(changed(&|rows| rows[1].flags |= ABOVE), DONE);
    assert_eq!(changed(&|rows| rows[1].flags = ABOVE << 1), (6, 1, 0));
    assert_eq!(
        changed(&|rows| rows[2].entry_size = Some(ABOVE + 24)),
        (5, 2, 0)
    );
    assert_eq!(
        changed(&|rows| rows[3].entry_size = Some(ABOVE + 24)),
        (5, 3, 0)
    );
}

#[test]
fn alignment_of_allocated_rows() {
    let with = |alignment| changed(move |rows| rows[1].alignment = alignment);
    for alignment in [0, 1, 2, 4, 0x1000] {
        assert_eq!(with(alignment), DONE, "{alignment}");
    }
    assert_eq!(with(1 << 31), (8, 1, 0), "a bit, but not a multiple");
    for alignment in [3, 6, 0x1001, (1 << 31) + 1, u64::MAX] {
        assert_eq!(with(alignment), (5, 1, 0), "{alignment}");
    }
    let with_64 = |alignment| {
        let mut fit = usual().of(Class::Elf64);
        fit.sections[1].alignment = alignment;
        fit.answer()
    };
    for bit in 13..64 {
        assert_eq!(with_64(1 << bit), (8, 1, 0), "2^{bit}");
        assert_eq!(with_64(1 << bit | 1), (5, 1, 0), "2^{bit} + 1");
        assert_eq!(with_64(1 << bit | 1 << 12), (5, 1, 0), "2^{bit} + 2^12");
    }
    assert_eq!(changed(|rows| rows[2].alignment = 3), DONE, "not allocated");
}

#[test]
fn allocated_rows_of_other_types() {
    for kind in [SYMTAB, RELA, REL] {
        let row = Section {
            kind,
            flags: ALLOCATED,
            entries: Entries::Symbols(Vec::new()),
            ..Section::default()
        };
        assert_eq!(rows(&[row]), (5, 1, 0), "type {kind}");
    }
    let null = Section {
        flags: ALLOCATED,
        ..Section::default()
    };
    assert_eq!(rows(&[null]), DONE, "a NULL row is never allocated");
    let note = Section {
        kind: 7,
        flags: ALLOCATED,
        ..Section::default()
    };
    assert_eq!(rows(&[note]), (6, 1, 0), "any other type is");
}

#[test]
fn symbol_table() {
    let table = |count| Section::symbols(&vec![Symbol::default(); count]);
    assert_eq!(rows(&[table(0)]), DONE);
    assert_eq!(rows(&[table(8_192)]), DONE);
    assert_eq!(rows(&[table(8_193)]), (5, 1, 0));
    assert_eq!(changed(|rows| rows[2].entry_size = Some(15)), (5, 2, 0));
    assert_eq!(changed(|rows| rows[2].entry_size = Some(0)), (5, 2, 0));
    assert_eq!(changed(|rows| rows[2].size = Some(31)), (5, 2, 0));
    assert_eq!(rows(&[table(1), table(1)]), (5, 2, 0));
    assert_eq!(rows(&[table(0), table(0), table(0)]), (5, 2, 0));
}

#[test]
fn two_symbol_tables_and_the_link() {
    let second = Section::symbols(&[]);
    assert_eq!(changed(|rows| rows.push(second.clone())), (5, 4, 0));
    let linked_to = |link| {
        changed(|rows| {
            rows.push(second.clone());
            rows[3].link = link;
        })
    };
    assert_eq!(linked_to(2), (5, 4, 0), "the RELA links to the lowest");
    assert_eq!(linked_to(4), (5, 3, 0), "the RELA does not");
}

#[test]
fn symbol_table_above_the_rela() {
    let fit = usual();
    let moved = |link| {
        let mut fit = fit.clone();
        fit.sections.swap(2, 3);
        fit.sections[2].link = link;
        fit.answer_of_both()
    };
    assert_eq!(moved(3), DONE);
    assert_eq!(moved(2), (5, 2, 0));
}

#[test]
fn rela_that_does_not_count() {
    for info in [0, 2, 3, 4, 31, 127, 128, u32::MAX] {
        let spoiled = |rows: &mut Vec<Section>| {
            rows[3].info = info;
            rows[3].link = 9;
            rows[3].entry_size = Some(7);
            rows[3].size = Some(23);
        };
        assert_eq!(changed(spoiled), DONE, "info {info}");
        let rel = |rows: &mut Vec<Section>| {
            rows[3].info = info;
            rows[3].kind = REL;
        };
        assert_eq!(changed(rel), DONE, "info {info}");
    }
}

#[test]
fn counting_rel_and_rela() {
    assert_eq!(usual().answer_of_both(), DONE);
    assert_eq!(changed(|rows| rows[3].kind = REL), (5, 3, 0));
    assert_eq!(changed(|rows| rows[3].entry_size = Some(8)), (5, 3, 0));
    assert_eq!(changed(|rows| rows[3].size = Some(23)), (5, 3, 0));
    assert_eq!(changed(|rows| rows[3].size = Some(0)), DONE);
    for link in [0, 1, 3, u32::MAX] {
        assert_eq!(
            changed(|rows| rows[3].link = link),
            (5, 3, 0),
            "link {link}"
        );
    }
    assert_eq!(
        changed(|rows| rows[2] = Section::default()),
        (5, 3, 0),
        "no table"
    );
    let nobits = |rows: &mut Vec<Section>| {
        rows[1].kind = NOBITS;
        rows[1].size = Some(8);
    };
    assert_eq!(changed(nobits), (5, 3, 0), "the target is not laid");
}

#[test]
fn two_rela_for_one_row() {
    let twice = |rows: &mut Vec<Section>| {
        let mut empty = rows[3].clone();
        empty.relocations_mut().clear();
        rows.push(empty);
    };
    assert_eq!(changed(twice), (5, 4, 0));
    let second_does_not_count = |rows: &mut Vec<Section>| {
        twice(rows);
        rows[4].info = 2;
    };
    assert_eq!(changed(second_does_not_count), DONE);
}

/// Two loaded sections whose RELA rows hold so many markers.
fn markers(first: usize, second: usize) -> Fit {
    let list = |count| vec![Relocation::new(0, 0, 0, 0); count];
    Fit {
        class: Class::Elf32,
        flags: RVC,
        sections: vec![
            Section::default(),
            Section::loaded(1, &[]),
            Section::loaded(1, &[]),
            Section::symbols(&[]),
            Section::relocations(2, 3, &list(first)),
            Section::relocations(1, 3, &list(second)),
        ],
        placements: vec![(1, 0), (2, 0)],
        base: 0,
        external_values: vec![],
        image: vec![],
        journal: journal(0),
    }
}

#[test]
fn number_of_records() {
    let of_both = |first, second| markers(first, second).answer_of_both();
    assert_eq!(of_both(32_768, 0), DONE);
    assert_eq!(of_both(32_769, 0), (5, 4, 0));
    assert_eq!(of_both(768, 32_000), DONE);
    assert_eq!(of_both(768, 32_001), (5, 5, 0));
    let ignored = |rows: &mut Vec<Section>| {
        let list = vec![Relocation::new(0, 0, 0, 0); 33_000];
        rows.push(Section::relocations(2, 2, &list));
    };
    assert_eq!(changed(ignored), DONE, "rows that do not count");
}

/// The file's length comes first: class 2 has room for 43,672 records beside the
/// header and six rows.
#[test]
fn number_of_records_in_class_2() {
    let of_64 = |first| markers(first, 0).of(Class::Elf64).answer();
    assert_eq!(of_64(43_672), (5, 4, 0));
    assert_eq!(of_64(43_673), (4, 0, 0));
}

#[test]
fn number_of_records_that_share_their_bytes() {
    let of = |class: Class, first: u64, second: u64| {
        let list = vec![Relocation::new(0, 0, 0, 0); 16_384];
        let mut fit = Fit::placed(
            0,
            0,
            &[(Section::loaded(1, &[]), 0), (Section::loaded(1, &[]), 0)],
        );
        fit.sections.extend([
            Section::symbols(&[]),
            Section::relocations(1, 3, &list),
            Section::relocations(2, 3, &[]),
        ]);
        fit.sections[4].size = Some(relocation_size(class) * first);
        fit.sections[5].offset = Some(header_size(class) as u64);
        fit.sections[5].size = Some(relocation_size(class) * second);
        fit.of(class).answer()
    };
    for class in Class::ALL {
        assert_eq!(of(class, 16_384, 16_384), DONE, "{class:?}");
        assert_eq!(of(class, 16_384, 16_385), (5, 5, 0), "{class:?}");
        assert_eq!(of(class, 16_383, 16_385), DONE, "{class:?}");
    }
}

#[test]
fn the_lowest_row_is_named() {
    let both = |rows: &mut Vec<Section>| {
        rows[3].entry_size = Some(0);
        rows[2].entry_size = Some(0);
    };
    assert_eq!(changed(both), (5, 2, 0));
}
