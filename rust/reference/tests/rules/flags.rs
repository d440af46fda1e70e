//! Ticket 5: "If e_flags bit 0 is clear, types 44 and 45 are refused with 9, and a
//! distance for 16 to 19 that isn't a multiple of 4 with 13 [...] e_flags refuses
//! nothing else."

use reference::fields::{extract, Layout, B, I, J, U};
use reference::numbers::number_from;
use testing::build::*;
use testing::{numbers, Numbers, DONE};

const CALL: u64 = 0x0000_80E7_0000_0097;

/// The jumps of four bytes and the calls: type, instruction, and how far the first
/// two reach; of the calls a part of it, so that class 2 is the same.
const JUMPS: [(u32, u64, i64); 4] = [
    (16, 0x63, 4_096),
    (17, 0x6F, 1_048_576),
    (18, CALL, 0x4000_0000),
    (19, CALL, 0x4000_0000),
];

/// The short ones.
const SHORT: [(u32, u64); 3] = [(44, 0xC101), (44, 0xE101), (45, 0xA001)];

/// Values of e_flags with bit 0 clear: no other bit, each other bit, and all.
fn clear() -> Vec<u32> {
    let each = (1..32).map(|bit| 1 << bit);
    [0, !RVC].into_iter().chain(each).collect()
}

/// The same values with bit 0 set.
fn set() -> Vec<u32> {
    clear().into_iter().map(|flags| flags | RVC).collect()
}

/// One relocation at a place whose T is given, with bit 0 clear.
fn at(class: Class, kind: u32, word: u64, place: u64, target: u64) -> Fit {
    let list = [Relocation::new(0, kind, 1, 0)];
    let symbols = [Symbol::absolute(target)];
    let mut fit = Fit::code(place, &word.to_le_bytes(), &symbols, &list);
    fit.image.truncate(72);
    fit.of(class).with_flags(0)
}

/// The same over a distance, which may go around the end of memory.
fn over(class: Class, kind: u32, word: u64, place: u64, distance: i64) -> Fit {
    let target = i128::from(place) + i128::from(distance);
    let target = target.rem_euclid(class.address_end());
    at(class, kind, word, place, target as u64)
}

/// The distance that the laid instructions have.
fn read(kind: u32, laid: u64) -> i128 {
    let [first, second] = [laid % (1 << 32), laid >> 32];
    let field = |layout: Layout, word: u64| extract(layout, word);
    match kind {
        16 => field(B, first),
        17 => field(J, first),
        _ => field(U, first) + field(I, second),
    }
}

/// With the bit clear a multiple of 4 is laid and anything else gives 13; with it
/// set, a multiple of 2 is laid. A place may lie anywhere that is even.
fn assert_distance(class: Class, kind: u32, word: u64, place: u64, distance: i64) {
    let fit = over(class, kind, word, place, distance);
    let name = format!("type {kind} from {place:#x} over {distance}, {class:?}");
    for (flags, step) in [(0, 4), (RVC, 2)] {
        let fit = fit.clone().with_flags(flags);
        if distance.rem_euclid(step) != 0 {
            assert_eq!(fit.answer(), (13, 0, 0), "{name}, {flags}");
            continue;
        }
        assert_eq!(fit.answer(), DONE, "{name}, {flags}");
        let read = read(kind, number_from(&fit.laid()));
        assert_eq!(read, i128::from(distance), "{name}, {flags}");
    }
}

#[test]
fn distances_of_each_jump() {
    for class in Class::ALL {
        for (kind, word, reach) in JUMPS {
            for place in [0x5000_0000, 0x5000_0002] {
                let ends = [-reach, -reach + 2, -reach + 4, reach - 4, reach - 2];
                let near = -9..=9;
                for distance in ends.into_iter().chain(near) {
                    assert_distance(class, kind, word, place, distance);
                }
            }
        }
    }
}

/// "The distance of 16 and 17 is the reduced one, of 18 and 19 T - P modulo the
/// width".
#[test]
fn distances_across_the_top() {
    for class in Class::ALL {
        let last = (class.address_end() - 8) as u64;
        for (kind, word, reach) in JUMPS {
            for distance in [8, 10, 12, 14, 15, reach - 4, reach - 2] {
                assert_distance(class, kind, word, last, distance);
                assert_distance(class, kind, word, last - 2, distance);
            }
            for distance in [-1, -2, -4, -6, -8, -reach + 2, -reach] {
                assert_distance(class, kind, word, 0, distance);
                assert_distance(class, kind, word, 2, distance);
            }
        }
    }
}

/// Too far stays too far, a multiple of 4 or not.
#[test]
fn distances_that_are_too_far() {
    for class in Class::ALL {
        for (kind, word, reach) in &JUMPS[..2] {
            for distance in [-reach - 4, -reach - 2, *reach, reach + 2, reach + 4] {
                let fit = over(class, *kind, *word, 0x5000_0000, distance);
                assert_eq!(fit.answer(), (13, 0, 0), "type {kind}, {distance}");
            }
        }
    }
    let ends = [
        (-2_147_485_700, (13, 0, 0)),
        (-2_147_485_698, (13, 0, 0)),
        (-2_147_485_696, DONE),
        (-2_147_485_694, (13, 0, 0)),
        (-2_147_485_692, DONE),
        (2_147_481_596, DONE),
        (2_147_481_598, (13, 0, 0)),
        (2_147_481_600, (13, 0, 0)),
    ];
    for kind in [18, 19] {
        for place in [0, 0x5000_0000, 1 << 63, u64::MAX - 7] {
            for (distance, expected) in ends {
                let fit = over(Class::Elf64, kind, CALL, place, distance);
                assert_eq!(fit.answer(), expected, "type {kind}, {distance}");
            }
        }
    }
}

/// With the bit clear they give 9, and with it set what they gave before; the
/// distance is 0, and then each of 10, 11 and 13 is broken, and 9 itself.
#[test]
fn short_types() {
    for class in Class::ALL {
        for (kind, word) in SHORT {
            let rows: [(&str, u64, u64, u32, u64, Numbers); 7] = [
                ("nothing else", 0x1000, 0, 1, word, DONE),
                ("at 2 modulo 4", 0x1002, 0, 1, word, DONE),
                ("outside the section", 0x1000, 7, 1, word, (9, 0, 0)),
                ("an unresolved symbol", 0x1000, 0, 2, word, (10, 0, 1)),
                ("a wrong form", 0x1000, 0, 1, word ^ 2, (11, 0, 0)),
                ("an odd address", 0x1001, 0, 1, word, (11, 0, 0)),
                ("too far", 0x9000, 0, 1, word, (13, 0, 0)),
            ];
            for (name, place, offset, symbol, word, before) in rows {
                let list = [Relocation::new(offset, kind, symbol, 0)];
                let symbols = [Symbol::absolute(0x1000)];
                let fit = Fit::code(place, &word.to_le_bytes(), &symbols, &list).of(class);
                assert_eq!(fit.answer(), before, "{name}, type {kind}, {class:?}");
                let fit = fit.with_flags(0);
                assert_eq!(fit.answer(), (9, 0, 0), "{name}, type {kind}, {class:?}");
            }
        }
    }
}

/// No other type is refused by its number.
#[test]
fn every_type() {
    for kind in 0..=255 {
        for class in Class::ALL {
            let fit = at(class, kind, 0, 0x1000, 0x1000);
            let refused = |flags| fit.clone().with_flags(flags).answer().0 == 9;
            let is_short = kind == 44 || kind == 45;
            assert_eq!(refused(0), refused(RVC) || is_short, "type {kind}");
            assert!(!(is_short && refused(RVC)), "type {kind}");
        }
    }
}

/// "at their turn": behind the faults of earlier relocations, and before those of
/// later ones.
#[test]
fn short_types_at_their_turn() {
    let jal = |offset, addend| Relocation::new(offset, 17, 1, addend);
    let short = |offset| Relocation::new(offset, 45, 1, 0);
    let code: Vec<u8> = [0x6F_u32, 0xA001, 0x6F]
        .iter()
        .flat_map(|word| word.to_le_bytes())
        .collect();
    let rows: [([Relocation; 3], Numbers); 6] = [
        ([jal(0, 0), short(4), jal(8, 0)], (9, 1, 0)),
        ([jal(0, 2), short(4), jal(8, 0)], (13, 0, 0)),
        ([jal(0, 1), short(4), jal(8, 0)], (13, 0, 0)),
        ([jal(0, 0), short(4), jal(8, 2)], (9, 1, 0)),
        ([jal(0, 0), jal(8, 0), short(10)], (9, 2, 0)),
        (
            [Relocation::new(0, 17, 9, 0), short(4), jal(8, 0)],
            (10, 0, 1),
        ),
    ];
    for (list, expected) in rows {
        let fit = Fit::code(0x1000, &code, &[Symbol::absolute(0x1000)], &list);
        assert_eq!(fit.with_flags(0).answer_of_both(), expected, "{list:?}");
    }
}

/// Two RELA sections: the place is counted over both.
#[test]
fn a_short_type_in_the_second_section() {
    let code = 0xA001_u32.to_le_bytes();
    let markers = [Relocation::new(0, 51, 0, 0); 2];
    let mut fit = Fit::code(0x1000, &code, &[Symbol::absolute(0x1010)], &markers);
    let short = [Relocation::new(0, 45, 1, 0)];
    fit.sections.push(Section::loaded(1, &code));
    fit.sections.push(Section::relocations(4, 2, &short));
    fit.placements.push((4, 0x1010));
    fit.journal = journal(0x14);
    assert_eq!(fit.answer_of_both(), DONE);
    assert_eq!(fit.with_flags(0).answer_of_both(), (9, 2, 0));
}

/// Bits 1 to 31 say nothing, whether bit 0 is set or clear.
#[test]
fn other_flag_bits() {
    for class in Class::ALL {
        let jump = over(class, 17, 0x6F, 0x1000, 2);
        let long = over(class, 17, 0x6F, 0x1000, 4);
        let call = over(class, 18, CALL, 0x1000, 2);
        let short = over(class, 45, 0xA001, 0x1000, 2);
        for flags in clear() {
            let answer = |fit: &Fit| fit.clone().with_flags(flags).answer();
            assert_eq!(answer(&jump), (13, 0, 0), "{flags:#x}, {class:?}");
            assert_eq!(answer(&call), (13, 0, 0), "{flags:#x}, {class:?}");
            assert_eq!(answer(&long), DONE, "{flags:#x}, {class:?}");
            assert_eq!(answer(&short), (9, 0, 0), "{flags:#x}, {class:?}");
        }
        for flags in set() {
            for fit in [&jump, &call, &long, &short] {
                let answer = fit.clone().with_flags(flags).answer();
                assert_eq!(answer, DONE, "{flags:#x}, {class:?}");
            }
        }
    }
}

/// Every other bit of the header that refuses nothing, set while bit 0 is clear and
/// clear while it is set. At 48 class 1 has the number of sections, which is odd
/// or even here, and at 36 class 2 has the upper half of e_phoff.
#[test]
fn only_its_own_place_counts() {
    for class in Class::ALL {
        for extra in [0, 1] {
            let mut fit = over(class, 17, 0x6F, 0x1000, 2);
            let count = fit.sections.len() + extra;
            fit.sections.resize(count, Section::default());
            for (flags, fill, expected) in [(0, 0xFF, (13, 0, 0)), (RVC, 0, DONE)] {
                let mut file = fit.clone().with_flags(flags).object();
                for at in free_places(class) {
                    file[at] = fill;
                }
                let (mut image, mut journal) = (fit.image.clone(), fit.journal.clone());
                let answer = reference::install(&file, &fit.order(), &mut image, &mut journal);
                assert_eq!(numbers(answer), expected, "{count} sections, {class:?}");
            }
        }
    }
}

/// Where the header has what no rule reads: the rest of the ident, e_entry,
/// e_phoff, e_phentsize, e_phnum and e_shstrndx.
fn free_places(class: Class) -> Vec<usize> {
    let (start, middle, end) = match class {
        Class::Elf32 => (24..32, 42..46, 50..52),
        Class::Elf64 => (24..40, 54..58, 62..64),
    };
    let mut places: Vec<usize> = (7..16).collect();
    places.extend(start.chain(middle).chain(end));
    places
}

/// "e_flags refuses nothing else: an odd address of an instruction, a row at 2
/// modulo 4 [...] stay as they are."
#[test]
fn nothing_else_is_refused() {
    let words = [
        (16, 0x63),
        (17, 0x6F),
        (18, CALL),
        (19, CALL),
        (23, 0x17),
        (26, 0x37),
        (27, 0x13),
        (28, 0x23),
    ];
    for class in Class::ALL {
        for (kind, word) in words {
            let fit = |place| at(class, kind, word, place, place);
            assert_eq!(fit(0x1002).answer(), DONE, "type {kind}, a row at 2");
            assert_eq!(fit(0x1001).answer(), (11, 0, 0), "type {kind}, odd");
        }
        // Any other distance or target is laid as before.
        for kind in [1, 23, 26, 27, 28, 33, 34, 35, 36, 52, 56, 57] {
            let found = words.iter().find(|(other, _)| *other == kind);
            let word = found.map_or(0, |(_, word)| *word);
            for distance in -4..=4 {
                let fit = over(class, kind, word, 0x1002, distance);
                let with = fit.clone().with_flags(RVC);
                assert_eq!(fit.answer(), DONE, "type {kind}, {distance}");
                assert_eq!(fit.laid(), with.laid(), "type {kind}, {distance}");
            }
        }
        // Padding for short instructions.
        let padding = [Relocation::new(0, 43, 0, 2)];
        let fit = Fit::code(0x1002, &[1, 0], &[], &padding).of(class);
        assert_eq!(fit.with_flags(0).answer(), DONE);
        // Nothing to jump, and nothing at all.
        let fit = Fit::code(0x1000, &[0x01; 6], &[], &[]).of(class);
        assert_eq!(fit.with_flags(0).answer(), DONE);
        let fit = Fit::placed(0x1000, 0, &[]).of(class);
        assert_eq!(fit.with_flags(0).answer(), DONE);
    }
}

/// Of a pair only the low halves' own rules count: no multiple of 4 is asked for.
#[test]
fn pairs_stay() {
    let code: Vec<u8> = [0x517_u32, 0x5_0513, 0xA5_2023]
        .iter()
        .flat_map(|word| word.to_le_bytes())
        .collect();
    let list = [
        Relocation::new(0, 23, 1, 0),
        Relocation::new(4, 24, 2, 0),
        Relocation::new(8, 25, 2, 0),
    ];
    for distance in 0x7FC..0x804 {
        let symbols = [Symbol::absolute(0x1000 + distance), Symbol::new(0, 1, 0)];
        let fit = Fit::code(0x1000, &code, &symbols, &list);
        let laid = fit.clone().with_flags(0).laid_of_both();
        assert_eq!(laid, fit.laid_of_both(), "{distance}");
    }
}
