//! Ticket 5: e_flags bit 0. With it clear, 44 and 45 give 9 and a distance of 16 to
//! 19 that is no multiple of 4 gives 13; nothing else of e_flags counts. With the
//! answer, and the bytes.

use crate::fits::*;
use crate::forms;
use crate::types::of_type;
use crate::{Answer, Case, DONE};
use testing::build::*;

const MIDDLE: u64 = 0x2000_0000;

/// Bit 0 is clear, and all others are set.
const OTHERS: u32 = !RVC;

/// A jump of four bytes or a call: type, the numbers of its instructions, and how
/// far a distance is tried.
struct Jump {
    kind: u32,
    words: &'static [u32],
    reach: i64,
}

const JUMPS: [Jump; 4] = [
    Jump {
        kind: BRANCH,
        words: &[0x63],
        reach: 4_096,
    },
    Jump {
        kind: JAL,
        words: &[0xEF],
        reach: 1_048_576,
    },
    Jump {
        kind: CALL,
        words: &[0x97, 0x80E7],
        reach: 0x1000_0000,
    },
    Jump {
        kind: CALL_PLT,
        words: &[0x97, 0x80E7],
        reach: 0x1000_0000,
    },
];

impl Jump {
    fn fit(&self, class: Class, place: u64, distance: i64) -> Fit {
        let target = i128::from(place) + i128::from(distance);
        let target = target.rem_euclid(class.address_end()) as u64;
        match class {
            Class::Elf32 => one(self.kind, &words(self.words), place, target),
            Class::Elf64 => one_64(self.kind, &words(self.words), place, target),
        }
    }

    /// With the bit clear and set.
    fn over(&self, class: Class, place: u64, distance: i64) -> Vec<Case> {
        let fit = self.fit(class, place, distance);
        let case = |(flags, step): (u32, i64)| {
            let answer = if distance % step == 0 {
                DONE
            } else {
                (13, 0, 0)
            };
            let kind = self.kind;
            let name = format!("e_flags {flags:x}, type {kind} from {place:x} over {distance}");
            Case::new(name, &fit.clone().with_flags(flags), answer).only_in_class_1()
        };
        [(0, 4), (RVC, 2)].map(case).into()
    }
}

/// Both ends, and each remainder of 4 near 0, from 0 and 2 modulo 4; and across the
/// top of memory, both ways.
fn distances() -> Vec<Case> {
    let mut cases = Vec::new();
    for class in Class::ALL {
        let last = (class.address_end() - 8) as u64;
        for jump in &JUMPS {
            let far = jump.reach;
            let ends = [-far, -far + 2, far - 4, far - 2];
            let near = [-8, -6, -5, -4, -2, -1, 0, 1, 2, 4, 6, 7, 8];
            for distance in ends.into_iter().chain(near) {
                cases.extend(jump.over(class, MIDDLE, distance));
                cases.extend(jump.over(class, MIDDLE + 2, distance));
            }
            for distance in [8, 10, 12, 14, far - 4, far - 2] {
                cases.extend(jump.over(class, last, distance));
            }
            for distance in [-2, -4, -6, -8, -far, -far + 2] {
                cases.extend(jump.over(class, 0, distance));
                cases.extend(jump.over(class, 2, distance));
            }
        }
    }
    cases
}

/// The farthest steps of four bytes, with the bytes, and one step more.
fn ends() -> Vec<Case> {
    let rows: [(usize, i64, &[u32]); 8] = [
        (0, 4_092, &[0x7E00_0EE3]),
        (0, -4_096, &[0x8000_0063]),
        (1, 1_048_572, &[0x7FDF_F0EF]),
        (1, -1_048_576, &[0x8000_00EF]),
        (2, 0x7FC, &[0x0000_0097, 0x7FC0_80E7]),
        (2, 0x800, &[0x0000_1097, 0x8000_80E7]),
        (3, -0x800, &[0x0000_0097, 0x8000_80E7]),
        (3, -0x804, &[0xFFFF_F097, 0x7FC0_80E7]),
    ];
    let done = rows.map(|(which, distance, after)| {
        let fit = JUMPS[which].fit(Class::Elf32, MIDDLE, distance);
        let name = format!("bit 0 clear, type {} over {distance}", JUMPS[which].kind);
        Case::done(name, &fit.with_flags(0), &words(after))
    });
    let far = [(0, 4_096), (0, -4_100), (1, 1_048_576), (1, -1_048_580)];
    let far = far.map(|(which, distance)| {
        let fit = JUMPS[which].fit(Class::Elf32, MIDDLE, distance);
        let name = format!("bit 0 clear, type {} over {distance}", JUMPS[which].kind);
        Case::new(name, &fit.with_flags(0), (13, 0, 0))
    });
    done.into_iter().chain(far).collect()
}

/// In class 2 the ends of a call are multiples of 4, or two bytes beside one.
fn ends_of_a_call() -> Vec<Case> {
    let rows: [(i64, Answer); 7] = [
        (-2_147_485_700, (13, 0, 0)),
        (-2_147_485_696, DONE),
        (-2_147_485_694, (13, 0, 0)),
        (-2_147_485_692, DONE),
        (2_147_481_596, DONE),
        (2_147_481_598, (13, 0, 0)),
        (2_147_481_600, (13, 0, 0)),
    ];
    let mut cases = Vec::new();
    for jump in &JUMPS[2..] {
        for place in [0, 0x8000_0000_0000_1000, u64::MAX - 7] {
            for (distance, answer) in rows {
                let fit = jump.fit(Class::Elf64, place, distance).with_flags(0);
                let name = format!(
                    "bit 0 clear, type {} from {place:x} over {distance}",
                    jump.kind
                );
                cases.push(Case::new(name, &fit, answer));
            }
        }
    }
    cases
}

/// Every type number: only 44 and 45 are refused besides.
fn types() -> Vec<Case> {
    let case = |kind: u32| {
        let is_short = kind == RVC_BRANCH || kind == RVC_JUMP;
        let is_storing = STORING.iter().any(|(number, _, _)| *number == kind);
        let is_taken = (is_storing && !is_short) || MARKERS.contains(&kind);
        let stated = if is_taken { DONE } else { (9, 1, 0) };
        let fit = of_type(kind).with_flags(0);
        let case = Case::new(format!("bit 0 clear, type {kind}"), &fit, stated);
        match kind {
            2 => case.only_in_class_1(),
            _ => case,
        }
    };
    (0..=255).map(case).collect()
}

/// 44 and 45 with another fault besides: 9 all the same, at their place.
fn short_and_broken() -> Vec<Case> {
    let mut cases = Vec::new();
    for (kind, word) in [(RVC_BRANCH, 0xC101), (RVC_JUMP, 0xA001)] {
        let rows: [(&str, Relocation, u32, Answer); 8] = [
            ("alone", Relocation::new(8, kind, 1, 0), word, DONE),
            ("falls", Relocation::new(2, kind, 1, 0), word, (9, 1, 0)),
            ("overlaps", Relocation::new(6, kind, 1, 0), word, (9, 1, 0)),
            ("outside", Relocation::new(11, kind, 1, 0), word, (9, 1, 0)),
            ("symbol", Relocation::new(8, kind, 9, 0), word, (10, 1, 1)),
            ("form", Relocation::new(8, kind, 1, 0), 0xA002, (11, 1, 0)),
            ("odd", Relocation::new(8, kind, 1, 1), word, (13, 1, 0)),
            (
                "too far",
                Relocation::new(8, kind, 1, 8_192),
                word,
                (13, 1, 0),
            ),
        ];
        for (name, short, word, before) in rows {
            let code = words(&[0, 0, word]);
            let list = [Relocation::new(4, WORD, 1, 0), short];
            let fit = at(PLACE, &code, &[Symbol::absolute(PLACE + 8)], &list);
            let name = |flags: u32| format!("type {kind}, {name}, e_flags {flags:x}");
            cases.push(Case::new(name(RVC), &fit, before));
            for flags in [0, OTHERS] {
                let fit = fit.clone().with_flags(flags);
                cases.push(Case::new(name(flags), &fit, (9, 1, 0)));
            }
        }
    }
    cases
}

/// "at their turn": behind an earlier fault, before a later one, and counted over
/// all RELA sections.
fn turns() -> Vec<Case> {
    let jal = |offset, addend| Relocation::new(offset, JAL, 1, addend);
    let short = |offset| Relocation::new(offset, RVC_JUMP, 1, 0);
    let branch = |offset| Relocation::new(offset, RVC_BRANCH, 1, 0);
    let code = words(&[0x6F, 0xC101_A001, 0x6F]);
    let rows: [(&str, Vec<Relocation>, Answer); 8] = [
        ("between", vec![jal(0, 0), short(4), jal(8, 0)], (9, 1, 0)),
        ("two", vec![jal(0, 0), short(4), branch(6)], (9, 1, 0)),
        ("behind 13", vec![jal(0, 2), short(4)], (13, 0, 0)),
        (
            "behind 10",
            vec![Relocation::new(0, JAL, 9, 0), short(4)],
            (10, 0, 1),
        ),
        (
            "behind 11",
            vec![Relocation::new(0, BRANCH, 1, 0), short(4)],
            (11, 0, 0),
        ),
        (
            "behind 14",
            vec![Relocation::new(0, ALIGN, 0, 2), short(4)],
            (14, 0, 0),
        ),
        ("before 13", vec![short(4), jal(8, 2)], (9, 0, 0)),
        (
            "before 9",
            vec![branch(6), Relocation::new(8, 3, 1, 0)],
            (9, 0, 0),
        ),
    ];
    let mut cases: Vec<Case> = rows
        .into_iter()
        .map(|(name, list, answer)| {
            let fit = at(PLACE, &code, &[Symbol::absolute(PLACE)], &list);
            Case::new(format!("short {name}"), &fit.with_flags(0), answer)
        })
        .collect();
    let mut fit = at(PLACE, &code, &[Symbol::absolute(PLACE)], &[jal(0, 0)]);
    fit.sections.push(Section::loaded(1, &code));
    let list = [jal(0, 0), jal(8, 2), short(12)];
    fit.sections.push(Section::relocations(4, 2, &list));
    fit.placements.push((4, PLACE + 16));
    cases.push(Case::new(
        "the second section",
        &fit.with_flags(0),
        (13, 2, 0),
    ));
    cases
}

/// Each other bit alone, with bit 0 clear and set.
fn other_bits() -> Vec<Case> {
    let jump = JUMPS[1].fit(Class::Elf32, MIDDLE, 2);
    let short = one(RVC_JUMP, &[0x01, 0xA0], MIDDLE, MIDDLE + 2);
    let mut cases = Vec::new();
    for bit in 1..32 {
        for (fit, number) in [(&jump, 13), (&short, 9)] {
            for (flags, answer) in [(1 << bit, (number, 0, 0)), (1 << bit | RVC, DONE)] {
                let name = format!("e_flags {flags:x}, number {number}");
                let fit = fit.clone().with_flags(flags);
                cases.push(Case::new(name, &fit, answer));
            }
        }
    }
    cases
}

/// Where the other class has e_flags: class 1 has the number of sections there, and
/// class 2 the upper half of e_phoff.
fn other_places() -> Vec<Case> {
    let mut cases = Vec::new();
    for (flags, answer) in [(0, (13, 0, 0)), (RVC, DONE)] {
        for count in [4, 5] {
            let mut fit = JUMPS[1].fit(Class::Elf32, MIDDLE, 2).with_flags(flags);
            fit.sections.resize(count, Section::default());
            let name = format!("e_flags {flags}, {count} sections");
            cases.push(Case::new(name, &fit, answer));
        }
        for upper in [0, u32::MAX] {
            let fit = JUMPS[1].fit(Class::Elf64, MIDDLE, 2).with_flags(flags);
            let name = format!("e_flags {flags}, e_phoff with {upper:x}");
            let mut case = Case::new(name, &fit, answer);
            case.object[36..40].copy_from_slice(&upper.to_le_bytes());
            cases.push(case);
        }
    }
    cases
}

/// Sections at 2 modulo 4 and at odd addresses, as with the bit set; and an object
/// without relocations.
fn others() -> Vec<Case> {
    let mut cases = Vec::new();
    for (kind, word, width) in STORING {
        let is_short = kind == RVC_BRANCH || kind == RVC_JUMP;
        let odd = if word == 0 { DONE } else { (11, 0, 0) };
        for (address, answer) in [(0x1002, DONE), (0x1001, odd)] {
            let mut fit = forms::on(kind, word, width, address).with_flags(0);
            if address == 0x1001 {
                // The pair behind it would stand at an odd address too.
                fit.sections[3].relocations_mut().truncate(1);
            }
            let answer = if is_short { (9, 0, 0) } else { answer };
            let name = format!("bit 0 clear, type {kind} at {address:x}");
            cases.push(Case::new(name, &fit, answer));
        }
    }
    let none = at(PLACE, &[0x01; 6], &[], &[]).with_flags(0);
    cases.push(Case::done(
        "bit 0 clear, nothing to jump",
        &none,
        &[0x01; 6],
    ));
    cases
}

pub fn cases() -> Vec<Case> {
    let mut cases = distances();
    cases.extend(ends());
    cases.extend(ends_of_a_call());
    cases.extend(types());
    cases.extend(short_and_broken());
    cases.extend(turns());
    cases.extend(other_bits());
    cases.extend(other_places());
    cases.extend(others());
    cases
}
