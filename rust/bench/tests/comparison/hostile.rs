//! What a fitter written for speed may get wrong: pairs where offsets fall or
//! meet, places that are shared across markers, jumps without compressed
//! instructions, why symbols do not resolve, and fields in the last bytes of a
//! section or of the file.

use bench::inputs::Call;
use testing::build::{
    journal, object_with, Class, Fit, Relocation, Section, Symbol, ABSOLUTE, COMMON, GLOBAL, IFUNC,
    RVC, TLS, WEAK,
};
use testing::counts::Counts;
use testing::damage::Input;
use testing::random::Random;
use testing::{Numbers, DONE};

use crate::{answer, compare};

const CASES: u64 = 20_000;

const ABSOLUTE_32: u32 = 1;
const PCREL_HI20: u32 = 23;
const PCREL_LO12_I: u32 = 24;
const RELAX: u32 = 51;

const AUIPC: u32 = 0x517;
const ADDI: u32 = 0x50513;

/// Compares so many cases, now of class 1 and now of class 2.
fn compare_all(cases: u64, make: impl Fn(&mut Random) -> Fit) -> Counts {
    let mut counts = Counts::default();
    for seed in 0..cases {
        let class = Class::ALL[(seed % 2) as usize];
        let input = Input::from(&make(&mut Random::new(seed)).of(class));
        let outcome = compare(&input, Call::Fit);
        let outcome = outcome.unwrap_or_else(|wrong| panic!("seed {seed}: {wrong}"));
        counts.add(outcome.answer);
    }
    println!("{counts:?}");
    counts
}

/// The answer in both classes.
fn answer_of_both(fit: &Fit) -> Numbers {
    let [first, second] = Class::ALL.map(|class| answer(&Input::from(&fit.clone().of(class))));
    assert_eq!(first, second, "class 1 and class 2");
    first
}

/// Far halves and jumps: T and P anywhere, often just in reach or just out of it,
/// with bit 0 of e_flags set and clear.
fn distances(random: &mut Random) -> Fit {
    let place = match random.below(4) {
        0 => random.pick(&[0, 2, 0x1000, 0x1002]),
        1 => random.u64() & !0xFFF,
        2 => 0_u64.wrapping_sub(random.pick(&[8, 0x1000])),
        _ => 1 << random.pick(&[31, 32, 63]),
    };
    let (kind, words, reach) = random.pick(&[
        (16, [0x63, 0], 4_096_i64),
        (17, [0x6F, 0], 1 << 20),
        (18, [0x97, 0x80E7], (1 << 31) + 2_048),
        (19, [0x97, 0x80E7], (1 << 31) + 2_048),
        (23, [AUIPC, 0], (1 << 31) + 2_048),
        (26, [0x37, 0], (1 << 31) + 2_048),
        (44, [0xC101, 0], 256),
        (45, [0xA001, 0], 2_048),
    ]);
    let from = if kind == 26 { 0 } else { place };
    let around = random.below(8) as i64 - 4;
    let distance = match random.below(5) {
        0 => around - reach,
        1 => around + reach,
        2 => around + reach - 4_096,
        3 => random.u64() as i64,
        _ => random.below(reach as usize) as i64 - reach / 2,
    };
    let target: u64 = from.wrapping_add_signed(distance);
    let addend = random.pick(&[0, 1, -1, i64::MIN, 1 << 32]);
    let bytes = words.map(u32::to_le_bytes).concat();
    let symbols = [Symbol::absolute(target.wrapping_sub(addend as u64))];
    let list = [Relocation::new(0, kind, 1, addend)];
    let mut fit = Fit::code(place, &bytes, &symbols, &list);
    fit.image.truncate(64 + bytes.len());
    fit.with_flags(random.pick(&[RVC, u32::MAX, 0, !RVC]))
}

#[test]
fn far_and_near() {
    let counts = compare_all(CASES, distances);
    for number in [0, 9, 13] {
        assert!(counts.numbers[number] >= 2_000, "answer {number} occurs");
    }
}

/// High and low halves in any order, with labels at some of the high halves and
/// beside them. Then some relocations change places, or appear twice.
fn pairs(random: &mut Random) -> Fit {
    let count = 1 + random.below(24) as u64;
    let mut bytes = Vec::new();
    let mut list = Vec::new();
    let mut symbols = vec![Symbol::absolute(u64::from(random.u32() >> 2))];
    for place in 0..count {
        let offset = 4 * place;
        let is_high = random.one_in(2) || place == 0;
        bytes.extend(if is_high { AUIPC } else { ADDI }.to_le_bytes());
        for _ in 0..random.pick(&[0, 0, 0, 1, 3]) {
            list.push(Relocation::new(offset, RELAX, 0, 0));
        }
        if is_high {
            symbols.push(Symbol::new(0, 1, offset));
            list.push(Relocation::new(offset, PCREL_HI20, 1, 0));
        } else {
            list.push(Relocation::new(offset, PCREL_LO12_I, 0, 0));
        }
    }
    if random.one_in(8) {
        symbols.push(Symbol::new(0, 1, 4 * random.below(32) as u64));
    }
    let labels = symbols.len() - 1;
    for relocation in list.iter_mut().filter(|one| one.kind == PCREL_LO12_I) {
        relocation.symbol = 2 + random.below(labels) as u32;
    }
    for _ in 0..random.pick(&[0, 0, 1, 2]) {
        wound(random, &mut list);
    }
    Fit::code(0x1000, &bytes, &symbols, &list)
}

/// Two relocations change places, one appears twice, one falls, or one goes far
/// away.
fn wound(random: &mut Random, list: &mut Vec<Relocation>) {
    let (one, other) = (random.below(list.len()), random.below(list.len()));
    match random.below(5) {
        0 => list.swap(one, other),
        1 => list.insert(one, list[other]),
        2 => list[one].offset = list[other].offset,
        3 => list[one].kind = list[other].kind,
        _ => {
            let far = [0xFFFF_FFFF, 1 << 31, 1 << 32, (1 << 32) + 4, u64::MAX - 3];
            list[one].offset = random.pick(&far);
        }
    }
}

#[test]
fn halves() {
    let counts = compare_all(CASES, pairs);
    for number in [0, 9, 11, 12] {
        assert!(counts.numbers[number] >= 300, "answer {number} occurs");
    }
}

/// Many high halves behind one whose offset falls: those behind count too.
#[test]
fn pairs_behind_a_falling_offset() {
    let words: Vec<u8> = [AUIPC, ADDI, AUIPC, AUIPC]
        .iter()
        .flat_map(|word| word.to_le_bytes())
        .collect();
    let symbols = [
        Symbol::absolute(8),
        Symbol::new(0, 1, 0),
        Symbol::new(0, 1, 8),
    ];
    let high = |offset| Relocation::new(offset, PCREL_HI20, 1, 0);
    let low = |label| Relocation::new(4, PCREL_LO12_I, label, 0);
    for (list, expected) in [
        (vec![high(0), low(2), high(12), high(8)], (9, 3, 0)),
        (vec![high(0), low(3), high(12), high(8)], (9, 3, 0)),
        (
            vec![high(0), low(3), high(12), high(8), high(8)],
            (12, 1, 0),
        ),
        (vec![high(0), low(2), high(12), high(0)], (12, 1, 0)),
        (vec![low(2), high(8), high(0)], (9, 2, 0)),
        (vec![low(2), high(8), high(0), high(0)], (12, 0, 0)),
        (vec![low(2), high(8), high(12)], (12, 0, 0)),
    ] {
        let fit = Fit::code(0x1000, &words, &symbols, &list);
        assert_eq!(answer_of_both(&fit), expected, "{list:?}");
    }
}

/// Labels and offsets past 2^32, which all are past the section.
#[test]
fn pairs_past_the_section() {
    const FAR: u64 = (1 << 32) + 8;
    let words: Vec<u8> = [AUIPC, ADDI, AUIPC]
        .iter()
        .flat_map(|word| word.to_le_bytes())
        .collect();
    let with = |label: u64, highs: &[u64]| {
        let symbols = [Symbol::absolute(8), Symbol::new(0, 1, label)];
        let mut list = vec![Relocation::new(4, PCREL_LO12_I, 2, 0)];
        let high = |offset: &u64| Relocation::new(*offset, PCREL_HI20, 1, 0);
        list.extend(highs.iter().map(high));
        let fit = Fit::code(0x1000, &words, &symbols, &list);
        answer(&Input::from(&fit.of(Class::Elf64)))
    };
    assert_eq!(with(8, &[8]), (0, 0, 0));
    assert_eq!(with(8, &[FAR]), (12, 0, 0));
    assert_eq!(with(FAR, &[8]), (12, 0, 0));
    assert_eq!(with(FAR, &[FAR]), (9, 1, 0));
    assert_eq!(with(FAR, &[FAR, FAR]), (12, 0, 0));
    assert_eq!(with(FAR, &[FAR, FAR + 1]), (9, 1, 0));
    assert_eq!(with(FAR, &[FAR + 1, FAR]), (9, 1, 0));
    assert_eq!(with(u64::MAX, &[u64::MAX]), (9, 1, 0));
    assert_eq!(with(u64::MAX, &[u64::MAX - 1]), (12, 0, 0));
}

/// Data of all widths at few places, with markers between.
fn places(random: &mut Random) -> Fit {
    let kinds = [33, 37, 54, 34, 38, 55, 35, 39, 56, 36, 40, 52, 53];
    let mut offset = 0;
    let mut list = Vec::new();
    let mut kind = random.pick(&kinds);
    for _ in 0..1 + random.below(8) {
        offset += random.pick(&[0, 0, 0, 0, 1, 2, 4, 8]);
        if random.one_in(4) {
            kind = random.pick(&kinds);
        }
        let now = match random.below(8) {
            0 => RELAX,
            1 => 0,
            2 => 43,
            3 if random.one_in(4) => random.pick(&[ABSOLUTE_32, 2, 57]),
            _ => kind,
        };
        let addend = if now == 43 { 0 } else { random.u64() as i64 };
        list.push(Relocation::new(offset, now, 1, addend));
        if random.one_in(16) {
            offset = offset.saturating_sub(random.pick(&[1, 4]));
        }
    }
    let size = offset as usize + random.pick(&[0, 1, 2, 4, 8, 12]);
    let bytes = random.bytes(size);
    Fit::code(0x1000, &bytes, &[Symbol::absolute(random.u64())], &list)
}

#[test]
fn shared_places() {
    let counts = compare_all(CASES, places);
    for number in [0, 9] {
        assert!(counts.numbers[number] >= 2_000, "answer {number} occurs");
    }
}

/// Every opcode with every funct3, compressed or not, at every type that asks
/// for an instruction, with bit 0 of e_flags set and clear.
#[test]
fn instructions() {
    let mut counts = Counts::default();
    for bits in 0..2_048 {
        let word = bits & 0x7F | (bits & 0x780) << 5;
        for kind in [16, 17, 18, 19, 23, 24, 25, 26, 27, 28, 44, 45] {
            // Of a call: no register, another register, the same one.
            let words = [
                [word, 0x67],
                [word, 0x80E7],
                [word | 0x80, 0x80E7],
                [0x97, word | 0x8000],
            ];
            for words in words {
                for (class, flags) in Class::ALL
                    .into_iter()
                    .flat_map(|class| [(class, 0), (class, RVC)])
                {
                    let fit = at_instruction(kind, words).of(class).with_flags(flags);
                    let outcome = compare(&Input::from(&fit), Call::Fit);
                    let outcome = outcome.unwrap_or_else(|wrong| {
                        panic!("{kind}, {words:x?}, {class:?}, {flags}: {wrong}")
                    });
                    counts.add(outcome.answer);
                }
            }
        }
    }
    println!("{counts:?}");
    assert!(counts.numbers[0] >= 2_000 && counts.numbers[11] >= 20_000);
}

/// One relocation at these words, and a high half behind them.
fn at_instruction(kind: u32, words: [u32; 2]) -> Fit {
    let bytes: Vec<u8> = [words[0], words[1], AUIPC]
        .iter()
        .flat_map(|word| word.to_le_bytes())
        .collect();
    let symbols = [Symbol::new(0, 1, 8), Symbol::absolute(0x4000)];
    let list = [
        Relocation::new(0, kind, 1, 0),
        Relocation::new(8, PCREL_HI20, 2, 0),
    ];
    Fit::code(0x1000, &bytes, &symbols, &list)
}

/// Two relocations, often against one symbol, which is of any section, type and
/// binding, and may have a value in the order. Section 4 is loaded, and section 5
/// is NOBITS.
fn symbols(random: &mut Random) -> Fit {
    let sections = [
        0, 0, 0, 1, 1, 2, 4, 5, 6, 0xFEFF, 0xFF00, ABSOLUTE, COMMON, 0xFFFF,
    ];
    let info = random.pick(&[0, GLOBAL, WEAK, 0x30]) + random.pick(&[0, 2, TLS, IFUNC]);
    let symbol = Symbol::new(info, random.pick(&sections), 8);
    let bytes = [ADDI, ADDI, AUIPC].map(u32::to_le_bytes).concat();
    let second = random.pick(&[1, 1, 1, 0, 2]);
    let list = [
        Relocation::new(0, random.pick(&[RELAX, ABSOLUTE_32, 27, 35]), 1, 0),
        Relocation::new(4, random.pick(&[PCREL_LO12_I, ABSOLUTE_32, 27]), second, 0),
        Relocation::new(8, PCREL_HI20, 0, 0),
    ];
    let mut fit = Fit::code(0x1000, &bytes, &[symbol], &list);
    fit.sections.push(Section::loaded(1, &[7]));
    fit.sections.push(Section::nobits(1, 4));
    fit.placements.extend([(4, 0x1010), (5, 0x9000)]);
    fit.journal = journal(0x11);
    if symbol.section == 0 && random.one_in(2) {
        fit.external_values = vec![(1, 0x2000)];
    }
    fit
}

#[test]
fn reasons() {
    let counts = compare_all(CASES, symbols);
    assert!(counts.numbers[0] >= 2_000, "done");
    assert!(counts.rarest_reason() >= 300, "{:?}", counts.reasons);
}

/// Symbol 0 is no label, and its value is 0, whatever its entry holds.
#[test]
fn symbol_0() {
    for (kind, expected) in [(PCREL_LO12_I, (10, 0, 7)), (27, DONE), (35, DONE)] {
        let mut fit = at_instruction(kind, [ADDI, ADDI]);
        fit.sections[2] = Section::symbols(&[Symbol::new(6, 1, 8), Symbol::default()]);
        let list = [
            Relocation::new(0, kind, 0, 0),
            Relocation::new(8, PCREL_HI20, 0, 0),
        ];
        fit.sections[3] = Section::relocations(1, 2, &list);
        assert_eq!(answer_of_both(&fit), expected, "type {kind}");
        fit.sections[2] = Section::symbols(&[Symbol::new(0, 1, 8)]);
        assert_eq!(answer_of_both(&fit), expected, "type {kind}");
    }
}

/// The patched section stands at the end of the file, behind the section
/// headers, so that no byte can be read behind it.
#[test]
fn the_last_bytes_of_a_file() {
    let half = |word: u16| word.to_le_bytes().to_vec();
    let words = |words: &[u32]| -> Vec<u8> {
        let bytes = words.iter().flat_map(|word| word.to_le_bytes());
        bytes.collect()
    };
    for (kind, bytes, number) in [
        (33, vec![7], 0),
        (52, vec![0xC1], 0),
        (34, half(0x1234), 0),
        (44, half(0xC101), 0),
        (44, half(0xA001), 11),
        (45, half(0xA001), 0),
        (45, half(0xA002), 11),
        (35, words(&[1]), 0),
        (40, words(&[1, 2]), 0),
        (17, words(&[0xEF]), 0),
        (18, words(&[0x97, 0x80E7]), 0),
        (18, words(&[0x97, 0x100E7]), 11),
    ] {
        let list = [Relocation::new(0, kind, 1, 0)];
        let fit = Fit::code(0x1000, &bytes, &[Symbol::absolute(0x1010)], &list);
        let is_short = kind == 44 || kind == 45;
        for (flags, number) in [(RVC, number), (0, if is_short { 9 } else { number })] {
            for class in Class::ALL {
                let fit = fit.clone().of(class).with_flags(flags);
                let mut input = Input::from(&fit);
                input.object = with_section_last(&fit, &bytes);
                assert_eq!(answer(&input), (number, 0, 0), "type {kind}, {bytes:x?}");
            }
        }
    }
}

/// The object of this install with the bytes of section 1 at its end.
fn with_section_last(fit: &Fit, bytes: &[u8]) -> Vec<u8> {
    let mut sections = fit.sections.clone();
    let whole = |sections: &[Section]| object_with(fit.class, fit.flags, sections);
    let at = whole(&sections).len() - bytes.len();
    sections[1] = Section {
        offset: Some(at as u64),
        size: Some(bytes.len() as u64),
        bytes: Vec::new(),
        ..sections[1].clone()
    };
    let mut file = whole(&sections);
    assert_eq!(file.len(), at);
    file.extend(bytes);
    file
}
