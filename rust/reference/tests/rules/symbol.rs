//! S, seen through a 32 relocation (T is S + A modulo 2^32).

use reference::numbers::number_from;
use testing::build::*;
use testing::DONE;

const PLACE: u64 = 0x1000;

/// A fit whose only relocation is a 32 against this symbol, as symbol 1.
fn against(symbol: Symbol, addend: i64) -> Fit {
    let list = [Relocation::new(0, 1, 1, addend)];
    Fit::code(PLACE, &[0xEE; 4], &[symbol], &list)
}

fn value(fit: &Fit) -> u64 {
    number_from(&fit.laid_of_both())
}

#[test]
fn symbol_0_is_0() {
    let list = [Relocation::new(0, 1, 0, 0x123)];
    let mut fit = Fit::code(PLACE, &[0xEE; 4], &[], &list);
    assert_eq!(value(&fit), 0x123);
    fit.sections[2] = Section::symbols(&[Symbol::new(6, 77, 99)]);
    assert_eq!(value(&fit), 0x123, "whatever its entry holds");
    fit.sections[2] = Section::symbols(&[]);
    assert_eq!(value(&fit), 0x123, "even in an empty table");
}

#[test]
fn symbol_of_an_allocated_row() {
    let in_row = |row, offset| against(Symbol::new(0, row, offset), 4);
    assert_eq!(value(&in_row(1, 8)), PLACE + 12);
    let wrapped = in_row(1, 0_u64.wrapping_sub(PLACE));
    assert_eq!(value(&wrapped), 4, "modulo 2^32 and 2^64");
    let mut nobits = in_row(4, 8);
    nobits.sections.push(Section::nobits(1, 1));
    nobits.placements.push((4, 0x9000));
    assert_eq!(value(&nobits), 0x900C);
}

/// "row missing or not allocated (sections 1 to 0xFEFF), common (section 0xFFF2),
/// reserved section (0xFF00 and up, but for 0xFFF1 and 0xFFF2)", each before "wrong
/// type (TLS or IFUNC)". There are rows 0 to 3, and row 1 is allocated.
#[test]
fn symbol_of_another_row() {
    let missing = [2, 3, 4, 127, 128, 0xFE01, 0xFEFF].map(|row| (row, 2));
    let reserved = [0xFF00, 0xFF01, 0xFFF0, 0xFFF3, 0xFFFE, 0xFFFF].map(|row| (row, 4));
    let common = [(0xFFF2, 3)];
    for (row, reason) in missing.into_iter().chain(reserved).chain(common) {
        for kind in [0, TLS, IFUNC] {
            let fit = against(Symbol::new(kind, row, 0), 0);
            let name = format!("section {row:#x}, type {kind}");
            assert_eq!(fit.answer_of_both(), (10, 0, reason), "{name}");
        }
    }
    assert_eq!(value(&against(Symbol::new(0, 0xFFF1, 5), 0)), 5);
}

#[test]
fn undefined_symbols() {
    let undefined = |info, named: bool| {
        let mut fit = against(Symbol::new(info, 0, 0x111), 0);
        fit.external_values
            .extend(named.then_some((1, 0x8765_4321)));
        fit
    };
    assert_eq!(value(&undefined(GLOBAL, true)), 0x8765_4321);
    assert_eq!(value(&undefined(WEAK, true)), 0x8765_4321);
    for binding in [0, GLOBAL, 0x30, 0xA0, 0xF0] {
        let fit = undefined(binding, false);
        assert_eq!(fit.answer_of_both(), (10, 0, 5), "binding {binding:#x}");
    }
    assert_eq!(value(&undefined(WEAK, false)), 0, "and not its value");
}

#[test]
fn tls_and_ifunc() {
    for kind in 0..16 {
        let expected = match kind {
            TLS | IFUNC => (10, 0, 6),
            _ => DONE,
        };
        for section in [1, ABSOLUTE] {
            let fit = against(Symbol::new(GLOBAL + kind, section, 0), 0);
            assert_eq!(fit.answer_of_both(), expected, "type {kind}");
        }
        let mut fit = against(Symbol::new(WEAK + kind, 0, 0), 0);
        assert_eq!(fit.answer_of_both(), expected, "weak, type {kind}");
        fit.external_values = vec![(1, 3)];
        assert_eq!(fit.answer_of_both(), expected, "named, type {kind}");
        let mut strong = against(Symbol::new(GLOBAL + kind, 0, 0), 0);
        assert_eq!(strong.answer_of_both(), (10, 0, 5), "strong, type {kind}");
        strong.external_values = vec![(1, 3)];
        assert_eq!(strong.answer_of_both(), expected, "strong, type {kind}");
    }
}

#[test]
fn index_past_the_table() {
    let with = |symbol| {
        let list = [Relocation::new(0, 1, symbol, 0)];
        Fit::code(PLACE, &[0; 4], &[Symbol::absolute(0)], &list).answer_of_both()
    };
    assert_eq!(with(1), DONE);
    assert_eq!(with(2), (10, 0, 1));
    assert_eq!(with(0xFF_FFFF), (10, 0, 1));
}

#[test]
fn t_is_reduced() {
    let t = |symbol, addend| value(&against(Symbol::absolute(symbol), addend));
    assert_eq!(t(0xFFFF_FFFF, 1), 0);
    assert_eq!(t(0, -1), 0xFFFF_FFFF);
    assert_eq!(t(0x8000_0000, i64::from(i32::MIN)), 0);
    assert_eq!(t(0xFFFF_FFFF, i64::from(i32::MAX)), 0x7FFF_FFFE);
}

/// S and T modulo 2^64, seen through a 64 relocation.
#[test]
fn s_and_t_in_class_2() {
    let with = |symbol: Symbol, addend| {
        let list = [Relocation::new(0, 2, 1, addend)];
        Fit::code(PLACE, &[0xEE; 8], &[symbol], &list).of(Class::Elf64)
    };
    let t = |symbol, addend| number_from(&with(Symbol::absolute(symbol), addend).laid());
    assert_eq!(t(0x8765_4321_0FED_CBA9, 0), 0x8765_4321_0FED_CBA9);
    assert_eq!(t(u64::MAX, 1), 0);
    assert_eq!(t(0, -1), u64::MAX);
    assert_eq!(t(1 << 63, i64::MIN), 0);
    assert_eq!(t(u64::MAX, i64::MAX), (1 << 63) - 2);
    assert_eq!(t(0xFFFF_FFFF, 1), 1 << 32, "not modulo 2^32");
    let in_row = |offset| number_from(&with(Symbol::new(0, 1, offset), 4).laid());
    assert_eq!(in_row(0x1_0000_0000), 0x1_0000_1004);
    assert_eq!(in_row(0_u64.wrapping_sub(PLACE)), 4);
    let mut outside = with(Symbol::new(GLOBAL, 0, 0), 0);
    outside.external_values = vec![(1, 0xFEDC_BA98_7654_3210)];
    assert_eq!(number_from(&outside.laid()), 0xFEDC_BA98_7654_3210);
}

/// The symbol is the upper half of the info, all 32 bits of it.
#[test]
fn index_past_the_table_in_class_2() {
    for symbol in [2, 255, 256, 8_192, 1 << 24, (1 << 24) + 1, u32::MAX] {
        let list = [Relocation::new(0, 1, symbol, 0)];
        let fit = Fit::code(PLACE, &[0; 4], &[Symbol::absolute(0)], &list);
        assert_eq!(fit.of(Class::Elf64).answer(), (10, 0, 1), "symbol {symbol}");
    }
}
