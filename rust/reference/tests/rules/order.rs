//! The order's bytes (check 2), the window (check 3), and the order of the
//! first checks.

use reference::{install, judge, Answer};
use testing::build::*;
use testing::{numbers, Numbers, DONE};

fn answer_of(class: Class, order: &[u8], image_length: usize) -> Numbers {
    let refusal = judge(&object(class, &[Section::default()]), order, image_length).err();
    numbers(refusal.unwrap_or(Answer::DONE))
}

/// The answer to an order that is made for each class, the same in both.
fn answer(make: impl Fn(Class) -> Vec<u8>) -> Numbers {
    let [first, second] = Class::ALL.map(|class| answer_of(class, &make(class), 0));
    assert_eq!(first, second, "class 1 and class 2");
    first
}

/// A count, a base and words behind it.
fn words(class: Class, count: u32, base: u64, rest: &[u32]) -> Vec<u8> {
    let rest: Vec<u8> = rest.iter().flat_map(|word| word.to_le_bytes()).collect();
    [&count.to_le_bytes()[..], &number_of(class, base), &rest].concat()
}

#[test]
fn window_base_has_count_1() {
    assert_eq!(answer(|class| words(class, 1, 0, &[0, 0])), DONE);
    assert_eq!(answer(|class| words(class, 0, 0, &[0])), (2, 0, 0));
    assert_eq!(answer(|class| words(class, 0, 0, &[0, 0])), (2, 0, 0));
    assert_eq!(answer(|class| words(class, 2, 0, &[0, 0, 0])), (2, 0, 0));
    assert_eq!(answer(|class| words(class, 2, 0, &[0, 0, 0, 0])), (2, 0, 0));
}

#[test]
fn no_byte_missing_or_left_over() {
    for class in Class::ALL {
        let right = order(class, 0, &[], &[]);
        for length in 0..right.len() {
            let cut = &right[..length];
            assert_eq!(
                answer_of(class, cut, 0),
                (2, 0, 0),
                "{length} bytes, {class:?}"
            );
        }
        let longer = [right, vec![0]].concat();
        assert_eq!(answer_of(class, &longer, 0), (2, 0, 0), "{class:?}");
    }
}

/// An order of the other class is malformed.
#[test]
fn numbers_are_as_long_as_the_class_has_them() {
    let lists: [&[(u32, u64)]; 2] = [&[], &[(1, 0x1000)]];
    for (class, other) in [(Class::Elf32, Class::Elf64), (Class::Elf64, Class::Elf32)] {
        for list in lists {
            for bytes in [order(other, 0, list, &[]), order(other, 0, &[], list)] {
                assert_eq!(answer_of(class, &bytes, 0), (2, 0, 0), "{class:?}");
            }
        }
    }
}

#[test]
fn counts() {
    let ascending = |count: u32| -> Vec<(u32, u64)> { (1..=count).map(|at| (at, 0)).collect() };
    let placed = |count| answer(|class| order(class, 0, &ascending(count), &[]));
    let valued = |count| answer(|class| order(class, 0, &[], &ascending(count)));
    assert_eq!(placed(128), (6, 1, 0));
    assert_eq!(placed(129), (2, 0, 0));
    assert_eq!(valued(8_192), (7, 1, 0));
    assert_eq!(valued(8_193), (2, 0, 0));
    assert_eq!(
        answer(|class| words(class, 1, 0, &[u32::MAX, 0])),
        (2, 0, 0)
    );
    assert_eq!(
        answer(|class| words(class, 1, 0, &[0, u32::MAX])),
        (2, 0, 0)
    );
}

#[test]
fn lists_strictly_ascend() {
    let placed = |list: &[(u32, u64)]| answer(|class| order(class, 0, list, &[]));
    let valued = |list: &[(u32, u64)]| answer(|class| order(class, 0, &[], list));
    for (low, high, expected) in [(1, 2, false), (1, 1, true), (2, 1, true)] {
        let list = [(low, 0), (high, 0)];
        let number = |place| if expected { (2, 0, 0) } else { place };
        assert_eq!(placed(&list), number((6, 1, 0)));
        assert_eq!(valued(&list), number((7, 1, 0)));
    }
    assert_eq!(placed(&[(0, 0), (u32::MAX, 0)]), (6, 0, 0));
    let falling = [(1, u64::MAX), (2, 0)];
    assert_eq!(placed(&falling), (6, 1, 0), "only indexes ascend");
    assert_eq!(valued(&falling), (7, 1, 0), "only indexes ascend");
}

#[test]
fn window() {
    for (class, top) in [
        (Class::Elf32, u64::from(u32::MAX)),
        (Class::Elf64, u64::MAX),
    ] {
        let from = |base, length| answer_of(class, &order(class, base, &[], &[]), length);
        assert_eq!(from(0, 1_048_576), DONE);
        assert_eq!(from(0, 1_048_577), (3, 0, 0));
        assert_eq!(from(top - 1_048_575, 1_048_576), DONE, "ends at the top");
        assert_eq!(from(top - 1_048_574, 1_048_576), (3, 0, 0));
        assert_eq!(from(top, 0), DONE);
        assert_eq!(from(top, 1), DONE);
        assert_eq!(from(top, 2), (3, 0, 0));
    }
    let across = order(Class::Elf64, 0xFFFF_FFFF, &[], &[]);
    assert_eq!(
        answer_of(Class::Elf64, &across, 1_048_576),
        DONE,
        "across 2^32"
    );
}

/// "the checks run 1, 4, 2, 3, 5 for both classes": each in turn is broken
/// together with all later ones.
#[test]
fn first_checks_in_order() {
    let run = |object: &[u8], order: &[u8], length: usize, ledger: usize| {
        let answer = install(object, order, &mut vec![0; length], &mut vec![0; ledger]);
        numbers(answer)
    };
    for class in Class::ALL {
        let base = order(class, 0, &[], &[]);
        let right = object(class, &[Section::default()]);
        // No row is there.
        let header = &right[..header_size(class)];
        let bad_header = &header[..header.len() - 1];
        for object in [&[], bad_header] {
            assert_eq!(run(object, &[], 1_048_577, 135), (1, 0, 0), "{class:?}");
            assert_eq!(run(object, &[], 1_048_577, 136), (4, 0, 0), "{class:?}");
            assert_eq!(run(object, &base, 1_048_577, 136), (4, 0, 0), "{class:?}");
            assert_eq!(run(object, &base, 1_048_576, 136), (4, 0, 0), "{class:?}");
        }
        assert_eq!(run(header, &[], 1_048_577, 136), (2, 0, 0), "{class:?}");
        assert_eq!(run(header, &base, 1_048_577, 136), (3, 0, 0), "{class:?}");
        assert_eq!(run(header, &base, 1_048_576, 136), (5, 0, 0), "{class:?}");
        assert_eq!(run(&right, &base, 1_048_576, 136), DONE, "{class:?}");
    }
}
