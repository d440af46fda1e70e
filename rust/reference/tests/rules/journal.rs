//! The ledger: soundness (check 1), room (15), nothing stands (16), what a fit
//! appends and what a taking-back writes.

use reference::journal::{Span, Standing};
use reference::{install, rollback, Answer};
use testing::build::*;
use testing::{numbers, DONE};

const IMAGE: usize = 100;

/// A ledger with these entries, its k, and old bytes 1, 2, 3, ...
fn ledger(n: u32, entries: &[(u32, u32)], k: u32, old_bytes: usize) -> Vec<u8> {
    let mut bytes = n.to_le_bytes().to_vec();
    for (start, length) in entries {
        bytes.extend(start.to_le_bytes());
        bytes.extend(length.to_le_bytes());
    }
    bytes.resize(132, 0);
    bytes.extend(k.to_le_bytes());
    bytes.extend((1..=old_bytes).map(|number| number as u8));
    bytes
}

fn is_sound(ledger: &[u8]) -> bool {
    Standing::read(ledger, IMAGE).is_some()
}

#[test]
fn count_n() {
    assert!(is_sound(&ledger(0, &[], 0, 0)));
    assert!(is_sound(&ledger(16, &[(0, 0); 16], 0, 0)));
    assert!(!is_sound(&ledger(17, &[(0, 0); 16], 0, 0)));
    assert!(!is_sound(&ledger(u32::MAX, &[(0, 0); 16], 0, 0)));
}

#[test]
fn entries_from_n_on_are_zero() {
    for spoiled in [(1, 0), (0, 1)] {
        let mut entries = [(0, 0); 16];
        entries[15] = spoiled;
        assert!(!is_sound(&ledger(0, &entries, 0, 9)), "{spoiled:?}");
        assert!(!is_sound(&ledger(15, &entries, 0, 9)), "{spoiled:?}");
    }
}

#[test]
fn k_is_the_sum() {
    let two = [(0, 3), (50, 4)];
    assert!(is_sound(&ledger(2, &two, 7, 7)));
    assert!(!is_sound(&ledger(2, &two, 6, 7)));
    assert!(!is_sound(&ledger(2, &two, 8, 8)));
    // 2 * 2^31 is not 0.
    assert!(!is_sound(&ledger(2, &[(0, 1 << 31), (0, 1 << 31)], 0, 0)));
}

#[test]
fn old_bytes_fit() {
    assert!(is_sound(&ledger(1, &[(0, 7)], 7, 7)));
    assert!(is_sound(&ledger(1, &[(0, 7)], 7, 8)));
    assert!(!is_sound(&ledger(1, &[(0, 7)], 7, 6)));
    assert!(!is_sound(&ledger(0, &[], 0, 0)[..135]));
    assert!(!is_sound(&[]));
}

#[test]
fn spans_lie_inside_the_image() {
    assert!(is_sound(&ledger(1, &[(0, 100)], 100, 100)));
    assert!(is_sound(&ledger(1, &[(99, 1)], 1, 1)));
    assert!(!is_sound(&ledger(1, &[(99, 2)], 2, 2)));
    assert!(!is_sound(&ledger(1, &[(100, 1)], 1, 1)));
    assert!(!is_sound(&ledger(1, &[(u32::MAX, 1)], 1, 1)));
    assert!(is_sound(&ledger(1, &[(100, 0)], 0, 0)), "empty, at the end");
    assert!(!is_sound(&ledger(1, &[(101, 0)], 0, 0)), "empty, past it");
}

/// A fit of four bytes at image position 8.
fn four_bytes() -> Fit {
    let mut fit = Fit::code(0x1008, &[1, 2, 3, 4], &[], &[]);
    fit.base = 0x1000;
    fit.image = (0..IMAGE as u8).collect();
    fit
}

#[test]
fn a_fit_appends() {
    let mut fit = four_bytes();
    fit.journal = ledger(1, &[(90, 3)], 3, 9);
    let (answer, image, after) = fit.run();
    assert_eq!(answer, Answer::DONE);
    assert_eq!(image[8..12], [1, 2, 3, 4]);
    let mut expected = ledger(2, &[(90, 3), (8, 4)], 7, 9);
    expected[139..143].copy_from_slice(&[8, 9, 10, 11]);
    assert_eq!(after, expected, "the last two bytes are past 136 + k");
}

#[test]
fn room() {
    let with = |ledger: Vec<u8>| {
        let mut fit = four_bytes();
        fit.journal = ledger;
        fit.answer()
    };
    assert_eq!(with(ledger(0, &[], 0, 4)), DONE);
    assert_eq!(with(ledger(0, &[], 0, 3)), (15, 0, 0));
    assert_eq!(with(ledger(1, &[(0, 5)], 5, 9)), DONE);
    assert_eq!(with(ledger(1, &[(0, 5)], 5, 8)), (15, 0, 0));
    assert_eq!(with(ledger(15, &[(0, 0); 15], 0, 4)), DONE);
    assert_eq!(with(ledger(16, &[(0, 0); 16], 0, 4)), (15, 0, 0));
}

/// "A fit's span runs from the lowest to the end of the highest laid byte",
/// over the gap and not over NOBITS or empty rows.
#[test]
fn span() {
    let mut fit = four_bytes();
    fit.sections.push(Section::loaded(1, &[9, 9]));
    fit.sections.push(Section::nobits(1, 10));
    fit.sections.push(Section::loaded(1, &[]));
    fit.placements
        .extend([(4, 0x1000 + 30), (5, 0x1000 + 60), (6, 0)]);
    fit.journal = journal(24);
    let (answer, image, after) = fit.run();
    assert_eq!(answer, Answer::DONE);
    assert_eq!(image[12..30], fit.image[12..30], "the gap stays");
    let standing = Standing::read(&after, IMAGE).expect("sound");
    let span = Span {
        start: 8,
        length: 24,
    };
    assert_eq!(standing.spans, [span]);
    fit.journal = journal(23);
    assert_eq!(fit.answer(), (15, 0, 0));
}

#[test]
fn a_fit_that_lays_nothing() {
    let mut fit = four_bytes();
    fit.sections = vec![Section::default()];
    fit.placements.clear();
    fit.journal = ledger(0, &[], 0, 0);
    let (answer, image, after) = fit.run();
    assert_eq!((answer, image), (Answer::DONE, fit.image.clone()));
    assert_eq!(after, ledger(1, &[(0, 0)], 0, 0));
    fit.journal = ledger(16, &[(0, 0); 16], 0, 0);
    assert_eq!(fit.answer(), (15, 0, 0), "it still takes an entry");
}

#[test]
fn a_taking_back() {
    let mut image: Vec<u8> = vec![0x77; IMAGE];
    let mut ledger_now = ledger(2, &[(90, 3), (8, 4)], 7, 9);
    assert_eq!(rollback(&mut image, &mut ledger_now), Answer::DONE);
    assert_eq!(image[8..12], [4, 5, 6, 7]);
    assert!(image[..8].iter().chain(&image[12..]).all(|b| *b == 0x77));
    let mut expected = ledger(1, &[(90, 3)], 3, 9);
    expected[139..143].fill(0);
    assert_eq!(ledger_now, expected, "the last two bytes stay");
}

#[test]
fn checks_of_a_taking_back() {
    let call = |length: usize, mut ledger: Vec<u8>| {
        let before = ledger.clone();
        let answer = rollback(&mut vec![0; length], &mut ledger);
        assert_eq!(ledger == before, answer != Answer::DONE);
        numbers(answer)
    };
    let standing = ledger(1, &[(0, 0)], 0, 0);
    assert_eq!(call(1_048_576, standing.clone()), DONE);
    assert_eq!(call(1_048_577, standing.clone()), (3, 0, 0));
    assert_eq!(
        call(1_048_577, ledger(0, &[], 0, 0)),
        (3, 0, 0),
        "3 before 16"
    );
    assert_eq!(
        call(1_048_577, ledger(0, &[], 1, 1)),
        (1, 0, 0),
        "1 before 3"
    );
    assert_eq!(call(0, ledger(0, &[], 0, 0)), (16, 0, 0));
    assert_eq!(call(0, standing), DONE);
}

/// "so the room of a fit taken back serves again"
#[test]
fn room_serves_again() {
    let fit = four_bytes();
    let (mut image, mut ledger) = (fit.image.clone(), journal(4));
    for _ in 0..40 {
        let done = install(&fit.object(), &fit.order(), &mut image, &mut ledger);
        assert_eq!(done, Answer::DONE);
        let full = install(&fit.object(), &fit.order(), &mut image, &mut ledger);
        assert_eq!(full.number, 15);
        assert_eq!(rollback(&mut image, &mut ledger), Answer::DONE);
        assert_eq!((&image, &ledger), (&fit.image, &journal(4)));
    }
}

/// Check 15 comes after every check of the object.
#[test]
fn fifteen_is_last() {
    let list = [Relocation::new(0, 2, 0, 0)];
    let mut fit = Fit::code(0x1008, &[1, 2, 3, 4], &[], &list);
    fit.journal = ledger(16, &[(0, 0); 16], 0, 0);
    assert_eq!(fit.answer(), (9, 0, 0));
}
