//! Random calls and histories through the static library, from a fixed seed.

use compare::Compare;

const CALLS: u64 = 150_000;
const HISTORIES: u64 = 1_000;

#[test]
fn calls() {
    let mut compare = Compare::new();
    for seed in 0..CALLS {
        let done = compare.call(seed);
        done.unwrap_or_else(|wrong| panic!("call {seed}: {wrong}"));
    }
    let (fits, rollbacks) = (compare.fits, compare.rollbacks);
    println!("fits: {fits:?}\ntakings-back: {rollbacks:?}");
    for number in 0..17 {
        let often = if number < 16 { 100 } else { 0 };
        let (fits, rollbacks) = (fits.numbers[number], rollbacks.numbers[number]);
        assert!(fits >= often, "answer {number} occurs in fits");
        let occurs = [0, 1, 3, 16].contains(&number);
        assert_eq!(rollbacks > 0, occurs, "{number} in takings-back");
    }
    assert!(fits.rarest_reason() >= 100, "{:?}", fits.reasons);
    assert_eq!(fits.numbers[16], 0, "a fit never answers 16");
}

#[test]
fn histories() {
    let mut compare = Compare::new();
    for seed in 0..HISTORIES {
        let done = compare.history(seed);
        done.unwrap_or_else(|wrong| panic!("history {seed}: {wrong}"));
    }
    let seen = compare.histories;
    println!("answers: {:?}", seen.answers);
    assert_eq!(seen.most_standing, 16, "a full ledger occurs");
    assert_eq!(seen.answers.numbers[1], 0, "the ledger stays sound");
    for number in (0..17).filter(|number| *number != 1) {
        assert!(seen.answers.numbers[number] >= 10, "answer {number}");
    }
    assert!(seen.answers.rarest_reason() > 0, "every reason occurs");
}
