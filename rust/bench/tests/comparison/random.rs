//! Random and damaged calls, from a fixed seed.

use bench::inputs::{rows, Call};
use testing::counts::Counts;
use testing::damage::{damage, right_input, vector_inputs, wound_bytes, wound_relocation, Input};
use testing::random::Random;

use crate::compare;

const CALLS: u64 = 100_000;
const WOUNDED: u64 = 3_000;

fn check(name: &str, seed: u64, input: &Input, call: Call, counts: &mut Counts) {
    let outcome = compare(input, call);
    let outcome = outcome.unwrap_or_else(|wrong| panic!("{name}, seed {seed}: {wrong}"));
    counts.add(outcome.answer);
}

#[test]
fn calls() {
    let vectors = vector_inputs();
    let (mut fits, mut rollbacks) = (Counts::default(), Counts::default());
    for seed in 0..CALLS {
        let random = &mut Random::new(seed);
        let mut input = match random.below(4) {
            0 => vectors[random.below(vectors.len())].clone(),
            _ => right_input(random),
        };
        damage(random, &mut input);
        match random.one_in(8) {
            true => check("call", seed, &input, Call::TakeBack, &mut rollbacks),
            false => check("call", seed, &input, Call::Fit, &mut fits),
        }
    }
    println!("fits: {fits:?}\ntakings-back: {rollbacks:?}");
    for number in 0..17 {
        let often = if number < 16 { 20 } else { 0 };
        let (fits, rollbacks) = (fits.numbers[number], rollbacks.numbers[number]);
        assert!(fits >= often, "answer {number} occurs in fits");
        let occurs = [0, 1, 3, 16].contains(&number);
        assert_eq!(rollbacks > 0, occurs, "{number} in takings-back");
    }
    assert!(fits.rarest_reason() >= 20, "{:?}", fits.reasons);
}

/// The timed installs with a few wounds at their relocations, or anywhere in
/// the object.
#[test]
fn wounded_rows() {
    let is_small = |row: &bench::inputs::Row| row.relocations <= 1_024 && row.call == Call::Fit;
    let rows: Vec<_> = rows().into_iter().filter(is_small).collect();
    let mut counts = Counts::default();
    for seed in 0..WOUNDED {
        let random = &mut Random::new(seed);
        let row = &rows[random.below(rows.len())];
        let mut input = row.input.clone();
        for _ in 0..1 + random.below(3) {
            match random.below(3) {
                0 => wound_bytes(random, &mut input.object),
                _ => wound_relocation(random, &mut input.object),
            }
        }
        check(&row.name, seed, &input, Call::Fit, &mut counts);
    }
    println!("{counts:?}");
    for number in [0, 5, 9, 10, 11, 12, 13] {
        assert!(counts.numbers[number] >= 20, "answer {number} occurs");
    }
}
