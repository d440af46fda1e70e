//! Three million damaged and random inputs of both classes: each is answered, a
//! refusal changes no byte, and a done call changes only what it may.

use std::panic::{catch_unwind, AssertUnwindSafe};

use reference::journal::Standing;
use reference::{install, judge, rollback, Answer, Class};
use testing::counts::Counts;
use testing::damage::{damage, right_input, vector_inputs, Input};
use testing::numbers;
use testing::random::Random;

const INPUTS: u64 = 3_000_000;
/// Right inputs that are damaged, besides those of the vectors.
const RIGHT_INPUTS: u64 = 6_000;

/// The ledger of a done fit: one entry and the span's old bytes are new, and
/// all else stays.
fn check_done_install(before: &Input, image: &[u8], journal: &[u8]) {
    let length = image.len();
    let old = Standing::read(&before.journal, length).expect("sound before");
    let new = Standing::read(journal, length).expect("sound after");
    let plan = judge(&before.object, &before.order, length).expect("a done fit has a plan");
    let mut expected = before.image.clone();
    plan.lay(&mut expected);
    assert_eq!(image, expected, "the image is the plan's");

    let (newest, older) = new.spans.split_last().expect("an entry more");
    assert_eq!(older, old.spans);
    assert_eq!(*newest, plan.span);
    let (start, end) = (
        newest.start as usize,
        (newest.start + newest.length) as usize,
    );
    assert_eq!(image[..start], before.image[..start], "before the span");
    assert_eq!(image[end..], before.image[end..], "behind the span");
    let (kept, all) = (136 + old.old_bytes, 136 + new.old_bytes);
    assert_eq!(journal[136..kept], before.journal[136..kept]);
    assert_eq!(journal[kept..all], before.image[start..end]);
    assert_eq!(journal[all..], before.journal[all..]);
}

fn check_done_rollback(before: &Input, image: &[u8], journal: &[u8]) {
    let length = image.len();
    let old = Standing::read(&before.journal, length).expect("sound before");
    let new = Standing::read(journal, length).expect("sound after");
    let (newest, older) = old.spans.split_last().expect("a fit stood");
    assert_eq!(new.spans, older);
    let (start, end) = (
        newest.start as usize,
        (newest.start + newest.length) as usize,
    );
    let (kept, all) = (136 + new.old_bytes, 136 + old.old_bytes);
    assert_eq!(image[..start], before.image[..start], "before the span");
    assert_eq!(image[start..end], before.journal[kept..all]);
    assert_eq!(image[end..], before.image[end..], "behind the span");
    assert_eq!(journal[136..kept], before.journal[136..kept]);
    assert!(journal[kept..all].iter().all(|byte| *byte == 0));
    assert_eq!(journal[all..], before.journal[all..]);
}

/// One call on a copy of the input, checked against the input.
fn try_input(input: &Input, is_rollback: bool) -> Answer {
    let (mut image, mut journal) = (input.image.clone(), input.journal.clone());
    let answer = if is_rollback {
        rollback(&mut image, &mut journal)
    } else {
        install(&input.object, &input.order, &mut image, &mut journal)
    };
    match (answer == Answer::DONE, is_rollback) {
        (true, true) => check_done_rollback(input, &image, &journal),
        (true, false) => check_done_install(input, &image, &journal),
        (false, _) => {
            assert!(image == input.image, "a refusal keeps the image");
            assert!(journal == input.journal, "a refusal keeps the ledger");
        }
    }
    answer
}

#[test]
fn millions_of_inputs() {
    let mut right = vector_inputs();
    right.extend((0..RIGHT_INPUTS).map(|seed| right_input(&mut Random::new(seed))));
    // By what the object says of its class: none or another, 1, and 2.
    let mut fits = [Counts::default(); 3];
    let mut rollbacks = Counts::default();
    for seed in 0..INPUTS {
        let random = &mut Random::new(seed + (1 << 32));
        let mut input = right[random.below(right.len())].clone();
        damage(random, &mut input);
        let is_rollback = random.one_in(8);
        let counts = match Class::of(&input.object) {
            _ if is_rollback => &mut rollbacks,
            None => &mut fits[0],
            Some(Class::Elf32) => &mut fits[1],
            Some(Class::Elf64) => &mut fits[2],
        };
        match catch_unwind(AssertUnwindSafe(|| try_input(&input, is_rollback))) {
            Ok(answer) => counts.add(numbers(answer)),
            Err(_) => panic!("input {seed}, a taking-back: {is_rollback}"),
        }
    }
    println!("fits: {fits:?}\ntakings-back: {rollbacks:?}");
    for fits in &fits[1..] {
        for (number, count) in fits.numbers[..16].iter().enumerate() {
            assert!(*count >= 100, "answer {number} occurs often in fits");
        }
        assert!(fits.rarest_reason() >= 100, "{:?}", fits.reasons);
    }
    // No class is 4, unless the ledger is unsound.
    let none = fits[0].numbers;
    let others = [none[1] + none[4], none.iter().sum()];
    assert!(others[0] == others[1] && fits.iter().all(|fits| fits.numbers[16] == 0));
    for (number, count) in rollbacks.numbers.iter().enumerate() {
        let occurs = [0, 1, 3, 16].contains(&number);
        assert_eq!(*count > 0, occurs, "answer {number} in takings-back");
    }
}
