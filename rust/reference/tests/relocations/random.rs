//! Random sound pairs, and the same with wounds at relocations, their symbols
//! and the bytes under them.

use crate::Case;
use testing::damage::{damage, wound_relocation, Input};
use testing::random::Random;
use testing::sample::call;

/// Sound pairs, and how often each is wounded.
const PAIRS: u64 = 90;
const WOUNDS: usize = 5;

fn case(name: String, input: &Input) -> Case {
    Case {
        name,
        object: input.object.clone(),
        order: input.order.clone(),
        image_length: input.image.len(),
        stated: None,
        bytes: Vec::new(),
        fit: None,
    }
}

fn wound(random: &mut Random, input: &mut Input) {
    if random.one_in(8) {
        damage(random, input);
    } else {
        for _ in 0..1 + random.below(2) {
            wound_relocation(random, &mut input.object);
        }
    }
}

fn wounded(seed: u64) -> Vec<Case> {
    let random = &mut Random::new(seed);
    let image_length = random.pick(&[100, 200, 400]);
    let call = call(random, image_length);
    let sound = Input {
        object: call.object,
        order: call.order,
        image: vec![0; image_length],
        journal: Vec::new(),
    };
    let mut cases = vec![case(format!("pair {seed}"), &sound)];
    for number in 0..WOUNDS {
        let mut input = sound.clone();
        wound(random, &mut input);
        cases.push(case(format!("wound {number} of pair {seed}"), &input));
    }
    cases
}

pub fn cases() -> Vec<Case> {
    let seeds = (0..PAIRS).map(|seed| seed + (1 << 36));
    seeds.flat_map(wounded).collect()
}
