//! Random inputs of one call: sound ones, damaged ones, and raw bytes.

use crate::call::Command;
use testing::build::journal;
use testing::damage::{damage, right_input, vector_inputs, Input};
use testing::given::objects;
use testing::random::Random;

/// Made inputs, besides those of the vectors and the real objects.
const MADE: u64 = 2_000;

/// Sound inputs, and those of the vectors.
pub struct Pool(Vec<Input>);

impl Pool {
    #[allow(clippy::new_without_default)]
    pub fn new() -> Pool {
        let mut inputs = vector_inputs();
        inputs.extend(objects().into_iter().map(|given| Input {
            object: given.object,
            order: given.order,
            image: vec![0xA5; given.image_length],
            journal: journal(given.image_length),
        }));
        inputs.extend((0..MADE).map(|seed| right_input(&mut Random::new(seed))));
        Pool(inputs)
    }

    /// An input with none to three wounds, or raw bytes, and which call.
    pub fn input(&self, random: &mut Random) -> (Input, Command) {
        let mut input = match random.below(16) {
            0 => raw(random),
            1..=3 => right_input(random),
            _ => self.0[random.below(self.0.len())].clone(),
        };
        damage(random, &mut input);
        let command = match random.below(8) {
            0 => Command::TakeBack,
            _ => Command::Fit,
        };
        (input, command)
    }
}

/// Four times any bytes. Often the object begins as one of either class does, and
/// the ledger is empty and sound, so that more than the first check is reached.
fn raw(random: &mut Random) -> Input {
    let mut input = Input {
        object: some_bytes(random),
        order: some_bytes(random),
        image: some_bytes(random),
        journal: some_bytes(random),
    };
    let start = [0x7F, b'E', b'L', b'F', random.pick(&[1, 2]), 1, 1];
    if input.object.len() >= start.len() && random.one_in(2) {
        input.object[..start.len()].copy_from_slice(&start);
    }
    if random.below(4) != 0 {
        input.journal = journal(random.below(300));
    }
    input
}

fn some_bytes(random: &mut Random) -> Vec<u8> {
    let most = random.pick(&[1, 20, 52, 64, 200, 1_000]);
    let length = random.below(most);
    random.bytes(length)
}
