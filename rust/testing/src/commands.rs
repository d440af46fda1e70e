//! The commands that the compared programs read: a number of commands, then
//! the commands, each a letter and three numbers. `s` stores bytes, which
//! follow it, in the program's space; the other letters ask about what is
//! there.

/// The length of a command.
const COMMAND: usize = 13;

/// Where the order of a pair is, and the end of a space for pairs. An order of
/// class 2 with as many placements and external values as there may be, and one
/// more of these, has 99,872 bytes.
const ORDER: usize = 1_048_640;
const PAIRS: usize = 1_151_040;

/// What the program holds, and the commands so far.
pub struct Commands {
    space: Vec<u8>,
    text: Vec<u8>,
    count: u32,
}

impl Commands {
    /// For a space of this many bytes, which are zero at the start.
    pub fn new(space: usize) -> Commands {
        Commands {
            space: vec![0; space],
            text: Vec::new(),
            count: 0,
        }
    }

    /// For a space of pairs.
    pub fn of_pairs() -> Commands {
        Commands::new(PAIRS)
    }

    pub fn ask(&mut self, letter: u8, numbers: [u32; 3]) {
        self.text.extend(encode(letter, numbers));
        self.count += 1;
    }

    /// Makes the space hold these bytes from `at` on.
    pub fn store(&mut self, at: usize, bytes: &[u8]) {
        for (start, end) in differences(&self.space[at..], bytes) {
            self.ask(b's', [(at + start) as u32, (end - start) as u32, 0]);
            self.text.extend(&bytes[start..end]);
            self.space[at + start..at + end].copy_from_slice(&bytes[start..end]);
        }
    }

    /// Asks about an object and an order, which is behind it, for an image of
    /// this length.
    pub fn ask_pair(&mut self, letter: u8, object: &[u8], order: &[u8], image_length: usize) {
        assert!(object.len() <= ORDER, "the order is behind the object");
        self.store(0, object);
        self.store(ORDER, order);
        let lengths = [object.len(), order.len(), image_length];
        self.ask(letter, lengths.map(|length| length as u32));
    }

    /// The program's input.
    pub fn input(self) -> Vec<u8> {
        [encode(b'n', [self.count, 0, 0]), self.text].concat()
    }
}

fn encode(letter: u8, numbers: [u32; 3]) -> Vec<u8> {
    let mut command = vec![letter];
    command.extend(numbers.iter().flat_map(|number| number.to_le_bytes()));
    command
}

/// Where the new bytes differ from the old, as starts and ends. A gap that is
/// no longer than a command is part of one difference.
fn differences(old: &[u8], new: &[u8]) -> Vec<(usize, usize)> {
    let mut found: Vec<(usize, usize)> = Vec::new();
    for at in (0..new.len()).filter(|at| old[*at] != new[*at]) {
        match found.last_mut() {
            Some((_, end)) if at <= *end + COMMAND => *end = at + 1,
            _ => found.push((at, at + 1)),
        }
    }
    found
}
