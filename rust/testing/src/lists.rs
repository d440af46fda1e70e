//! Lists of calls and their bytes: given, random, malformed and damaged ones.

use crate::damage::{put, wound_bytes};
use crate::random::Random;
use crate::sample::{some_call, Call};
use crate::vectors::{answer, bytes, lines, shared_lines, Line};
use reference::Answer;

/// One call of a list.
#[derive(Clone, Debug)]
pub enum Listed {
    Fit(Call),
    TakeBack,
}

fn with_length(bytes: &[u8]) -> Vec<u8> {
    [&(bytes.len() as u32).to_le_bytes(), bytes].concat()
}

impl Listed {
    fn bytes(&self) -> Vec<u8> {
        match self {
            Listed::Fit(Call { object, order }) => {
                [vec![1, 0, 0, 0], with_length(object), with_length(order)].concat()
            }
            Listed::TakeBack => vec![2, 0, 0, 0],
        }
    }
}

/// The bytes of a list.
pub fn list(calls: &[Listed]) -> Vec<u8> {
    let mut list = (calls.len() as u32).to_le_bytes().to_vec();
    list.extend(calls.iter().flat_map(Listed::bytes));
    list
}

/// A random list of up to 44 calls for an image of this length.
pub fn some_list(random: &mut Random, image_length: usize) -> Vec<Listed> {
    let one_take_back_in = random.pick(&[2, 3, 8]);
    (0..random.below(45))
        .map(|_| match random.one_in(one_take_back_in) {
            true => Listed::TakeBack,
            false => Listed::Fit(some_call(random, image_length)),
        })
        .collect()
}

/// Damages a list's bytes: the count, a number, a byte, or the length. They may
/// still be a list after that.
pub fn wound_list(random: &mut Random, list: &mut Vec<u8>) {
    match random.below(4) {
        0 => {
            let count: u32 = random.pick(&[0, 1, 2, 45, u32::MAX]);
            put(list, 0, u64::from(count), 4);
        }
        _ => wound_bytes(random, list),
    }
}

/// Bytes that are no list, each with what is wrong. All that can begin with two
/// good calls do, so that something would change if they were made.
pub fn malformed(good: &Call) -> Vec<(String, Vec<u8>)> {
    let calls = [Listed::Fit(good.clone()), Listed::TakeBack];
    let two = list(&calls);
    let mut found = Vec::new();
    let mut no_list = |what: String, bytes: Vec<u8>| found.push((what, bytes));
    let with_count = |count: u32, behind: &[u8]| {
        let mut bytes = [&two[..], behind].concat();
        put(&mut bytes, 0, u64::from(count), 4);
        bytes
    };

    for end in 0..two.len() {
        no_list(format!("the first {end} bytes"), two[..end].to_vec());
    }
    for count in [0, 1, 3, 1 << 31, u32::MAX] {
        no_list(
            format!("two calls, and count {count}"),
            with_count(count, &[]),
        );
    }
    for extra in 1..=8 {
        let zeros = vec![0; extra];
        no_list(format!("{extra} bytes left over"), with_count(2, &zeros));
        no_list(
            format!("no call, and {extra} bytes"),
            [vec![0; 4], zeros].concat(),
        );
    }
    no_list(
        "a call left over".into(),
        with_count(2, &Listed::TakeBack.bytes()),
    );
    for kind in [
        0_u32,
        3,
        1 << 8,
        1 << 16,
        1 << 24,
        0x101,
        0x0100_0002,
        u32::MAX,
    ] {
        for mut call in calls.iter().map(Listed::bytes) {
            put(&mut call, 0, u64::from(kind), 4);
            no_list(format!("kind {kind:#x}"), with_count(3, &call));
            no_list(
                format!("first kind {kind:#x}"),
                [vec![1, 0, 0, 0], call].concat(),
            );
        }
    }
    // Of a third call the object's length, and its order's.
    let order_at = 8 + good.object.len();
    for (name, at, length) in [
        ("object", 4, good.object.len()),
        ("order", order_at, good.order.len()),
    ] {
        let far = (1..=40).map(|less| u32::MAX - less + 1);
        let near = [
            length as u32 + 1,
            length as u32 + 1_000,
            length as u32 | 1 << 31,
        ];
        for length in far.chain(near) {
            let mut call = calls[0].bytes();
            put(&mut call, at, u64::from(length), 4);
            let what = format!("{name} of {length:#x} bytes");
            no_list(what, with_count(3, &call));
        }
    }
    found
}

/// A history of the vectors, as a list.
pub struct Given {
    pub name: String,
    pub image: Vec<u8>,
    pub journal: Vec<u8>,
    pub calls: Vec<Listed>,
    /// The answer of each call.
    pub answers: Vec<Answer>,
    pub image_after: Vec<u8>,
    pub journal_after: Vec<u8>,
}

/// The histories of the vectors, and of those that are shared beside the
/// repository, where they are there.
pub fn histories() -> Vec<Given> {
    let mut given = read_histories("history", lines("histories.txt"));
    if let Some(shared) = shared_lines("histories-after-1-3-5-7-9.txt") {
        given.extend(read_histories("shared history", shared));
    }
    given
}

fn read_histories(name: &str, lines: Vec<Line>) -> Vec<Given> {
    let mut given: Vec<Given> = Vec::new();
    for (at, words) in lines {
        let words: Vec<&str> = words.iter().map(String::as_str).collect();
        if let ["start", image, journal] = words[..] {
            given.push(Given {
                name: format!("{name}, line {at}"),
                image: bytes(image),
                journal: bytes(journal),
                calls: Vec::new(),
                answers: Vec::new(),
                image_after: Vec::new(),
                journal_after: Vec::new(),
            });
            continue;
        }
        let history = given.last_mut().expect("a start");
        let (call, stated) = match words[..] {
            ["end", image, journal] => {
                (history.image_after, history.journal_after) = (bytes(image), bytes(journal));
                continue;
            }
            ["fit", object, order, number, place, reason] => {
                let [object, order] = [object, order].map(bytes);
                (Listed::Fit(Call { object, order }), [number, place, reason])
            }
            ["take-back", number, place, reason] => (Listed::TakeBack, [number, place, reason]),
            _ => panic!("a line that is no call"),
        };
        history.calls.push(call);
        history.answers.push(answer(stated));
    }
    given
}
