//! The cases of `crates/tests_rollbacks/stdin`, and the lines that the program
//! `tests_rollbacks` writes of them, worked out anew: rollbacks and saves on the
//! shared vectors, on journals that are unsound in one way alone, and at the
//! ends of what lengths may be.

use reference::journal::Standing;
use reference::{install, judge, rollback, Span, MAX_BYTES};
use testing::compared::Compared;
use testing::vectors::{bytes, bytes_after, lines};

const PROGRAM: Compared = Compared("tests_rollbacks");

const SPACE: usize = 1_114_112;

/// What a case hands the program, and what it has to leave.
struct Case {
    kind: u32,
    image: Vec<u8>,
    journal: Vec<u8>,
    span: Span,
    number: u32,
    image_after: Vec<u8>,
    journal_after: Vec<u8>,
}

/// A rollback, and after it others down to the first that is refused.
fn rollbacks(image: &[u8], journal: &[u8]) -> Vec<Case> {
    let (mut image, mut journal) = (image.to_vec(), journal.to_vec());
    let mut cases: Vec<Case> = Vec::new();
    loop {
        let (old_image, old_journal) = (image.clone(), journal.clone());
        let answer = rollback(&mut image, &mut journal);
        cases.push(Case {
            kind: if cases.is_empty() { 0 } else { 2 },
            image: old_image,
            journal: old_journal,
            span: Span::NONE,
            number: answer.number,
            image_after: image.clone(),
            journal_after: journal.clone(),
        });
        if answer.number != 0 {
            return cases;
        }
    }
}

/// Where a plan comes to check 15, the save of its span, with the journal of the
/// whole install.
fn save(object: &[u8], order: &[u8], image: &[u8], journal: &[u8]) -> Option<Case> {
    let plan = judge(object, order, image.len()).ok()?;
    let (mut new_image, mut new_journal) = (image.to_vec(), journal.to_vec());
    let answer = install(object, order, &mut new_image, &mut new_journal);
    Some(Case {
        kind: 1,
        image: image.to_vec(),
        journal: journal.to_vec(),
        span: plan.span,
        number: answer.number,
        image_after: image.to_vec(),
        journal_after: new_journal,
    })
}

/// Every taking-back; every fit that is refused with 1; of the other fits the
/// save, and the rollbacks after it.
fn of_calls() -> Vec<Case> {
    let mut cases = Vec::new();
    for (_, words) in lines("calls.txt") {
        let words: Vec<&str> = words.iter().map(String::as_str).collect();
        match words[..] {
            ["take-back", image, journal, ..] => {
                cases.extend(rollbacks(&bytes(image), &bytes(journal)));
            }
            ["fit", object, order, image, journal, number, _, _, image_after, journal_after] => {
                let (image, journal) = (bytes(image), bytes(journal));
                cases.extend(save(&bytes(object), &bytes(order), &image, &journal));
                if number == "0" {
                    let (new_image, new_journal) = (
                        bytes_after(image_after, &image),
                        bytes_after(journal_after, &journal),
                    );
                    cases.extend(rollbacks(&new_image, &new_journal));
                }
                if number == "1" {
                    cases.extend(rollbacks(&image, &journal));
                }
            }
            _ => panic!("a line that is no call"),
        }
    }
    cases
}

/// All installs of a history's end, rolled back.
fn of_histories() -> Vec<Case> {
    let ends = lines("histories.txt").into_iter().map(|(_, words)| words);
    let ends = ends.filter(|words| words[0] == "end");
    ends.flat_map(|words| rollbacks(&bytes(&words[1]), &bytes(&words[2])))
        .collect()
}

/// "Ledger after laying four bytes there over AA BB CC DD: 01000000, 08000000
/// 04000000, 120 zero bytes, 04000000 AABBCCDD"
fn bench() -> Vec<u8> {
    let mut journal = vec![1, 0, 0, 0, 8, 0, 0, 0, 4, 0, 0, 0];
    journal.extend([0; 120]);
    journal.extend([4, 0, 0, 0, 0xAA, 0xBB, 0xCC, 0xDD]);
    journal
}

/// The bench ledger saved and rolled back; a byte of room less and more; no
/// entry left.
fn of_bench() -> Vec<Case> {
    let image = [&[0; 8], &[0xAA, 0xBB, 0xCC, 0xDD, 7][..]].concat();
    let span = Span {
        start: 8,
        length: 4,
    };
    let mut full = vec![0; 140];
    full[0] = 16;
    let befores = [vec![0; 139], vec![0; 140], vec![0; 141], full];
    let mut cases = Vec::new();
    for before in befores {
        let standing = Standing::read(&before, image.len()).expect("a sound ledger");
        let room = standing.has_room_for(span, before.len());
        let mut after = before.clone();
        if room {
            after[..140].copy_from_slice(&bench());
        }
        cases.push(Case {
            kind: 1,
            image: image.clone(),
            journal: before,
            span,
            number: if room { 0 } else { 15 },
            image_after: image.clone(),
            journal_after: after.clone(),
        });
        cases.extend(rollbacks(&image, &after));
    }
    cases
}

/// A journal of two standing installs, of 4 bytes at 2 and of 3 at 4, with some
/// bytes after them.
fn two_installs() -> Vec<u8> {
    let mut journal = vec![0; 150];
    journal[0] = 2;
    journal[4..8].copy_from_slice(&2u32.to_le_bytes());
    journal[8..12].copy_from_slice(&4u32.to_le_bytes());
    journal[12..16].copy_from_slice(&4u32.to_le_bytes());
    journal[16..20].copy_from_slice(&3u32.to_le_bytes());
    journal[132] = 7;
    for (at, byte) in journal[136..].iter_mut().enumerate() {
        *byte = 0xA0 + at as u8;
    }
    journal
}

/// Journals that are unsound in one way alone, and those just beside them that
/// are sound.
fn unsound() -> Vec<Case> {
    let image: Vec<u8> = (0..7).collect();
    let changes: [&[(usize, u8)]; 15] = [
        &[],
        // n
        &[(0, 17)],
        &[(0, 255)],
        &[(3, 1)],
        &[(0, 1)],
        // an entry from n on
        &[(20, 1)],
        &[(24, 1)],
        &[(131, 1)],
        // k
        &[(132, 6)],
        &[(132, 8)],
        &[(134, 1)],
        // a span's end, with k kept right
        &[(4, 3)],
        &[(12, 5)],
        &[(15, 1)],
        &[(8, 5), (132, 8)],
    ];
    let mut cases = Vec::new();
    for change in changes {
        let mut journal = two_installs();
        for (at, byte) in change {
            journal[*at] = *byte;
        }
        cases.extend(rollbacks(&image, &journal));
    }
    // 136 + k is at the end of the journal, and one past it; spans are inside
    // the image, and one past it
    for length in [0, 1, 4, 135, 136, 142, 143, 144] {
        cases.extend(rollbacks(&image, &two_installs()[..length]));
    }
    for length in 0..=8 {
        cases.extend(rollbacks(&vec![9; length], &two_installs()));
    }
    cases
}

/// Empty journals, and those with one install, of many lengths.
fn lengths() -> Vec<Case> {
    let mut cases = Vec::new();
    for image in [0, 1, MAX_BYTES - 1, MAX_BYTES, MAX_BYTES + 1, SPACE] {
        for journal in [0, 135, 136, 137, MAX_BYTES, MAX_BYTES + 1, SPACE] {
            let mut empty = places(journal);
            empty.iter_mut().take(136).for_each(|byte| *byte = 0);
            cases.extend(rollbacks(&places(image), &empty));
            if journal > 136 && image > 0 {
                // the last byte of the image
                empty[0] = 1;
                empty[4..8].copy_from_slice(&(image as u32 - 1).to_le_bytes());
                empty[8] = 1;
                empty[132] = 1;
                cases.extend(rollbacks(&places(image), &empty));
            }
        }
    }
    cases
}

/// What the program fills its bytes with.
fn places(length: usize) -> Vec<u8> {
    (0..length).map(|at| (at % 251) as u8).collect()
}

/// How many first bytes are not what the program fills in by itself.
fn given(bytes: &[u8]) -> usize {
    let same = |at: &usize| bytes[at - 1] == ((at - 1) % 251) as u8;
    bytes.len() - (1..=bytes.len()).rev().take_while(same).count()
}

fn checksum(bytes: &[u8]) -> u64 {
    let digit = |sum, byte: &u8| (65_599 * sum + u64::from(*byte) + 1) % 4_294_967_291;
    bytes.iter().fold(0, digit)
}

impl Case {
    fn input(&self) -> Vec<u8> {
        let (image, journal) = match self.kind {
            2 => (0, 0),
            _ => (given(&self.image), given(&self.journal)),
        };
        let lengths = [self.image.len(), self.journal.len(), image, journal];
        let mut input = self.kind.to_le_bytes().to_vec();
        for number in lengths {
            input.extend((number as u32).to_le_bytes());
        }
        input.extend(self.span.start.to_le_bytes());
        input.extend(self.span.length.to_le_bytes());
        input.extend(&self.image[..image]);
        input.extend(&self.journal[..journal]);
        input
    }

    fn line(&self) -> String {
        let (image, journal) = (checksum(&self.image_after), checksum(&self.journal_after));
        format!("{} {image:08x} {journal:08x}", self.number)
    }
}

fn cases() -> Vec<Case> {
    let mut cases = of_calls();
    cases.extend(of_histories());
    cases.extend(of_bench());
    cases.extend(unsound());
    cases.extend(lengths());
    cases
}

fn input(cases: &[Case]) -> Vec<u8> {
    let count = cases.len() as u32;
    let mut input = count.to_le_bytes().to_vec();
    input.extend(cases.iter().flat_map(Case::input));
    input
}

#[test]
fn files() {
    let cases = cases();
    PROGRAM.assert_input(&input(&cases));
    PROGRAM.assert_lines(cases.iter().map(Case::line).enumerate());
}

#[test]
fn each_answer() {
    let cases = cases();
    for number in [0, 1, 3, 16] {
        let some = cases
            .iter()
            .any(|case| case.number == number && case.kind != 1);
        assert!(some, "a rollback that answers {number}");
    }
    for number in [0, 1, 15] {
        let some = cases
            .iter()
            .any(|case| case.number == number && case.kind == 1);
        assert!(some, "a save that answers {number}");
    }
}

#[test]
#[ignore = "writes the files anew"]
fn write_files() {
    let cases = cases();
    PROGRAM.write_input(&input(&cases));
    PROGRAM.write_lines(cases.iter().map(Case::line));
}
