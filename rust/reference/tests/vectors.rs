//! Every line of the shared vectors: number, place, reason, image after and ledger
//! after.

use reference::{install, rollback};
use testing::vectors::{answer, bytes, bytes_after, lines};

/// What is wrong with one line of calls.txt, if anything.
fn wrong_call(words: &[String]) -> Option<String> {
    let words: Vec<&str> = words.iter().map(String::as_str).collect();
    let (inputs, expected) = words.split_at(words.len() - 5);
    let [image, journal] = [inputs[inputs.len() - 2], inputs[inputs.len() - 1]].map(bytes);
    let (mut new_image, mut new_journal) = (image.clone(), journal.clone());
    let given = match inputs {
        ["fit", object, order, _, _] => install(
            &bytes(object),
            &bytes(order),
            &mut new_image,
            &mut new_journal,
        ),
        ["take-back", _, _] => rollback(&mut new_image, &mut new_journal),
        _ => panic!("a line that is no call"),
    };
    let asked = answer([expected[0], expected[1], expected[2]]);
    if given != asked {
        return Some(format!("{given:?}, and the vector has {asked:?}"));
    }
    if new_image != bytes_after(expected[3], &image) {
        return Some(format!("{given:?}, but another image"));
    }
    if new_journal != bytes_after(expected[4], &journal) {
        return Some(format!("{given:?}, but another ledger"));
    }
    None
}

#[test]
fn calls() {
    let lines = lines("calls.txt");
    let wrong: Vec<String> = lines
        .iter()
        .filter_map(|(at, words)| Some(format!("line {at}: {}", wrong_call(words)?)))
        .collect();
    assert!(lines.len() > 300, "the file is whole");
    assert!(wrong.is_empty(), "{}", wrong.join("\n"));
}

/// Plays one line of histories.txt and says what is wrong with it, if anything.
fn wrong_step(words: &[String], image: &mut Vec<u8>, journal: &mut Vec<u8>) -> Option<String> {
    let words: Vec<&str> = words.iter().map(String::as_str).collect();
    let (given, asked) = match words[..] {
        ["start", start_image, start_journal] => {
            (*image, *journal) = (bytes(start_image), bytes(start_journal));
            return None;
        }
        ["end", end_image, end_journal] => {
            let same = *image == bytes(end_image) && *journal == bytes(end_journal);
            return (!same).then(|| "another image or ledger".to_string());
        }
        ["fit", object, order, number, place, reason] => {
            let given = install(&bytes(object), &bytes(order), image, journal);
            (given, answer([number, place, reason]))
        }
        ["take-back", number, place, reason] => {
            (rollback(image, journal), answer([number, place, reason]))
        }
        _ => panic!("a line that is no call"),
    };
    (given != asked).then(|| format!("{given:?}, and the vector has {asked:?}"))
}

#[test]
fn histories() {
    let (mut image, mut journal) = (Vec::new(), Vec::new());
    let lines = lines("histories.txt");
    let wrong: Vec<String> = lines
        .iter()
        .filter_map(|(at, words)| {
            let wrong = wrong_step(words, &mut image, &mut journal)?;
            Some(format!("line {at}: {wrong}"))
        })
        .collect();
    let ends = lines.iter().filter(|(_, words)| words[0] == "end").count();
    assert!(ends > 10, "the file is whole");
    assert!(wrong.is_empty(), "{}", wrong.join("\n"));
}
