//! Objects made by real assemblers and compilers, installed and compared with
//! the bytes that a real linker lays. `objects/README.md` says how they are made,
//! and which of them are refused.

use std::collections::BTreeSet;

use reference::journal::Standing;
use reference::object::{Header, Object};
use reference::{install, rollback, Answer, Class};
use testing::given::{objects, Given, FILL};
use testing::{numbers, DONE};

/// The journal's length without old bytes. Document 01: 136.
const JOURNAL_HEAD: usize = 136;

/// Every relocation type of document 01's table. Class 2 has type 2 besides.
const TYPES: [u32; 30] = [
    0, 1, 16, 17, 18, 19, 23, 24, 25, 26, 27, 28, 33, 34, 35, 36, 37, 38, 39, 40, 43, 44, 45, 51,
    52, 53, 54, 55, 56, 57,
];

/// An empty sound journal with room for a span of the whole image. The room is
/// zero, as a rollback leaves the bytes that it releases.
fn empty_journal(room: usize) -> Vec<u8> {
    vec![0; JOURNAL_HEAD + room]
}

/// What a test asks of an object.
struct Kinds {
    class: Class,
    has_compressed: bool,
    /// The types of the relocations whose target section is allocated.
    types: BTreeSet<u32>,
}

fn kinds(object: &[u8]) -> Kinds {
    let header = Header::read(object).expect("check 4 has passed");
    let object = Object::read(object, header).expect("check 5 has passed");
    let lists = object.relocation_sections();
    let relocations = lists.iter().flat_map(|list| &list.relocations);
    Kinds {
        class: object.class(),
        has_compressed: object.has_compressed(),
        types: relocations.map(|relocation| relocation.kind).collect(),
    }
}

/// The install gives the answer and the bytes; its rollback brings image and
/// journal back, and after a refusal they are as before. Otherwise, what is wrong.
fn try_case(case: &Given) -> Result<(), String> {
    let mut image = vec![FILL; case.image_length];
    let mut journal = empty_journal(image.len());
    let before = (image.clone(), journal.clone());

    let given = install(&case.object, &case.order, &mut image, &mut journal);
    if numbers(given) != case.answer {
        return Err(format!("install {:?}", numbers(given)));
    }
    let laid = case.image.as_ref().expect("an image");
    if let Some(at) = (0..image.len()).find(|&at| image[at] != laid[at]) {
        let (ours, laid) = (image[at], laid[at]);
        return Err(format!("byte {at:#x} is {ours:02x}, laid {laid:02x}"));
    }
    let standing = Standing::read(&journal, image.len()).map(|standing| standing.spans.len());
    if standing != Some(usize::from(given == Answer::DONE)) {
        return Err(format!("the journal counts {standing:?}"));
    }
    if given == Answer::DONE {
        let back = rollback(&mut image, &mut journal);
        if back != Answer::DONE {
            return Err(format!("rollback {:?}", numbers(back)));
        }
    }
    if (image, journal) != before {
        return Err("image or journal are not as before".to_string());
    }
    Ok(())
}

#[test]
fn installs_what_a_linker_lays() {
    let cases = objects();
    assert!(cases.len() >= 25, "{} cases", cases.len());
    let faults: Vec<String> = cases
        .iter()
        .filter_map(|case| Some(format!("{}: {}", case.name, try_case(case).err()?)))
        .collect();
    assert!(faults.is_empty(), "{}", faults.join("\n"));
}

/// The types of the done cases of a class, with these e_flags.
fn types_of(class: Class, is_wanted: impl Fn(&Kinds) -> bool) -> BTreeSet<u32> {
    let done = objects().into_iter().filter(|case| case.answer == DONE);
    let kinds = done.map(|case| kinds(&case.object));
    let wanted = kinds.filter(|kinds| kinds.class == class && is_wanted(kinds));
    wanted.flat_map(|kinds| kinds.types).collect()
}

#[test]
fn covers_every_relocation_type() {
    for (class, own) in [(Class::Elf32, None), (Class::Elf64, Some(2))] {
        let seen = types_of(class, |_| true);
        let all = TYPES.into_iter().chain(own);
        let missing: Vec<u32> = all.filter(|kind| !seen.contains(kind)).collect();
        assert!(missing.is_empty(), "{class:?}, not seen: {missing:?}");
    }
}

/// With bit 0 of e_flags clear, jumps, branches and both calls are laid, and no
/// compressed instruction; both refusals occur.
#[test]
fn without_compressed_instructions() {
    for class in Class::ALL {
        let seen = types_of(class, |kinds| !kinds.has_compressed);
        assert!([16, 17, 18, 19].iter().all(|kind| seen.contains(kind)));
        assert!([44, 45].iter().all(|kind| !seen.contains(kind)));
        let own = |case: &Given| Class::of(&case.object) == Some(class);
        let cases = objects().into_iter().filter(own);
        let numbers: BTreeSet<u32> = cases.map(|case| case.answer.0).collect();
        assert_eq!(numbers, BTreeSet::from([0, 9, 13]), "{class:?}");
    }
}
