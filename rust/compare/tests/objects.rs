//! The real objects through the static library: the bytes that a real linker
//! lays, and all as before after a rollback or a refusal.

use compare::call::{Command, Library};
use testing::build::{journal, Class};
use testing::damage::Input;
use testing::given::{objects, Given, FILL};
use testing::DONE;

/// What is wrong with one object, if anything.
fn wrong(library: &mut Library, given: Given) -> Option<String> {
    let before = Input {
        object: given.object,
        order: given.order,
        image: vec![FILL; given.image_length],
        journal: journal(given.image_length),
    };
    let mut after = before.clone();
    let installed = match library.compare(&before, Command::Fit) {
        Ok(installed) => installed,
        Err(wrong) => return Some(wrong),
    };
    if installed.answer != given.answer || Some(&installed.image) != given.image.as_ref() {
        return Some(format!("{:?}, not what is given", installed.answer));
    }
    if given.answer != DONE {
        let another = installed.journal != before.journal;
        return another.then(|| "another ledger".into());
    }
    (after.image, after.journal) = (installed.image, installed.journal);
    let back = match library.compare(&after, Command::TakeBack) {
        Ok(back) => back,
        Err(wrong) => return Some(wrong),
    };
    let same = back.answer == DONE && back.image == before.image && back.journal == before.journal;
    (!same).then(|| format!("{:?}, not as before", back.answer))
}

#[test]
fn installs_what_a_linker_lays() {
    let library = &mut Library::new();
    let objects = objects();
    for class in Class::ALL {
        let own = objects.iter().map(|given| Class::of(&given.object));
        let count = own.filter(|own| *own == Some(class)).count();
        assert!(count >= 63, "{count} objects, {class:?}");
    }
    let mut faults = Vec::new();
    for given in objects {
        let name = given.name.clone();
        faults.extend(wrong(library, given).map(|what| format!("{name}: {what}")));
    }
    assert!(faults.is_empty(), "{}", faults.join("\n"));
}
