//! A fitted RVC_JUMP has the manual's bits, whatever its distance: by the table of
//! the library, and by the second fitter.

use compare::call::{Command, Library};
use testing::build::Class;
use testing::jumps::every_jump;
use testing::DONE;

#[test]
fn every_distance() {
    let library = &mut Library::new();
    for class in Class::ALL {
        let jumps = every_jump(class);
        let outcome = library.compare(&jumps.input, Command::Fit);
        let outcome = outcome.unwrap_or_else(|wrong| panic!("{class:?}: {wrong}"));
        assert_eq!(outcome.answer, DONE, "{class:?}");
        jumps.assert_laid(&outcome.image);
    }
}
