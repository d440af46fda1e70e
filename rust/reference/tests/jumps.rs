//! A fitted RVC_JUMP has the manual's bits, whatever its distance.

use reference::{install, Answer, Class};
use testing::jumps::every_jump;

#[test]
fn every_distance() {
    for class in Class::ALL {
        let jumps = every_jump(class);
        let (mut image, mut journal) = (jumps.input.image.clone(), jumps.input.journal.clone());
        let (object, order) = (&jumps.input.object, &jumps.input.order);
        let answer = install(object, order, &mut image, &mut journal);
        assert_eq!(answer, Answer::DONE, "{class:?}");
        jumps.assert_laid(&image);
    }
}
