//! Every limit of both classes, at its value and one past it.

use reference::{install, Answer};
use testing::limits::limits;
use testing::numbers;

#[test]
fn at_each_and_one_past_it() {
    let mut wrong = Vec::new();
    for limit in limits() {
        let input = limit.input;
        let (mut image, mut journal) = (input.image.clone(), input.journal.clone());
        let given = install(&input.object, &input.order, &mut image, &mut journal);
        if numbers(given) != limit.answer {
            wrong.push(format!("{}: {given:?}, not {:?}", limit.name, limit.answer));
        }
        if given != Answer::DONE {
            assert_eq!(image, input.image, "{}", limit.name);
            assert_eq!(journal, input.journal, "{}", limit.name);
        }
    }
    assert!(wrong.is_empty(), "{}", wrong.join("\n"));
}
