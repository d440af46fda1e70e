//! How often each answer was given, to see what random inputs reach.

use crate::Numbers;

#[derive(Clone, Copy, Default, Debug)]
pub struct Counts {
    /// By the number.
    pub numbers: [u64; 17],
    /// By the reason; the first is of all answers that have none.
    pub reasons: [u64; 8],
}

impl Counts {
    /// Panics where an answer other than 10 has a reason, or 10 has none.
    pub fn add(&mut self, (number, place, reason): Numbers) {
        assert_eq!(number == 10, reason != 0, "{number} {place} {reason}");
        self.numbers[number as usize] += 1;
        self.reasons[reason as usize] += 1;
    }

    /// How often the rarest of the seven reasons was given.
    pub fn rarest_reason(&self) -> u64 {
        let [_, reasons @ ..] = self.reasons;
        reasons.into_iter().min().unwrap_or(0)
    }
}
