//! The pair of a PCREL_LO12: the PCREL_HI20 relocations of its section, and the
//! one among them at a label, found by halving. Every PCREL_LO12 is looked up
//! anew, also where another one named the same label.

use super::class::{Class, Raw};

const PCREL_HI20: u32 = 23;

/// The PCREL_HI20 relocations of one RELA section, in file order.
pub struct HighHalves<'m, C: Class> {
    offsets: &'m [C::Word],
    /// Which of the section's relocations each is.
    places: &'m [u16],
    /// How many come before the first whose offset falls: all of them, unless
    /// that one will be refused. Until then those behind it count as well.
    ascending: usize,
}

/// Room for the high halves of a list of at most so many relocations.
pub struct Room<C: Class, const MOST: usize> {
    offsets: [C::Word; MOST],
    places: [u16; MOST],
}

impl<C: Class, const MOST: usize> Room<C, MOST> {
    pub fn new() -> Room<C, MOST> {
        Room {
            offsets: [C::Word::default(); MOST],
            places: [0; MOST],
        }
    }

    /// Finds those of a list.
    pub fn find(&mut self, relocations: &[C::Relocation]) -> HighHalves<'_, C> {
        let mut count = 0;
        for (place, relocation) in (0_u16..).zip(relocations) {
            // What is written for another type is written over by the next.
            let Raw { offset, kind, .. } = C::relocation(relocation);
            self.offsets[count % MOST] = offset;
            self.places[count % MOST] = place;
            count += usize::from(kind == PCREL_HI20);
        }
        let offsets = &self.offsets[..count];
        let falls = |two: &[C::Word]| two[1] < two[0];
        let ascending = match offsets.windows(2).position(falls) {
            Some(before) => before + 1,
            None => count,
        };
        HighHalves {
            offsets,
            places: &self.places[..count],
            ascending,
        }
    }
}

impl<C: Class> HighHalves<'_, C> {
    /// The place of the only one at this offset; `None` where there is none, or
    /// more than one.
    #[inline(always)]
    pub fn only_at(&self, offset: C::Word) -> Option<usize> {
        let offsets = self.offsets;
        if self.ascending < offsets.len() {
            return self.only_at_unsorted(offset);
        }
        let first = offsets.partition_point(|other| *other < offset);
        let is_at = |index: usize| offsets.get(index) == Some(&offset);
        (is_at(first) && !is_at(first + 1)).then(|| usize::from(self.places[first]))
    }

    /// The same where not all offsets ascend: the ascending ones are halved,
    /// and the others counted one by one.
    #[cold]
    fn only_at_unsorted(&self, offset: C::Word) -> Option<usize> {
        let (sorted, rest) = self.offsets.split_at(self.ascending);
        let first = sorted.partition_point(|other| *other < offset);
        let in_sorted = sorted[first..].partition_point(|other| *other == offset);
        let in_rest = rest.iter().filter(|other| **other == offset).count();
        let index = match (in_sorted, in_rest) {
            (1, 0) => first,
            (0, 1) => self.ascending + rest.iter().position(|other| *other == offset)?,
            _ => return None,
        };
        Some(usize::from(self.places[index]))
    }
}
