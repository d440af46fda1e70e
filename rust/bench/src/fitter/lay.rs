//! Laying: the sections are copied, and then the relocations applied in file
//! order. All checks have passed, so that nothing here can be refused.

use super::class::{Class, Word};
use super::object::{indexes, Object};
use super::placing::Addresses;
use super::relocations::Entry;
use super::symbols::Symbols;
use super::types::{Effect, Laying};

/// What is laid, and where.
pub struct Plan<'a, C: Class, const N: usize> {
    pub object: &'a Object<'a, C>,
    pub addresses: &'a Addresses,
    pub symbols: &'a Symbols<'a, C, N>,
    pub base: u64,
}

impl<C: Class, const N: usize> Plan<'_, C, N> {
    pub fn lay(&self, image: &mut [u8]) {
        for index in indexes(self.object.loaded) {
            let bytes = self.object.bytes_of(self.object.section(index));
            if !bytes.is_empty() {
                self.place_of(index, image).copy_from_slice(bytes);
            }
        }
        for (target, relocations) in self.object.relocation_sections() {
            if self.object.section(target).size() > 0 {
                let list = List {
                    relocations,
                    symbols: self.symbols,
                    address: self.addresses[target] as u32,
                };
                list.apply(self.place_of(target, image));
            }
        }
    }

    /// The part of the image that a section with bytes is laid into.
    fn place_of<'i>(&self, index: usize, image: &'i mut [u8]) -> &'i mut [u8] {
        let start = (self.addresses[index] - self.base) as usize;
        &mut image[start..start + self.object.section(index).size() as usize]
    }
}

/// One RELA section, and what it patches.
struct List<'a, C: Class, const N: usize> {
    relocations: &'a [C::Relocation],
    symbols: &'a Symbols<'a, C, N>,
    /// The lowest bits of the section's address.
    address: u32,
}

impl<C: Class, const N: usize> List<'_, C, N> {
    /// In file order, each on what those before it left.
    fn apply(&self, section: &mut [u8]) {
        let mut rest = self.relocations;
        loop {
            rest = match self.symbols.has_pairs() {
                true => self.apply_plain::<true>(rest, section),
                false => self.apply_plain::<false>(rest, section),
            };
            let Some((special, behind)) = rest.split_first() else {
                return;
            };
            self.apply_special(Entry::read::<C>(special), section);
            rest = behind;
        }
    }

    /// Applies relocations up to the first that asks for something special, and
    /// gives those that are left. A word is written at every place, of which
    /// the bits that are not the field's stay. So no width is looked at.
    #[inline(never)]
    fn apply_plain<'r, const PAIRS: bool>(
        &self,
        relocations: &'r [C::Relocation],
        section: &mut [u8],
    ) -> &'r [C::Relocation] {
        let mut rest = relocations;
        while let Some((relocation, behind)) = rest.split_first() {
            let entry = Entry::read::<C>(relocation);
            let effect = &C::EFFECTS[usize::from(entry.kind)];
            let offset = entry.offset as usize;
            match effect.laying {
                Laying::Plain => {}
                Laying::Pair if PAIRS => {}
                Laying::Call => self.apply_low_half(entry, section),
                Laying::Nothing => {
                    rest = behind;
                    continue;
                }
                _ => return rest,
            }
            let number = match effect.laying {
                Laying::Pair if PAIRS => self.pair_number(entry),
                _ => self.number(entry, effect),
            };
            let Some(place) = section.get_mut(offset..offset + 4) else {
                return rest;
            };
            let word = patched(effect, number_from(place), number);
            place.copy_from_slice(&word.to_le_bytes());
            rest = behind;
        }
        rest
    }

    /// The second instruction of a call.
    #[inline(always)]
    fn apply_low_half(&self, entry: Entry, section: &mut [u8]) {
        let offset = entry.offset as usize;
        let place = &mut section[offset + 4..offset + 8];
        let distance = self.s_plus_a(entry).wrapping_sub(self.place(entry));
        let word = number_from(place) & 0xF_FFFF | distance << 20;
        place.copy_from_slice(&word.to_le_bytes());
    }

    /// What the type asks for without the field's present value, modulo 2^32.
    #[inline(always)]
    fn number(&self, entry: Entry, effect: &Effect) -> u32 {
        let negated = i32::from(effect.negated) as u32;
        let place = self.place(entry) & i32::from(effect.place) as u32;
        (self.s_plus_a(entry) ^ negated).wrapping_sub(place.wrapping_add(negated))
    }

    /// The pair's T - P, modulo 2^32.
    #[inline(always)]
    fn pair_number(&self, entry: Entry) -> u32 {
        let pair = self.symbols.known_pair(entry.symbol);
        let pair = Entry::read::<C>(&self.relocations[pair]);
        self.s_plus_a(pair).wrapping_sub(self.place(pair))
    }

    /// S + A, modulo 2^32.
    #[inline(always)]
    fn s_plus_a(&self, entry: Entry) -> u32 {
        let value = self.symbols.known_value(entry.symbol).whole();
        (value as u32).wrapping_add(entry.addend as u32)
    }

    /// P, modulo 2^32.
    #[inline(always)]
    fn place(&self, entry: Entry) -> u32 {
        self.address.wrapping_add(entry.offset)
    }

    /// A compressed instruction, a number of 64 bits, or a field in the last
    /// bytes of its section.
    #[inline(never)]
    fn apply_special(&self, entry: Entry, section: &mut [u8]) {
        let effect = &C::EFFECTS[usize::from(entry.kind)];
        let offset = entry.offset as usize;
        let place = &mut section[offset..offset + usize::from(effect.width)];
        let mut word = [0; 8];
        word[..place.len()].copy_from_slice(place);
        let present = u64::from_le_bytes(word);
        let number = self.number(entry, effect);
        let kept = present & !u64::from(!effect.kept);
        let word = match effect.laying {
            Laying::Wide => self.wide_number(entry, effect, present),
            Laying::CompressedBranch => kept | u64::from(compressed_branch(number)),
            Laying::CompressedJump => kept | u64::from(compressed_jump(number)),
            _ => u64::from(patched(effect, present as u32, number)),
        };
        place.copy_from_slice(&word.to_le_bytes()[..place.len()]);
    }

    /// S + A, V + S + A or V - S - A in 64 bits, where S + A is not reduced
    /// first.
    fn wide_number(&self, entry: Entry, effect: &Effect, present: u64) -> u64 {
        let value = self.symbols.known_value(entry.symbol).whole();
        let sum = value.wrapping_add_signed(entry.addend);
        let present = present & i64::from(effect.present) as u64;
        match effect.negated {
            0 => present.wrapping_add(sum),
            _ => present.wrapping_sub(sum),
        }
    }
}

/// The number of four bytes.
#[inline(always)]
fn number_from(place: &[u8]) -> u32 {
    place.first_chunk().copied().map_or(0, u32::from_le_bytes)
}

/// The word with the bits of x where the field has them.
#[inline(always)]
fn patched(effect: &Effect, present: u32, number: u32) -> u32 {
    let x = (present & i32::from(effect.present) as u32).wrapping_add(number);
    let up_20 = x << 20;
    // Bit 11 of x, as all bits of a number.
    let bit_11 = (up_20 as i32 >> 31) as u32;
    present & effect.kept
        | x.wrapping_add(u32::from(effect.rounding)) & effect.straight
        | up_20 & effect.up_20
        | x << 7 & effect.up_7
        | bit_11 & effect.bit_11
}

/// Bits 8, 4 to 3, 7 to 6, 2 to 1 and 5 of x, from bit 12 down.
fn compressed_branch(x: u32) -> u32 {
    x << 4 & 0x1000 | x << 7 & 0xC00 | x >> 1 & 0x60 | x << 2 & 0x18 | x >> 3 & 4
}

/// Bits 11, 4, 9 to 8, 10, 6, 7, 3 to 1 and 5 of x, from bit 12 down.
fn compressed_jump(x: u32) -> u32 {
    x << 1 & 0x1000
        | x << 7 & 0x800
        | x << 1 & 0x600
        | x >> 2 & 0x100
        | x << 1 & 0x80
        | x >> 1 & 0x40
        | x << 2 & 0x38
        | x >> 3 & 4
}
