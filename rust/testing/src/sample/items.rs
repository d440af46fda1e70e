//! What a random section is made of: instructions and data with their
//! relocations.

use super::{Item, Sampler, Shape, ITEM};
use crate::build::{Relocation, Symbol};

/// How far the two halves lead in class 2.
const HALVES: (i64, i64) = (-2_147_485_696, 2_147_481_599);

impl Sampler<'_> {
    pub(super) fn item(&mut self, section: u16, shape: Shape, offset: u64) -> Item {
        let place = shape.address + offset;
        match self.random.below(9) {
            0 => self.jump(offset, place, 17, 0x6F, 1_048_576),
            1 => self.jump(offset, place, 16, 0x63, 4_096),
            2 if self.has_compressed() || self.is_faulty => self.compressed_jump(offset, place),
            2 | 3 => self.call(offset, place),
            4 => self.absolute_half(offset),
            5 => self.pair(section, offset, place),
            6 => self.stack(offset),
            7 => self.marker(offset, place, shape.size),
            _ => {
                let kind = match self.is_64() {
                    true => self.random.pick(&[1, 2, 57]),
                    false => self.random.pick(&[1, 57]),
                };
                let relocation = self.anywhere(offset, kind);
                self.with(&[], vec![relocation])
            }
        }
    }

    fn with(&mut self, words: &[u32], relocations: Vec<Relocation>) -> Item {
        let mut bytes: Vec<u8> = words.iter().flat_map(|word| word.to_le_bytes()).collect();
        bytes.extend(self.random.bytes(ITEM as usize - bytes.len()));
        Item { bytes, relocations }
    }

    /// A symbol that resolves, with its value.
    fn symbol(&mut self) -> (u32, u64) {
        loop {
            let symbol = self.random.below(self.values.len());
            if let Some(value) = self.values[symbol] {
                return (symbol as u32, value);
            }
        }
    }

    fn anywhere(&mut self, offset: u64, kind: u32) -> Relocation {
        let (symbol, _) = self.symbol();
        let lowest = match self.is_64() {
            true => i64::MIN,
            false => i64::from(i32::MIN),
        };
        let addend = self.random.pick(&[0, 1, -1, 2_047, -2_048, lowest]);
        Relocation::new(offset, kind, symbol, addend)
    }

    /// An addend for which T is this target.
    fn towards(&mut self, offset: u64, kind: u32, target: u64) -> Relocation {
        let (symbol, value) = self.symbol();
        let addend = i128::from(target) - i128::from(value);
        Relocation::new(offset, kind, symbol, self.class.signed(addend) as i64)
    }

    /// A target that both halves lead to from an address: in class 1 any, and in
    /// class 2 one that is not too far, unless the call is faulty.
    fn halves_target(&mut self, from: u64) -> u64 {
        if !self.is_64() {
            return u64::from(self.random.u32());
        }
        let (lowest, highest) = HALVES;
        let distance = match self.random.below(6) {
            0 => lowest,
            1 => highest,
            2 if self.is_faulty => lowest - 1,
            3 if self.is_faulty => highest + 1,
            _ => lowest + i64::from(self.random.u32()),
        };
        from.wrapping_add_signed(distance)
    }

    /// A high half, of a distance or of an address.
    fn high_half(&mut self, offset: u64, kind: u32, from: u64) -> Relocation {
        match self.is_64() {
            true => {
                let target = self.halves_target(from);
                self.towards(offset, kind, target)
            }
            false => self.anywhere(offset, kind),
        }
    }

    /// An instruction of this opcode, and otherwise any bits.
    fn instruction(&mut self, opcode: u32) -> u32 {
        let funct3_is_0 = matches!(opcode, 0x13 | 0x1B | 0x67);
        let kept = if funct3_is_0 { !0x707F } else { !0x7F };
        self.random.u32() & kept | opcode
    }

    /// A target at a distance that a field of this reach takes, unless the call is
    /// faulty. It may be across the top of memory.
    fn target(&mut self, place: u64, reach: i64) -> u64 {
        let step = self.step();
        let steps = (2 * reach / step) as usize;
        let distance = match self.random.below(8) {
            0 | 1 => -reach,
            2 | 3 => reach - step,
            4 if self.is_faulty => -reach - step,
            5 if self.is_faulty => reach,
            6 if self.is_faulty => self.random.below(steps) as i64 * step - reach + step / 2,
            _ => self.random.below(steps) as i64 * step - reach,
        };
        self.reduced(place.wrapping_add_signed(distance))
    }

    fn jump(&mut self, offset: u64, place: u64, kind: u32, opcode: u32, reach: i64) -> Item {
        let target = self.target(place, reach);
        let relocation = self.towards(offset, kind, target);
        let word = self.instruction(opcode);
        self.with(&[word], vec![relocation])
    }

    fn compressed_jump(&mut self, offset: u64, place: u64) -> Item {
        let all = [(44, 6, 256), (44, 7, 256), (45, 5, 2_048), (45, 1, 2_048)];
        // C.JAL is of class 1 alone.
        let has_last = !self.is_64() || self.is_faulty;
        let (kind, funct3, reach) = self.random.pick(&all[..3 + usize::from(has_last)]);
        let target = self.target(place, reach);
        let relocation = self.towards(offset, kind, target);
        let word = self.random.u32() & !0xE003 | (funct3 << 13) | 1;
        self.with(&[word], vec![relocation])
    }

    fn call(&mut self, offset: u64, place: u64) -> Item {
        let kind = self.random.pick(&[18, 19]);
        let target = self.halves_target(place);
        let distance = target.wrapping_sub(place) & self.step().wrapping_neg() as u64;
        let aside = match self.is_faulty && self.random.one_in(4) {
            true => self.step() as u64 / 2,
            false => 0,
        };
        let target = self.reduced(place.wrapping_add(distance).wrapping_add(aside));
        let relocation = self.towards(offset, kind, target);
        let register = 1 + self.random.below(31) as u32;
        let first = self.instruction(0x17) & !0xF80 | (register << 7);
        let second = self.instruction(0x67) & !0xF_8000 | (register << 15);
        self.with(&[first, second], vec![relocation])
    }

    fn absolute_half(&mut self, offset: u64) -> Item {
        let all = [
            (26, 0x37),
            (27, 0x13),
            (27, 0x03),
            (28, 0x23),
            (28, 0x27),
            (27, 0x1B),
        ];
        let (kind, opcode) = self.random.pick(&all[..5 + usize::from(self.is_64())]);
        let word = self.instruction(opcode);
        let relocation = match kind {
            26 => self.high_half(offset, kind, 0),
            _ => self.anywhere(offset, kind),
        };
        self.with(&[word], vec![relocation])
    }

    fn pair(&mut self, section: u16, offset: u64, place: u64) -> Item {
        if self.is_faulty && self.random.one_in(2) {
            return self.no_pair(section, offset);
        }
        let all = [(24, 0x67), (24, 0x07), (25, 0x23), (24, 0x1B)];
        let (kind, opcode) = self.random.pick(&all[..3 + usize::from(self.is_64())]);
        let label = self.add(Symbol::new(0, section, offset), None);
        let words = [self.instruction(0x17), self.instruction(opcode)];
        let high = self.high_half(offset, 23, place);
        let low = Relocation::new(offset + 4, kind, label, 0);
        self.with(&words, vec![high, low])
    }

    /// A low half with no high half at its label, or with two.
    fn no_pair(&mut self, section: u16, offset: u64) -> Item {
        let place = offset + 4;
        let label = self.add(Symbol::new(0, section, place), None);
        let words = [self.instruction(0x03), self.instruction(0x17)];
        let mut relocations = vec![Relocation::new(offset, 24, label, 0)];
        for _ in 0..self.random.pick(&[0, 2]) {
            relocations.push(self.anywhere(place, 23));
        }
        self.with(&words, relocations)
    }

    /// ADD, SUB and SET of one width at one place.
    fn stack(&mut self, offset: u64) -> Item {
        let widths: [&[u32]; 5] = [
            &[52, 53],
            &[33, 37, 54],
            &[34, 38, 55],
            &[35, 39, 56],
            &[36, 40],
        ];
        let kinds = self.random.pick(&widths);
        let relocations = (0..1 + self.random.below(3))
            .map(|_| {
                let kind = self.random.pick(kinds);
                self.anywhere(offset, kind)
            })
            .collect();
        self.with(&[], relocations)
    }

    fn marker(&mut self, offset: u64, place: u64, size: u64) -> Item {
        let room = (size - offset).min(4_094);
        let fits = |addend: &u64| {
            let boundary = (addend + 2).next_power_of_two();
            (place + addend).is_multiple_of(boundary)
        };
        let misses = self.is_faulty && self.random.one_in(2);
        let is_wanted = |addend: &u64| fits(addend) != misses;
        let paddings: Vec<u64> = (0..=room).step_by(2).filter(is_wanted).collect();
        let any = self.random.u64() as i64;
        let symbol = self.random.u32() >> 8;
        let mut relocations = vec![Relocation::new(offset, 51, symbol, any)];
        if !paddings.is_empty() {
            let addend = self.random.pick(&paddings) as i64;
            relocations.push(Relocation::new(offset, 43, symbol, addend));
        }
        relocations.push(Relocation::new(offset, 0, symbol, any));
        self.with(&[], relocations)
    }

    /// Breaks one relocation or the bytes under it.
    pub(super) fn spoil(&mut self, item: &mut Item) {
        let unresolved = self.random.pick(&self.unresolved);
        let (elsewhere, _) = self.symbol();
        let any = self.random.u32();
        let Some(last) = item.relocations.last_mut() else {
            return;
        };
        match any % 8 {
            0 => last.kind = (any >> 8) % 512,
            1 if any >> 31 == 0 && matches!(last.kind, 24 | 25) => last.symbol = elsewhere,
            1 => last.symbol = unresolved,
            2 => last.symbol = any >> 8,
            3 => last.addend = last.addend.wrapping_add(1 + i64::from(any >> 31)),
            4 => last.addend = last.addend.wrapping_add(8_192),
            5 => last.offset = last.offset.wrapping_sub(u64::from(any >> 29)),
            6 => last.offset += 1 + u64::from(any >> 30),
            _ => item.bytes[(any >> 29) as usize] ^= (any >> 8) as u8,
        }
    }
}
