//! Check 13: distances of jumps, branches and calls at both ends, beyond them
//! and around the end of memory, with the bytes. What wraps around at 2^32 is of
//! class 1 alone.

use crate::fits::*;
use crate::{Answer, Case, DONE};
use testing::build::*;

const MIDDLE: u64 = 0x2000_0000;
/// The ends of A in class 1.
const LOWEST: i64 = i32::MIN as i64;
const HIGHEST: i64 = i32::MAX as i64;

/// A type with a reach, its instruction, and what that becomes at the lowest
/// and at the highest distance.
struct Jump {
    kind: u32,
    width: usize,
    reach: i64,
    word: u32,
    lowest: u32,
    highest: u32,
}

const JUMPS: [Jump; 4] = [
    Jump {
        kind: BRANCH,
        width: 4,
        reach: 4_096,
        word: 0x0000_0063,
        lowest: 0x8000_0063,
        highest: 0x7E00_0FE3,
    },
    Jump {
        kind: JAL,
        width: 4,
        reach: 1_048_576,
        word: 0x0000_00EF,
        lowest: 0x8000_00EF,
        highest: 0x7FFF_F0EF,
    },
    Jump {
        kind: RVC_BRANCH,
        width: 2,
        reach: 256,
        word: 0xC101,
        lowest: 0xD101,
        highest: 0xCD7D,
    },
    Jump {
        kind: RVC_JUMP,
        width: 2,
        reach: 2_048,
        word: 0xA001,
        lowest: 0xB001,
        highest: 0xAFFD,
    },
];

impl Jump {
    fn bytes(&self, word: u32) -> Vec<u8> {
        low_bytes(u64::from(word), self.width)
    }

    fn jumping(&self, place: u64, target: u64) -> Fit {
        one(self.kind, &self.bytes(self.word), place, target)
    }

    fn over(&self, distance: i64) -> Fit {
        self.jumping(MIDDLE, MIDDLE.wrapping_add_signed(distance))
    }

    fn name(&self, what: impl std::fmt::Display) -> String {
        format!("type {}, {what}", self.kind)
    }

    fn ends(&self) -> Vec<Case> {
        let (low, high) = (-self.reach, self.reach - 2);
        let mut cases = vec![
            Case::done(self.name(low), &self.over(low), &self.bytes(self.lowest)),
            Case::done(self.name(high), &self.over(high), &self.bytes(self.highest)),
        ];
        let kept = [low + 2, -4, -2, 0, 2, 4, high - 2];
        cases.extend(kept.map(|d| Case::new(self.name(d), &self.over(d), DONE)));
        let odd = [low - 1, low + 1, -1, 1, 3, high - 1, high + 1];
        let far = [low - 4, low - 2, high + 2, high + 4, -(1 << 29), 1 << 30];
        let broken = odd.into_iter().chain(far);
        cases.extend(broken.map(|d| Case::new(self.name(d), &self.over(d), (13, 0, 0))));
        cases
    }

    /// Each bit of the field alone, and all bits but one, over ones.
    fn bits(&self) -> Vec<Case> {
        let instruction = match self.kind {
            BRANCH => 0xFFFF_FFE3,
            JAL => 0xFFFF_FFEF,
            RVC_BRANCH => 0xFFFD,
            _ => 0xBFFD,
        };
        let powers = (1..).map(|bit| 1_i64 << bit);
        let inside = powers.take_while(|power| *power < self.reach);
        let both = inside.flat_map(|power| [power, power - self.reach]);
        let case = |distance: i64| {
            let target = MIDDLE.wrapping_add_signed(distance);
            let fit = one(self.kind, &self.bytes(instruction), MIDDLE, target);
            Case::new(self.name(format!("{distance} over ones")), &fit, DONE)
        };
        both.map(case).collect()
    }

    /// Between the ends of the address space and its middle, but not around it.
    fn inside(&self) -> Vec<Case> {
        let rows: [(&str, u64, u64, Answer); 6] = [
            ("from 0 up", 0, 2, DONE),
            ("to the top", 0xFFFF_FFF0, 0xFFFF_FFFE, DONE),
            ("up across 2^31", 0x7FFF_FFF8, 0x8000_0006, DONE),
            ("down across 2^31", 0x8000_0006, 0x7FFF_FFF8, DONE),
            ("2^31 up", 0, 0x8000_0000, (13, 0, 0)),
            ("2^31 down", 0x8000_0000, 0, (13, 0, 0)),
        ];
        rows.iter()
            .map(|(name, p, t, answer)| Case::new(self.name(name), &self.jumping(*p, *t), *answer))
            .collect()
    }

    /// "T - P reduced to the signed range of the address width", from the last
    /// instruction of the address space and from its first: the farthest, with
    /// the bytes, and one step more.
    fn across_the_top(&self, class: Class) -> Vec<Case> {
        let end = class.address_end();
        let last = (end - self.width as i128) as u64;
        let over = |place: u64, distance: i64| {
            let target = (i128::from(place) + i128::from(distance)).rem_euclid(end);
            let bytes = self.bytes(self.word);
            match class {
                Class::Elf32 => one(self.kind, &bytes, place, target as u64),
                Class::Elf64 => one_64(self.kind, &bytes, place, target as u64),
            }
        };
        let name = |d: i64| self.name(format!("{d} across the top, {class:?}"));
        let (low, high) = (-self.reach, self.reach - 2);
        let mut cases = vec![
            Case::done(name(low), &over(0, low), &self.bytes(self.lowest)),
            Case::done(name(high), &over(last, high), &self.bytes(self.highest)),
        ];
        let kept = [(0, -2), (0, -8), (last, 4), (last, 32)];
        cases.extend(kept.map(|(p, d)| Case::new(name(d), &over(p, d), DONE)));
        let broken = [
            (0, -1),
            (0, low - 1),
            (0, low - 2),
            (last, 5),
            (last, high + 1),
            (last, high + 2),
        ];
        cases.extend(broken.map(|(p, d)| Case::new(name(d), &over(p, d), (13, 0, 0))));
        cases.into_iter().map(Case::only_in_class_1).collect()
    }

    /// "S + A is reduced modulo 2^32, then called T."
    fn reduced(&self) -> Vec<Case> {
        let rows: [(u64, u64, i64, Answer); 7] = [
            (0, 0xFFFF_FFFE, 4, DONE),
            (0xFFFF_FFF0, 2, -4, DONE),
            (0, 0, -2, DONE),
            (0, 0x8000_0000, LOWEST, DONE),
            (0x7FFF_FFF8, 0, HIGHEST, (13, 0, 0)),
            (0x7FFF_FFF8, 1, HIGHEST, DONE),
            (0x8000_0000, 0, LOWEST, DONE),
        ];
        let case = |(place, s, addend, answer): (u64, u64, i64, Answer)| {
            let list = [Relocation::new(0, self.kind, 1, addend)];
            let symbols = [Symbol::absolute(s)];
            let fit = at(place, &self.bytes(self.word), &symbols, &list);
            Case::new(self.name(format!("{s:x} + {addend}")), &fit, answer).only_in_class_1()
        };
        rows.map(case).into_iter().collect()
    }
}

/// P, T, and the two instructions after it.
type Row = (u64, u64, u32, u32);

/// CALL and CALL_PLT reach everything, and "T - P modulo 2^32 [...] is even".
fn calls(kind: u32) -> Vec<Case> {
    let code = words(&[0x97, 0x80E7]);
    let rows: [Row; 14] = [
        (0x1000, 0x1000, 0x0000_0097, 0x0000_80E7),
        (0x1000, 0x17FE, 0x0000_0097, 0x7FE0_80E7),
        (0x1000, 0x1800, 0x0000_1097, 0x8000_80E7),
        (0x1000, 0x1FFE, 0x0000_1097, 0xFFE0_80E7),
        (0x1000, 0x0FFE, 0x0000_0097, 0xFFE0_80E7),
        (0x1000, 0x0800, 0x0000_0097, 0x8000_80E7),
        (0x1000, 0x07FE, 0xFFFF_F097, 0x7FE0_80E7),
        (0x1000, 0x8000_07FE, 0x7FFF_F097, 0x7FE0_80E7),
        (0x1000, 0x8000_0800, 0x8000_0097, 0x8000_80E7),
        (0x1000, 0x8000_1000, 0x8000_0097, 0x0000_80E7),
        (0x1000, 0, 0xFFFF_F097, 0x0000_80E7),
        (0, 0xFFFF_FFFE, 0x0000_0097, 0xFFE0_80E7),
        (0xFFFF_FFF0, 0, 0x0000_0097, 0x0100_80E7),
        (0x8000_0000, 0, 0x8000_0097, 0x0000_80E7),
    ];
    let kept = rows.map(|(p, t, first, second)| {
        let name = format!("type {kind}, from {p:x} to {t:x}");
        Case::done(name, &one(kind, &code, p, t), &words(&[first, second])).only_in_class_1()
    });
    let broken = rows.map(|(p, t, _, _)| {
        let name = format!("type {kind}, from {p:x} to {t:x} + 1");
        Case::new(name, &one(kind, &code, p, t + 1), (13, 0, 0))
    });
    kept.into_iter().chain(broken).collect()
}

pub fn cases() -> Vec<Case> {
    let mut cases = Vec::new();
    for jump in &JUMPS {
        cases.extend(jump.ends());
        cases.extend(jump.bits());
        cases.extend(jump.inside());
        for class in Class::ALL {
            cases.extend(jump.across_the_top(class));
        }
        cases.extend(jump.reduced());
    }
    cases.extend(calls(CALL));
    cases.extend(calls(CALL_PLT));
    cases
}
