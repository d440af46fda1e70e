//! How far jumps, branches and calls go, with bit 0 of e_flags set and clear.

use super::{Limits, HI20, JAL, PCREL_HI20, RVC_JUMP};
use crate::build::*;
use crate::{Numbers, DONE};

const BRANCH: u32 = 16;
const CALL: u32 = 18;
const CALL_PLT: u32 = 19;
const RVC_BRANCH: u32 = 44;

/// auipc ra, 0; jalr ra, ra, 0.
const AUIPC_JALR: [u8; 8] = [0x97, 0, 0, 0, 0xE7, 0x80, 0, 0];

/// Jumps and branches: type, instruction, and how far it reaches.
const JUMPS: [(u32, &[u8], u64); 4] = [
    (BRANCH, &[0x63, 0, 0, 0], 4_096),
    (JAL, &[0x6F, 0, 0, 0], 1_048_576),
    (RVC_BRANCH, &[0x01, 0xC1], 256),
    (RVC_JUMP, &[0x01, 0xA0], 2_048),
];

/// A distance back.
fn back(distance: u64) -> u64 {
    0_u64.wrapping_sub(distance)
}

impl Limits {
    /// Half of all addresses, and three places: at the start of memory, in its
    /// middle and at its end.
    fn half_and_places(&self) -> (u64, [u64; 3]) {
        let half = self.top / 2 + 1;
        (half, [0, half, self.top - 3])
    }

    /// "T - P reduced to the signed range of the address width": jumps and branches
    /// in the middle of memory and from each end of it across the top. Half of it
    /// away is too far, both ways.
    pub(super) fn jumps(&mut self) {
        let (half, places) = self.half_and_places();
        for (kind, bytes, reach) in JUMPS {
            for place in places {
                for (distance, answer) in [
                    (back(reach), DONE),
                    (back(reach + 2), (13, 0, 0)),
                    (reach - 2, DONE),
                    (reach, (13, 0, 0)),
                    (half, (13, 0, 0)),
                ] {
                    self.over(RVC, place, kind, bytes, distance, answer);
                }
            }
        }
    }

    /// "If e_flags bit 0 is clear, types 44 and 45 are refused with 9, and a distance
    /// for 16 to 19 that isn't a multiple of 4 with 13".
    pub(super) fn jumps_without_compressed(&mut self) {
        let (half, places) = self.half_and_places();
        for (kind, bytes, reach) in JUMPS {
            let is_short = bytes.len() == 2;
            for place in places {
                for (distance, answer) in [
                    (back(reach), DONE),
                    (back(reach - 2), (13, 0, 0)),
                    (back(reach + 4), (13, 0, 0)),
                    (back(4), DONE),
                    (2, (13, 0, 0)),
                    (4, DONE),
                    (reach - 4, DONE),
                    (reach - 2, (13, 0, 0)),
                    (reach, (13, 0, 0)),
                    (half, (13, 0, 0)),
                ] {
                    let answer = if is_short { (9, 0, 0) } else { answer };
                    self.over(0, place, kind, bytes, distance, answer);
                }
            }
        }
        for kind in [CALL, CALL_PLT] {
            for place in [0, half, self.top - 7] {
                for (distance, answer) in [
                    (0, DONE),
                    (2, (13, 0, 0)),
                    (0x7FFC, DONE),
                    (0x7FFE, (13, 0, 0)),
                    (back(4), DONE),
                    (back(6), (13, 0, 0)),
                ] {
                    self.over(0, place, kind, &AUIPC_JALR, distance, answer);
                }
            }
        }
    }

    /// "-2,147,485,696..2,147,481,599", and one step past each end. With bit 0 of
    /// e_flags clear, a step of a call is four bytes.
    pub(super) fn ends_of_halves(&mut self) {
        let rows: [(u32, u32, &[u8], u64); 6] = [
            (RVC, PCREL_HI20, &[0x17, 0x05, 0, 0], 1),
            (RVC, HI20, &[0x37, 0x05, 0, 0], 1),
            (RVC, CALL, &AUIPC_JALR, 2),
            (RVC, CALL_PLT, &AUIPC_JALR, 2),
            (0, CALL, &AUIPC_JALR, 4),
            (0, CALL_PLT, &AUIPC_JALR, 4),
        ];
        for (flags, kind, bytes, step) in rows {
            for place in [0x1000, (1 << 63) + 0x1000, self.top - 7] {
                // From the place, or for HI20 from 0.
                let moved = if kind == HI20 { back(place) } else { 0 };
                let lowest = back(2_147_485_696).wrapping_add(moved);
                let highest = moved.wrapping_add(2_147_481_600 - step);
                for (distance, answer) in [
                    (lowest, DONE),
                    (highest, DONE),
                    (lowest.wrapping_sub(step), (13, 0, 0)),
                    (highest.wrapping_add(step), (13, 0, 0)),
                ] {
                    self.over(flags, place, kind, bytes, distance, answer);
                }
            }
        }
    }

    /// One relocation at the start of a section that may end with the memory, over
    /// a distance that may go around it.
    fn over(
        &mut self,
        flags: u32,
        place: u64,
        kind: u32,
        bytes: &[u8],
        distance: u64,
        answer: Numbers,
    ) {
        let target = place.wrapping_add(distance) & self.top;
        let list = [Relocation::new(0, kind, 1, 0)];
        let mut fit = Fit::code(place, bytes, &[Symbol::absolute(target)], &list);
        fit.image.truncate(64 + bytes.len());
        let name = format!("e_flags {flags}, type {kind} from {place:#x} to {target:#x}");
        self.add(name, fit.with_flags(flags), answer);
    }
}
