//! The two installs of `crates/calls_demands/proofs/Laws/Witness.antt` through this
//! fitter: the same object, orders, image and journal, as words, and the same
//! bytes, numbers and answers.

use reference::numbers::u32_at;
use reference::{install, rollback, Answer};

#[rustfmt::skip]
const OBJECT: [u32; 113] = [
    // the header
    0x464C457F, 0x00010101, 0, 0, 0x00F30001, 1, 0, 0, 212, 0, 52, 0x00280000, 6,
    // section 1, code
    0x00000517, 0x00050513, 0x00000097, 0x000080E7, 0x00050063,
    // section 2, data
    0x00000100,
    // section 3, the symbol table
    0, 0, 0, 0,
    0, 0, 0, 0x00010000,
    0, 0, 0, 0x00020000,
    0, 0, 0, 0x00000010,
    // section 4: PCREL_HI20, PCREL_LO12_I, CALL_PLT, BRANCH
    0, 0x0217, 0x12345FE0,
    4, 0x0118, 0,
    8, 0x0313, 0,
    16, 0x0110, 0,
    // section 5: ADD32, SUB32
    0, 0x0223, 0,
    0, 0x0127, 0,
    // the section header table
    0, 0, 0, 0, 0, 0, 0, 0, 0, 0,
    0, 1, 6, 0, 52, 20, 0, 0, 4, 0,
    0, 1, 3, 0, 72, 4, 0, 0, 4, 0,
    0, 2, 0, 0, 76, 64, 0, 3, 4, 16,
    0, 4, 0, 0, 140, 48, 3, 1, 4, 12,
    0, 4, 0, 0, 188, 24, 3, 2, 4, 12,
];

const UNTOUCHED: u32 = 0xA5A5_A5A5;

#[rustfmt::skip]
const FIRST: [u32; 13] = [
    0x12346517, 0xFF850513, 0x00003097, 0x800080E7, 0xFE0508E3, UNTOUCHED, 0x00000118, UNTOUCHED,
    UNTOUCHED, UNTOUCHED, UNTOUCHED, UNTOUCHED, UNTOUCHED,
];

#[rustfmt::skip]
const BOTH: [u32; 13] = [
    0x12346517, 0xFF850513, 0x00003097, 0x800080E7, 0xFE0508E3, UNTOUCHED, 0x000000F8, UNTOUCHED,
    0x12346517, 0xFD850513, 0x00002097, 0x7E0080E7, 0xFE0508E3,
];

fn bytes(words: &[u32]) -> Vec<u8> {
    words.iter().flat_map(|word| word.to_le_bytes()).collect()
}

/// The window at 0x20000000, the data at 0x20000018, the function at
/// 0x20002808, and the code at this address.
fn order(code: u32) -> Vec<u8> {
    let (base, data, function) = (0x2000_0000, 0x2000_0018, 0x2000_2808);
    bytes(&[1, base, 2, 1, code, 2, data, 1, 3, function])
}

#[test]
fn two_installs_and_a_rollback() {
    let object = bytes(&OBJECT);
    let mut image = bytes(&[UNTOUCHED; 13]);
    let mut journal = vec![0; 136 + 28 + 28];

    let answer = install(&object, &order(0x2000_0000), &mut image, &mut journal);
    assert_eq!(answer, Answer::DONE);
    assert_eq!(image, bytes(&FIRST));
    assert_eq!(u32_at(&journal, 0), Some(1));

    let answer = install(&object, &order(0x2000_0020), &mut image, &mut journal);
    assert_eq!(answer, Answer::DONE);
    assert_eq!(image, bytes(&BOTH));
    assert_eq!(u32_at(&journal, 0), Some(2));

    assert_eq!(rollback(&mut image, &mut journal), Answer::DONE);
    assert_eq!(image, bytes(&FIRST));
    assert_eq!(u32_at(&journal, 0), Some(1));
}
