//! Code and its relocations, in the making.

use testing::build::{journal, object, order, Class, Relocation, Section, Symbol};
use testing::damage::Input;

use super::IMAGE;

pub const ABSOLUTE_32: u32 = 1;
pub const BRANCH: u32 = 16;
pub const JAL: u32 = 17;
pub const CALL: u32 = 18;
pub const PCREL_HI20: u32 = 23;
pub const PCREL_LO12_I: u32 = 24;
pub const PCREL_LO12_S: u32 = 25;
pub const HI20: u32 = 26;
pub const LO12_I: u32 = 27;
pub const LO12_S: u32 = 28;
pub const ADD32: u32 = 35;
pub const SUB32: u32 = 39;
pub const RELAX: u32 = 51;

pub const AUIPC_RA: u32 = 0x97;
pub const JALR_RA: u32 = 0x80E7;
pub const JAL_RA: u32 = 0xEF;
pub const BEQ: u32 = 0x63;
pub const LUI_A0: u32 = 0x537;
pub const AUIPC_A0: u32 = 0x517;
pub const ADDI_A0: u32 = 0x50513;
pub const SW_A0: u32 = 0xA5_2023;

/// The window's base, and the address of the code.
pub const BASE: u64 = 0x2000_0000;
/// The last word of a window, so that the span is the whole image.
pub fn last_of(image: usize) -> u64 {
    BASE + image as u64 - 4
}

#[derive(Default)]
pub struct Code {
    pub bytes: Vec<u8>,
    pub relocations: Vec<Relocation>,
}

impl Code {
    /// The offset of the next word.
    pub fn end(&self) -> u64 {
        self.bytes.len() as u64
    }

    pub fn plain(&mut self, word: u32) {
        self.bytes.extend(word.to_le_bytes());
    }

    /// An instruction or a data word, with a relocation at it.
    pub fn word(&mut self, word: u32, kind: u32, symbol: u32, addend: i64) {
        self.plain(word);
        self.again(kind, symbol, addend);
    }

    /// One more relocation at the last word.
    pub fn again(&mut self, kind: u32, symbol: u32, addend: i64) {
        let offset = self.end() - 4;
        let relocation = Relocation::new(offset, kind, symbol, addend);
        self.relocations.push(relocation);
    }

    /// RELAX at the last word, until there are this many relocations.
    pub fn fill_up(&mut self, count: usize) {
        while self.relocations.len() < count {
            self.again(RELAX, 0, 0);
        }
    }

    /// An install of this code, and of one word at the window's end, into an
    /// image in which nothing stands.
    pub fn input(self, class: Class, symbols: &[Symbol], external_values: &[(u32, u64)]) -> Input {
        self.input_in(IMAGE, class, symbols, external_values)
    }

    /// The same, in an image of this length.
    pub fn input_in(
        self,
        image: usize,
        class: Class,
        symbols: &[Symbol],
        external_values: &[(u32, u64)],
    ) -> Input {
        let sections = [
            Section::default(),
            Section::loaded(4, &self.bytes),
            Section::loaded(4, &[0; 4]),
            Section::symbols(symbols),
            Section::relocations(1, 3, &self.relocations),
        ];
        let placements = [(1, BASE), (2, last_of(image))];
        whole_image(image, class, &sections, &placements, external_values)
    }
}

/// An install of these sections at these addresses, into an image of this
/// length in which nothing stands.
pub fn whole_image(
    image: usize,
    class: Class,
    sections: &[Section],
    placements: &[(u32, u64)],
    external_values: &[(u32, u64)],
) -> Input {
    Input {
        object: object(class, sections),
        order: order(class, BASE, placements, external_values),
        image: vec![0xA5; image],
        journal: journal(image),
    }
}
