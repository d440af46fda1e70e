//! The largest objects: all limits at once, as many pairs as there may be, and the
//! longest section.

use super::{Limits, HI20, PCREL_HI20, PCREL_LO12_I, RELAX, WORD};
use crate::build::*;
use crate::damage::Input;
use crate::DONE;

impl Limits {
    /// 128 sections, 8,192 symbols and 32,768 relocations in 1,048,576 bytes, laid
    /// into as long an image. The last relocations are pairs, the last symbols
    /// their labels, and all lead into the last section.
    fn largest(&self) -> Fit {
        const PAIRS: u64 = 512;
        let code = [0x17, 0x05, 0, 0, 0x13, 0x05, 0x05, 0].repeat(PAIRS as usize);
        let mut symbols = vec![Symbol::new(GLOBAL, 127, 0x765); 8_191 - PAIRS as usize];
        let mut list = vec![Relocation::new(0, RELAX, 0, 0); 32_768 - 2 * PAIRS as usize];
        for pair in 0..PAIRS {
            let hi20 = Relocation::new(8 * pair, PCREL_HI20, 1, pair as i64);
            symbols.push(Symbol::new(0, 1, hi20.offset));
            let label = symbols.len() as u32;
            list.push(hi20);
            list.push(Relocation::new(8 * pair + 4, PCREL_LO12_I, label, 0));
        }
        let mut fit = Fit::code(0x1000, &code, &symbols, &list);
        for section in 4..128 {
            fit.sections.push(Section::loaded(1, &[section as u8]));
            fit.placements.push((section, 0x2000 + u64::from(section)));
        }
        fit.base = 0x1000;
        fit.image.resize(1_048_576, 0x5A);
        // From 0x1000 to the last section's byte.
        fit.journal = journal(0x1000 + 128);
        fit
    }

    pub(super) fn all_at_once(&mut self) {
        let fit = self.largest();
        let long = |input: &mut Input| input.object.resize(1_048_576, 0xEE);
        self.changed("the largest", &fit, long, DONE);
        let mut short = fit.clone();
        short.journal.pop();
        self.changed("the largest, and no room", &short, long, (15, 0, 0));
        let mut wrong = fit.clone();
        wrong.sections[3].relocations_mut()[32_767].addend = 1;
        self.changed("the largest, the last record", &wrong, long, (9, 32_767, 0));
        let mut wrong = fit.clone();
        wrong.sections[3].relocations_mut()[32_766].kind = HI20;
        wrong.sections[1].bytes[4_088] = 0x37;
        self.changed("the largest, the last pair", &wrong, long, (12, 32_767, 0));
        let mut wrong = fit;
        wrong.sections[2].symbols_mut()[8_191].section = 128;
        self.changed(
            "the largest, the last symbol",
            &wrong,
            long,
            (10, 32_767, 2),
        );
    }

    /// As many pairs as there may be, with 1,024 labels; and one low half before
    /// high halves whose offsets fall, as many as there may be.
    pub(super) fn many_pairs(&mut self) {
        const PAIRS: u64 = 16_384;
        let code = [0x17, 0x05, 0, 0, 0x13, 0x05, 0x05, 0].repeat(PAIRS as usize);
        let labels: Vec<Symbol> = (0..1_024).map(|at| Symbol::new(0, 1, 128 * at)).collect();
        let pair = |at: u64| {
            let label = 1 + (at % 1_024) as u32;
            [
                Relocation::new(8 * at, PCREL_HI20, 1, at as i64),
                Relocation::new(8 * at + 4, PCREL_LO12_I, label, 0),
            ]
        };
        let list: Vec<Relocation> = (0..PAIRS).flat_map(pair).collect();
        let fit = Fit::code(0x1000, &code, &labels, &list);
        self.add("16,384 pairs", fit, DONE);

        let mut list = vec![Relocation::new(4, PCREL_LO12_I, 1, 0)];
        let falling = (0..32_767).rev();
        list.extend(falling.map(|at| Relocation::new(4 * at, PCREL_HI20, 1, 0)));
        let mut fit = Fit::code(0x1000, &code[..8], &labels[..1], &list);
        self.add("falling high halves", fit.clone(), (9, 1, 0));
        // The first and the last one are at one offset.
        fit.sections[3].relocations_mut()[1].offset = 0;
        self.add("falling high halves, two at the label", fit, (12, 0, 0));
    }

    /// The longest section that an object has room for, at the end of the address
    /// space and of a whole window, with a relocation at each end.
    pub(super) fn longest_section(&mut self) {
        let others = header_size(self.class) + 4 * section_size(self.class);
        let entries = 2 * symbol_size(self.class) + 2 * relocation_size(self.class);
        let size = 1_048_576 - others - entries as usize;
        let address = self.top - size as u64 + 1;
        let list = [
            Relocation::new(0, WORD, 1, 0),
            Relocation::new(size as u64 - 4, WORD, 1, 1),
        ];
        let symbols = [Symbol::absolute(0x1234_5678)];
        let mut fit = Fit::code(address, &vec![0xC7; size], &symbols, &list);
        fit.base = self.top - 1_048_575;
        fit.image = vec![0x5A; 1_048_576];
        self.add("the longest section", fit.clone(), DONE);
        let mut wrong = fit.clone();
        wrong.sections[3].relocations_mut()[1].offset += 1;
        self.add("a word past the longest section", wrong, (9, 1, 0));
        fit.sections[1].bytes.push(0);
        fit.placements[0].1 -= 1;
        self.add("a longer section", fit, (4, 0, 0));
    }
}
