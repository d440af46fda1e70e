//! Relocations (document 01: records) and the one decision from a type number
//! to what the type does.

use crate::class::Class;
use crate::fields::Field;
use crate::instruction::Form;
use crate::numbers::SectionOffset;

/// Document 01: record.
#[derive(Clone, Copy, PartialEq, Eq, Debug)]
pub struct Relocation {
    pub offset: SectionOffset,
    pub symbol: u32,
    /// The whole type number, which is above 255 at times in class 2.
    pub kind: u32,
    /// A.
    pub addend: i64,
}

impl Relocation {
    /// The relocations of a RELA section that passed check 5.
    pub fn read_all(bytes: &[u8], class: Class) -> Vec<Relocation> {
        let entries = bytes.chunks_exact(class.layout().relocation_size);
        let read = |entry| Relocation::read(entry, class);
        entries.filter_map(read).collect()
    }

    fn read(entry: &[u8], class: Class) -> Option<Relocation> {
        let layout = class.layout();
        let info = class.number_at(entry, layout.r_info)?;
        let types = 1 << layout.r_sym_bit;
        Some(Relocation {
            offset: SectionOffset(class.number_at(entry, 0)?),
            symbol: (info / types) as u32,
            kind: (info % types) as u32,
            addend: class.signed_number_at(entry, layout.r_addend)?,
        })
    }
}

/// A line of document 01's table of types.
#[derive(Clone, Copy, PartialEq, Eq, Debug)]
pub enum Effect {
    /// "marker, no bytes"
    Marker,
    /// A marker with rules of its own.
    Align,
    /// Puts a number into a field. Document 01: non-marker.
    Patch(Patch),
    Refused,
}

#[derive(Clone, Copy, PartialEq, Eq, Debug)]
pub struct Patch {
    pub field: Field,
    pub calculation: Calculation,
    pub form: Form,
}

/// The number of which the field takes all, a half, or both halves.
#[derive(Clone, Copy, PartialEq, Eq, Debug)]
pub enum Calculation {
    /// T: S + A modulo 2^32, or 2^64.
    Target,
    /// T - P, reduced.
    Distance,
    /// "the partner's T - P"
    PairDistance,
    /// V + S + A.
    Add,
    /// V - S - A.
    Subtract,
    /// S + A.
    Set,
}

impl Calculation {
    /// The types 33..40 and 52..56, which may share one place.
    pub fn may_share_place(self) -> bool {
        matches!(
            self,
            Calculation::Add | Calculation::Subtract | Calculation::Set
        )
    }
}

/// "Every type number from 0 to 255 has a line in one decision". "Type numbers
/// above 255 give 9. Type 2 (word64, T) is added for class 2 only".
pub fn effect_of(kind: u32, class: Class) -> Effect {
    use Calculation::*;
    use Effect::*;
    use Field::*;
    let is_64 = class == Class::Elf64;
    match kind {
        0 | 51 => Marker,                                  // NONE, RELAX
        43 => Align,                                       // ALIGN
        1 => patch(data(32), Target, Form::Any),           // 32
        2 if is_64 => patch(data(64), Target, Form::Any),  // 64
        57 => patch(data(32), Distance, Form::Any),        // 32_PCREL
        16 => patch(B, Distance, Form::Branch),            // BRANCH
        17 => patch(J, Distance, Form::Jal),               // JAL
        44 => patch(CB, Distance, Form::CompressedBranch), // RVC_BRANCH
        45 => patch(CJ, Distance, Form::CompressedJump),   // RVC_JUMP
        18 | 19 => patch(UThenI, Distance, Form::Call),    // CALL, CALL_PLT
        23 => patch(U, Distance, Form::Auipc),             // PCREL_HI20
        26 => patch(U, Target, Form::Lui),                 // HI20
        27 => patch(I, Target, Form::LowI),                // LO12_I
        28 => patch(S, Target, Form::LowS),                // LO12_S
        24 => patch(I, PairDistance, Form::LowI),          // PCREL_LO12_I
        25 => patch(S, PairDistance, Form::LowS),          // PCREL_LO12_S
        33 => patch(data(8), Add, Form::Any),              // ADD8
        34 => patch(data(16), Add, Form::Any),             // ADD16
        35 => patch(data(32), Add, Form::Any),             // ADD32
        36 => patch(data(64), Add, Form::Any),             // ADD64
        37 => patch(data(8), Subtract, Form::Any),         // SUB8
        38 => patch(data(16), Subtract, Form::Any),        // SUB16
        39 => patch(data(32), Subtract, Form::Any),        // SUB32
        40 => patch(data(64), Subtract, Form::Any),        // SUB64
        52 => patch(data(6), Subtract, Form::Any),         // SUB6
        53 => patch(data(6), Set, Form::Any),              // SET6
        54 => patch(data(8), Set, Form::Any),              // SET8
        55 => patch(data(16), Set, Form::Any),             // SET16
        56 => patch(data(32), Set, Form::Any),             // SET32
        2..=15 | 20..=22 | 29..=32 | 41..=42 | 46..=50 | 58.. => Refused,
    }
}

fn data(bits: u32) -> Field {
    Field::Data { bits }
}

fn patch(field: Field, calculation: Calculation, form: Form) -> Effect {
    Effect::Patch(Patch {
        field,
        calculation,
        form,
    })
}
