//! What each type number asks for, as tables of 256 lines for each class: what
//! the checks look at, with and without compressed instructions, and what is laid.
//! Every line has the same shape, and a number that changes nothing where a type
//! does not ask for something.

use super::forms::form;

/// How the checks go about a relocation.
#[derive(Clone, Copy, PartialEq, Eq)]
pub enum Way {
    /// A field that is written, with nothing special about it.
    Plain,
    /// CALL and CALL_PLT, which stand at two instructions.
    Call,
    /// PCREL_LO12, which has a pair.
    Pair,
    /// NONE and RELAX.
    Marker,
    Align,
    Refused,
}

/// What the checks of a relocation look at.
#[derive(Clone, Copy)]
#[repr(align(32))]
pub struct Rules {
    /// The same number above 2^32 for types that may share one place, and a
    /// negative number for all others.
    pub share: i64,
    /// The distance is at least minus this. It is 0 for a type that reaches
    /// everything.
    pub reach: i64,
    /// The bits that are 0 in the sum of distance and reach: all that a sum in
    /// reach does not have, and the lowest where the distance must be even, or
    /// the lowest two where it must be a multiple of 4.
    pub outside: i64,
    /// How many bytes are touched.
    pub width: u8,
    /// -1 where the distance is from P on, and 0 where it is from 0 on.
    pub from_place: i8,
    /// A bit of [`form`]: what must stand at the place.
    pub form: u8,
    /// 1 where the place's address must be even.
    pub even: u8,
    pub way: Way,
}

/// What is laid: a number x is worked out, and its bits go to the field.
#[derive(Clone, Copy)]
#[repr(align(32))]
pub struct Effect {
    /// Bits of x that stay where they are, after the rounding is added.
    pub straight: u32,
    /// Bits of x that go up by 20 places.
    pub up_20: u32,
    /// Bits of x that go up by 7 places.
    pub up_7: u32,
    /// Where bit 11 of x goes besides.
    pub bit_11: u32,
    /// Bits of the present word that stay.
    pub kept: u32,
    pub rounding: u16,
    pub width: u8,
    /// -1 where S + A is taken from x, and 0 where it is added.
    pub negated: i8,
    /// -1 where P is taken from x, and otherwise 0.
    pub place: i8,
    /// -1 where the present value is added to x, and otherwise 0.
    pub present: i8,
    pub laying: Laying,
}

/// How a field is laid.
#[derive(Clone, Copy, PartialEq, Eq)]
pub enum Laying {
    /// As the line says.
    Plain,
    /// As the line says, and the low half in the next word.
    Call,
    /// As the line says, with x from the pair.
    Pair,
    /// ADD64 and SUB64, and in class 2 the type 64, with the low word as the line
    /// says.
    Wide,
    CompressedBranch,
    CompressedJump,
    /// Markers, and types that no checked relocation has.
    Nothing,
}

const REFUSED: Rules = Rules {
    share: -1 << 32,
    reach: 0,
    outside: 0,
    width: 0,
    from_place: -1,
    form: 0,
    even: 0,
    way: Way::Refused,
};

const MARKER: Rules = Rules {
    way: Way::Marker,
    ..REFUSED
};

const ALIGN: Rules = Rules {
    way: Way::Align,
    ..REFUSED
};

/// A field that is data, and that no other relocation may share.
const fn data(width: u8) -> Rules {
    Rules {
        width,
        way: Way::Plain,
        ..REFUSED
    }
}

/// A field of ADD, SUB or SET with this many bits.
const fn shared(bits: u32) -> Rules {
    Rules {
        share: (bits as i64) << 32,
        ..data(bits.div_ceil(8) as u8)
    }
}

const fn instruction(width: u8, form: u8) -> Rules {
    Rules {
        form,
        even: 1,
        ..data(width)
    }
}

/// The distance is below the reach too, which is a power of two.
const fn jump(width: u8, form: u8, reach: i64) -> Rules {
    Rules {
        reach,
        outside: !(2 * reach - 1) | 1,
        ..instruction(width, form)
    }
}

/// In class 2 both halves together lead to 2^32 distances.
const fn of_halves(rules: Rules) -> Rules {
    Rules {
        reach: (1 << 31) + 2_048,
        outside: rules.outside | !0xFFFF_FFFF,
        ..rules
    }
}

const CALL: Rules = Rules {
    outside: 1,
    way: Way::Call,
    ..instruction(8, form::AUIPC)
};

const fn low_of_pair(form: u8) -> Rules {
    Rules {
        way: Way::Pair,
        ..instruction(4, form)
    }
}

const fn rules_of_64(kind: u8) -> Rules {
    match kind {
        2 => data(8),
        18 | 19 | 23 => of_halves(rules_of(kind)),
        26 => Rules {
            from_place: 0,
            ..of_halves(rules_of(kind))
        },
        _ => rules_of(kind),
    }
}

const fn rules_of(kind: u8) -> Rules {
    match kind {
        0 | 51 => MARKER,
        43 => ALIGN,
        1 | 57 => data(4),
        16 => jump(4, form::BRANCH, 4_096),
        17 => jump(4, form::JAL, 1_048_576),
        44 => jump(2, form::COMPRESSED_BRANCH, 256),
        45 => jump(2, form::COMPRESSED_JUMP, 2_048),
        18 | 19 => CALL,
        23 => instruction(4, form::AUIPC),
        26 => instruction(4, form::LUI),
        27 => instruction(4, form::LOW_I),
        28 => instruction(4, form::LOW_S),
        24 => low_of_pair(form::LOW_I),
        25 => low_of_pair(form::LOW_S),
        33 | 37 | 54 => shared(8),
        34 | 38 | 55 => shared(16),
        35 | 39 | 56 => shared(32),
        36 | 40 => shared(64),
        52 | 53 => shared(6),
        _ => REFUSED,
    }
}

/// The line of a type in an object without compressed instructions: what stands
/// at such a one is refused, and a distance that must be even is a multiple of 4.
const fn without_compressed(rules: Rules) -> Rules {
    const COMPRESSED: u8 = form::COMPRESSED_BRANCH | form::COMPRESSED_JUMP;
    match rules.form & COMPRESSED {
        0 => Rules {
            outside: rules.outside | (rules.outside & 1) << 1,
            ..rules
        },
        _ => REFUSED,
    }
}

const NOTHING: Effect = Effect {
    straight: 0,
    up_20: 0,
    up_7: 0,
    bit_11: 0,
    kept: u32::MAX,
    rounding: 0,
    width: 0,
    negated: 0,
    place: 0,
    present: 0,
    laying: Laying::Nothing,
};

/// The low bits of S + A.
const fn set(bits: u32) -> Effect {
    let field = u32::MAX >> (32 - bits);
    Effect {
        straight: field,
        kept: !field,
        width: bits.div_ceil(8) as u8,
        laying: Laying::Plain,
        ..NOTHING
    }
}

const fn add(bits: u32) -> Effect {
    Effect {
        present: -1,
        ..set(bits)
    }
}

const fn wide(effect: Effect) -> Effect {
    Effect {
        width: 8,
        laying: Laying::Wide,
        ..effect
    }
}

const fn subtract(bits: u32) -> Effect {
    Effect {
        negated: -1,
        ..add(bits)
    }
}

const fn distance(effect: Effect) -> Effect {
    Effect {
        place: -1,
        ..effect
    }
}

const fn of_pair(effect: Effect) -> Effect {
    Effect {
        laying: Laying::Pair,
        ..effect
    }
}

const fn compressed(laying: Laying, field: u32) -> Effect {
    Effect {
        kept: !field,
        width: 2,
        laying,
        ..distance(NOTHING)
    }
}

/// A field of an instruction, with all bits that are its own.
const fn instruction_field(effect: Effect) -> Effect {
    let field = effect.straight | effect.up_20 | effect.up_7 | effect.bit_11;
    Effect {
        kept: !field,
        width: 4,
        laying: Laying::Plain,
        ..effect
    }
}

/// The high half, rounded.
const U: Effect = instruction_field(Effect {
    straight: 0xFFFF_F000,
    rounding: 2_048,
    ..NOTHING
});
const I: Effect = instruction_field(Effect {
    up_20: 0xFFF0_0000,
    ..NOTHING
});
const S: Effect = instruction_field(Effect {
    up_20: 0xFE00_0000,
    up_7: 0xF80,
    ..NOTHING
});
/// The top bit is the distance's sign, since it is in reach.
const B: Effect = instruction_field(Effect {
    straight: 0x8000_0000,
    up_20: 0x7E00_0000,
    up_7: 0xF00,
    bit_11: 0x80,
    ..NOTHING
});
/// The top bit is the distance's sign.
const J: Effect = instruction_field(Effect {
    straight: 0x800F_F000,
    up_20: 0x7FE0_0000,
    bit_11: 0x10_0000,
    ..NOTHING
});
/// U in the first word, and I in the second.
const U_THEN_I: Effect = Effect {
    width: 8,
    laying: Laying::Call,
    ..U
};

const fn effect_of(kind: u8) -> Effect {
    match kind {
        1 => set(32),
        57 => distance(set(32)),
        16 => distance(B),
        17 => distance(J),
        44 => compressed(Laying::CompressedBranch, 0x1C7C),
        45 => compressed(Laying::CompressedJump, 0x1FFC),
        18 | 19 => distance(U_THEN_I),
        23 => distance(U),
        26 => U,
        27 => I,
        28 => S,
        24 => of_pair(I),
        25 => of_pair(S),
        33 => add(8),
        34 => add(16),
        35 => add(32),
        36 => wide(add(32)),
        37 => subtract(8),
        38 => subtract(16),
        39 => subtract(32),
        40 => wide(subtract(32)),
        52 => subtract(6),
        53 => set(6),
        54 => set(8),
        55 => set(16),
        56 => set(32),
        _ => NOTHING,
    }
}

const fn effect_of_64(kind: u8) -> Effect {
    match kind {
        2 => wide(set(32)),
        _ => effect_of(kind),
    }
}

/// What the checks look at, for every type number.
pub type Table = [Rules; 256];

/// The table without compressed instructions, and the one with them.
const fn all_rules(is_64: bool) -> [Table; 2] {
    let mut tables = [[REFUSED; 256]; 2];
    let mut kind = 0;
    while kind < 256 {
        let rules = match is_64 {
            true => rules_of_64(kind as u8),
            false => rules_of(kind as u8),
        };
        tables[0][kind] = without_compressed(rules);
        tables[1][kind] = rules;
        kind += 1;
    }
    tables
}

const fn all_effects(is_64: bool) -> [Effect; 256] {
    let mut lines = [NOTHING; 256];
    let mut kind = 0;
    while kind < 256 {
        lines[kind] = match is_64 {
            true => effect_of_64(kind as u8),
            false => effect_of(kind as u8),
        };
        kind += 1;
    }
    lines
}

pub static RULES_32: [Table; 2] = all_rules(false);
pub static RULES_64: [Table; 2] = all_rules(true);
pub static EFFECTS_32: [Effect; 256] = all_effects(false);
pub static EFFECTS_64: [Effect; 256] = all_effects(true);
