//! "How a record is read": the rules of one relocation (checks 9 to 14), and
//! the bytes of a section after its relocations.

use crate::class::Class;
use crate::numbers::Whole;
use crate::object::{RelocationSection, Section};
use crate::relocation::{effect_of, Calculation, Effect, Patch, Relocation};
use crate::symbol::{Reason, Symbols};

/// One relocation with everything that its rules look at.
#[derive(Clone, Copy, Debug)]
pub struct RelaEntry<'a> {
    pub symbols: &'a Symbols<'a>,
    /// The RELA section that the relocation is in.
    pub list: &'a RelocationSection,
    /// Which of that section's relocations it is.
    pub index: usize,
}

impl<'a> RelaEntry<'a> {
    fn relocation(&self) -> &'a Relocation {
        &self.list.relocations[self.index]
    }

    fn class(&self) -> Class {
        self.symbols.object.class()
    }

    fn effect(&self) -> Effect {
        effect_of(self.relocation().kind, self.class())
    }

    /// What a non-marker does; `None` for a marker and a refused type.
    fn patch(&self) -> Option<Patch> {
        match self.effect() {
            Effect::Patch(patch) => Some(patch),
            Effect::Marker | Effect::Align | Effect::Refused => None,
        }
    }

    /// Document 01: the record's own target row.
    fn target(&self) -> &'a Section {
        &self.symbols.object.sections()[self.list.target]
    }

    fn offset(&self) -> Whole {
        Whole::from(self.relocation().offset.0)
    }

    /// The first offset behind the bytes touched; a marker touches none.
    fn end(&self) -> Whole {
        let touched = self.patch().map_or(0, |patch| patch.field.bytes());
        self.offset() + Whole::from(touched)
    }

    /// A.
    fn addend(&self) -> Whole {
        Whole::from(self.relocation().addend)
    }

    /// P, "the place's address".
    fn place(&self) -> Whole {
        Whole::from(self.symbols.addresses[self.list.target].0) + self.offset()
    }

    /// S, or why the symbol does not resolve.
    fn s(&self) -> Result<Whole, Reason> {
        self.symbols.value(self.relocation().symbol)
    }

    /// S + A, not reduced.
    fn s_plus_a(&self) -> Option<Whole> {
        Some(self.s().ok()? + self.addend())
    }

    /// "S + A is reduced modulo 2^32, then called T." In class 2, "modulo 2^64".
    fn t(&self) -> Option<Whole> {
        Some(self.s_plus_a()?.rem_euclid(self.class().address_end()))
    }

    /// "T - P reduced to the signed range of the address width". The types that
    /// take T - P modulo 2^32 or 2^64 get the same from it. A distance of half the
    /// address space is too far for every type with a range, so that its sign does
    /// not matter.
    fn distance(&self) -> Option<Whole> {
        Some(self.class().signed(self.t()? - self.place()))
    }

    /// What a jump's distance is a multiple of: 2, as an instruction's address is,
    /// and without short instructions 4.
    fn jump_step(&self) -> Whole {
        match self.symbols.object.has_compressed() {
            true => 2,
            false => 4,
        }
    }

    /// The other relocations of the same RELA section that come before.
    fn earlier(&self) -> impl DoubleEndedIterator<Item = RelaEntry<'a>> {
        let rela = *self;
        (0..self.index).map(move |index| RelaEntry { index, ..rela })
    }

    fn asks_for_pair(&self) -> bool {
        self.patch()
            .is_some_and(|patch| patch.calculation == Calculation::PairDistance)
    }

    /// "the partner is the PCREL_HI20 record at its value. There must be exactly
    /// one PCREL_HI20 record whose offset equals that value, among the same
    /// RELA row's records."
    fn hi20_pair(&self) -> Option<RelaEntry<'a>> {
        const PCREL_HI20: u32 = 23;
        let label = self.symbols.entry(self.relocation().symbol)?;
        let rela = *self;
        let all = (0..self.list.relocations.len()).map(|index| RelaEntry { index, ..rela });
        let mut pairs = all.filter(|other| {
            let other = other.relocation();
            other.kind == PCREL_HI20 && other.offset.0 == label.value
        });
        match (pairs.next(), pairs.next()) {
            (Some(pair), None) => Some(pair),
            _ => None,
        }
    }
}

/// Check 9: "type, offset, overlap, addend rule".
pub fn breaks_shape_rule(rela: &RelaEntry) -> bool {
    rela.effect() == Effect::Refused
        || is_refused_short_type(rela)
        || offset_falls(rela)
        || leaves_section(rela)
        || overlaps(rela)
        || addend_is_wrong(rela)
}

/// "If e_flags bit 0 is clear, types 44 and 45 are refused with 9".
fn is_refused_short_type(rela: &RelaEntry) -> bool {
    let patch = rela.patch();
    !rela.symbols.object.has_compressed() && patch.is_some_and(|patch| patch.form.is_compressed())
}

/// "Record offsets never fall."
fn offset_falls(rela: &RelaEntry) -> bool {
    let previous = rela.earlier().next_back();
    previous.is_some_and(|previous| rela.offset() < previous.offset())
}

/// "The bytes touched lie in the row; a marker's offset is at most the row
/// size."
fn leaves_section(rela: &RelaEntry) -> bool {
    rela.end() > Whole::from(rela.target().size)
}

/// "A non-marker starts at or after the end of the previous non-marker, or both
/// are of 33..40, 52..56 with equal offset and width (SUB6 and SET6 have a
/// width of their own)."
fn overlaps(rela: &RelaEntry) -> bool {
    let Some(this) = rela.patch() else {
        return false;
    };
    let Some(previous) = rela.earlier().rev().find(|other| other.patch().is_some()) else {
        return false;
    };
    let shares_place = previous.patch().is_some_and(|other| {
        this.calculation.may_share_place()
            && other.calculation.may_share_place()
            && rela.offset() == previous.offset()
            && this.field == other.field
    });
    rela.offset() < previous.end() && !shares_place
}

/// ALIGN: "A even, 0 to 4,094, offset + A inside the row". PCREL_LO12: "A must
/// be 0".
fn addend_is_wrong(rela: &RelaEntry) -> bool {
    let addend = rela.addend();
    if rela.effect() == Effect::Align {
        addend.rem_euclid(2) != 0
            || !(0..=4_094).contains(&addend)
            || rela.offset() + addend > Whole::from(rela.target().size)
    } else {
        rela.asks_for_pair() && addend != 0
    }
}

/// Check 10: "symbol does not resolve (24, 25: or is not in the target row)", and
/// why. "Markers skip 10."
pub fn unresolved_symbol(rela: &RelaEntry) -> Option<Reason> {
    rela.patch()?;
    let misses_target = rela.asks_for_pair() && !label_is_in_target(rela);
    let last = misses_target.then_some(Reason::NotInTarget);
    rela.s().err().or(last)
}

/// "A PCREL_LO12 symbol is above 0 and defined in the record's own target row"
fn label_is_in_target(rela: &RelaEntry) -> bool {
    let symbol = rela.relocation().symbol;
    let entry = rela.symbols.entry(symbol);
    symbol > 0 && entry.is_some_and(|entry| usize::from(entry.section) == rela.list.target)
}

/// Check 11: "Instruction at an even address, as found in the object".
pub fn instruction_form_is_wrong(rela: &RelaEntry) -> bool {
    use crate::instruction::Form;
    let object = rela.symbols.object;
    rela.patch().is_some_and(|patch| {
        let bytes = object.bytes_of(rela.target());
        let found = &bytes[rela.offset() as usize..rela.end() as usize];
        let is_even = rela.place().rem_euclid(2) == 0;
        patch.form != Form::Any && !(is_even && patch.form.matches(found, rela.class()))
    })
}

/// Check 12: "not exactly one partner".
pub fn has_not_one_pair(rela: &RelaEntry) -> bool {
    rela.asks_for_pair() && rela.hi20_pair().is_none()
}

/// Check 13: "distance odd or too far". A high half, alone or in a CALL, reaches
/// as far as both halves together: its distance, or the address of HI20. The
/// distance of a CALL "is even". If e_flags bit 0 is clear, "a distance for 16 to
/// 19 that isn't a multiple of 4" is refused too.
pub fn distance_is_wrong(rela: &RelaEntry) -> bool {
    use crate::fields::Field;
    let (Some(patch), Some(distance), Some(t)) = (rela.patch(), rela.distance(), rela.t()) else {
        return false;
    };
    let misses_step = distance.rem_euclid(rela.jump_step()) != 0;
    match (patch.field, patch.calculation) {
        (Field::UThenI, _) => misses_step || !rela.class().halves_reach(distance),
        (Field::U, Calculation::Target) => !rela.class().halves_reach(t),
        (Field::U, _) => !rela.class().halves_reach(distance),
        (field, _) => field
            .reach()
            .is_some_and(|reach| misses_step || !reach.contains(&distance)),
    }
}

/// Check 14: "P + A a multiple of the smallest power of two at least A + 2".
pub fn padding_misses_boundary(rela: &RelaEntry) -> bool {
    rela.effect() == Effect::Align && {
        let least = (rela.addend() + 2) as u64;
        let boundary = Whole::from(least.next_power_of_two());
        (rela.place() + rela.addend()).rem_euclid(boundary) != 0
    }
}

/// A loaded section's bytes with its relocations applied in file order, each on
/// what those before it left. All checks have passed.
pub fn relocated_bytes(symbols: &Symbols, index: usize, lists: &[RelocationSection]) -> Vec<u8> {
    let object = symbols.object;
    let mut bytes = object.bytes_of(&object.sections()[index]).to_vec();
    for list in lists.iter().filter(|list| list.target == index) {
        for index in 0..list.relocations.len() {
            let rela = RelaEntry {
                symbols,
                list,
                index,
            };
            apply(&rela, &mut bytes);
        }
    }
    bytes
}

fn apply(rela: &RelaEntry, section: &mut [u8]) {
    if let Some(patch) = rela.patch() {
        let word = &mut section[rela.offset() as usize..rela.end() as usize];
        let present = patch.field.present(crate::numbers::number_from(word));
        let x = calculate(rela, patch.calculation, present);
        patch
            .field
            .write(word, x.expect("checks 10 and 12 have passed"));
    }
}

/// The number that goes into the field, before the field takes its part.
fn calculate(rela: &RelaEntry, calculation: Calculation, present: Whole) -> Option<Whole> {
    match calculation {
        Calculation::Target => rela.t(),
        Calculation::Distance => rela.distance(),
        Calculation::PairDistance => rela.hi20_pair()?.distance(),
        Calculation::Add => Some(present + rela.s_plus_a()?),
        Calculation::Subtract => Some(present - rela.s_plus_a()?),
        Calculation::Set => rela.s_plus_a(),
    }
}
