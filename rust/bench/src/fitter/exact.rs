//! Checks 9 to 14 one by one, for a relocation of which it is not known that
//! all hold: the first broken one. It runs once before a refusal, once for each
//! symbol that relocations name, and for the few relocations that the quick
//! question leaves open.

use super::bytes::{double_word_at, half_at};
use super::class::Class;
use super::forms::{is_call, missing_forms};
use super::relocations::{wrong_distance, Before, Entry, List};
use super::symbols::{Reason, Symbols};
use super::types::{Rules, Way};

const PCREL_HI20: u32 = 23;
const HIGHEST_PADDING: i64 = 4_094;

/// A broken check of a relocation.
#[derive(Clone, Copy)]
pub struct Broken {
    pub number: u8,
    /// Why a symbol does not resolve; 0 for every number but 10.
    pub reason: u8,
}

fn broken(number: u8) -> Result<(), Broken> {
    Err(Broken { number, reason: 0 })
}

fn unresolved(reason: Reason) -> Broken {
    Broken {
        number: 10,
        reason: reason as u8,
    }
}

/// The error is the first broken check.
#[cold]
#[inline(never)]
pub fn first_broken<C: Class, const N: usize>(
    list: &List<C>,
    symbols: &mut Symbols<C, N>,
    entry: Entry,
    before: &Before,
) -> Result<(), Broken> {
    let rules = list.rules(entry);
    let offset = i64::from(entry.offset);
    match rules.way {
        Way::Refused => return broken(9),
        Way::Align => return check_padding(list, &entry, before),
        Way::Marker if before.marker_room(offset, list.size) < 0 => return broken(9),
        Way::Marker => return Ok(()),
        Way::Pair if entry.addend != 0 => return broken(9),
        _ if before.room(offset, rules, list.size) < 0 => return broken(9),
        Way::Pair => return check_pair(list, symbols, &entry, rules),
        Way::Plain | Way::Call => {}
    }
    let value = symbols.value(entry.symbol).map_err(unresolved)?;
    if !form_holds(list, &entry, rules) {
        return broken(11);
    }
    match wrong_distance::<C>(value, entry, list.place(entry), rules) {
        0 => Ok(()),
        _ => broken(13),
    }
}

/// Checks 10, 11 and 12 of a PCREL_LO12.
fn check_pair<C: Class, const N: usize>(
    list: &List<C>,
    symbols: &mut Symbols<C, N>,
    entry: &Entry,
    rules: &Rules,
) -> Result<(), Broken> {
    let Some(label) = symbols.label(entry.symbol, list.target) else {
        return Err(unresolved(symbols.no_label(entry.symbol)));
    };
    if !form_holds(list, entry, rules) {
        return broken(11);
    }
    let is_pair = |other: &&C::Relocation| {
        let other = C::relocation(other);
        other.kind == PCREL_HI20 && other.offset == label
    };
    match list.relocations.iter().filter(is_pair).count() {
        1 => Ok(()),
        _ => broken(12),
    }
}

/// Checks 9 and 14 of ALIGN, which has no other.
fn check_padding<C: Class>(list: &List<C>, entry: &Entry, before: &Before) -> Result<(), Broken> {
    let offset = i64::from(entry.offset);
    if offset < before.offset
        || !(0..=HIGHEST_PADDING).contains(&entry.addend)
        || entry.addend & 1 != 0
        || offset + entry.addend > list.size
    {
        return broken(9);
    }
    let boundary = (entry.addend as u64 + 2).next_power_of_two();
    // A section may end at the end of memory.
    match list.place(*entry).wrapping_add(entry.addend as u64) & (boundary - 1) {
        0 => Ok(()),
        _ => broken(14),
    }
}

/// Check 11. The bytes touched lie in the section.
fn form_holds<C: Class>(list: &List<C>, entry: &Entry, rules: &Rules) -> bool {
    let offset = entry.offset as usize;
    let is_even = list.place(*entry) & 1 == 0;
    let is_form = match rules.way {
        Way::Call => double_word_at(list.bytes, offset).is_some_and(is_call),
        _ => half_at(list.bytes, offset)
            .is_some_and(|half| missing_forms::<C>(half) & rules.form == 0),
    };
    rules.form == 0 || (is_even && is_form)
}
