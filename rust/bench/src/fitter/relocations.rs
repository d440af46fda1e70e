//! Checks 9 to 14, as one question for each relocation: do all its rules hold?

use super::bytes::{double_word_at, half_at};
use super::class::{Class, Word};
use super::exact::{self, Broken};
use super::forms::{is_call, missing_forms};
use super::object::{Object, MAX_RELOCATIONS};
use super::pairs::{HighHalves, Room};
use super::placing::Addresses;
use super::symbols::Symbols;
use super::types::{Rules, Table, Way};
use super::Answer;

/// One RELA section, and what it patches.
pub struct List<'a, C: Class> {
    pub relocations: &'a [C::Relocation],
    rules: &'static Table,
    /// The index of the section that is patched.
    pub target: usize,
    /// The file from the first byte of that section on.
    pub bytes: &'a [u8],
    pub size: i64,
    pub address: u64,
}

impl<C: Class> List<'_, C> {
    /// P. It goes around the end of memory only where the offset is past the
    /// section.
    #[inline(always)]
    pub fn place(&self, entry: Entry) -> u64 {
        self.address.wrapping_add(u64::from(entry.offset))
    }

    /// What a relocation's type asks for.
    #[inline(always)]
    pub fn rules(&self, entry: Entry) -> &'static Rules {
        &self.rules[usize::from(entry.kind)]
    }
}

/// One relocation, as it is read.
#[derive(Clone, Copy)]
pub struct Entry {
    /// An offset past 2^32 is past every section, as the last one before it is.
    pub offset: u32,
    /// Types above 255 are refused, as 255 is.
    pub kind: u8,
    pub symbol: usize,
    pub addend: i64,
}

impl Entry {
    #[inline(always)]
    pub fn read<C: Class>(relocation: &C::Relocation) -> Entry {
        let raw = C::relocation(relocation);
        Entry {
            offset: raw.offset.whole().min(u64::from(u32::MAX)) as u32,
            kind: raw.kind.min(255) as u8,
            symbol: raw.symbol as usize,
            addend: raw.addend,
        }
    }
}

/// The bits that are wrong in the distance from a place to S + A: none where it
/// is in reach, and even or a multiple of 4 if it must be.
#[inline(always)]
pub fn wrong_distance<C: Class>(value: C::Word, entry: Entry, place: u64, rules: &Rules) -> i64 {
    let t = C::Word::cut(value.whole().wrapping_add_signed(entry.addend));
    // HI20 has no range in class 1.
    let from = match C::IS_64 {
        true => place & i64::from(rules.from_place) as u64,
        false => place,
    };
    C::distance(t, from).wrapping_add(rules.reach) & rules.outside
}

/// What a relocation's rules ask about those before it.
#[derive(Clone, Copy)]
pub struct Before {
    /// The offset of the relocation before.
    pub offset: i64,
    /// Where the next bytes may begin: at the end of those of the non-marker
    /// before, and not before a marker behind it.
    pub end: i64,
    /// The offset of the non-marker before and its kind of sharing, in one
    /// number; or 0, which no relocation has.
    pub shared: i64,
}

impl Before {
    const START: Before = Before {
        offset: 0,
        end: 0,
        shared: 0,
    };

    #[inline(always)]
    fn go_past(&mut self, offset: i64, rules: &Rules) {
        self.offset = offset;
        self.end = offset + i64::from(rules.width);
        self.shared = offset + rules.share;
    }

    /// No place is shared across a marker that stands behind it.
    #[inline(always)]
    fn go_past_marker(&mut self, offset: i64) {
        self.offset = offset;
        self.end = self.end.max(offset);
        if offset as u32 != self.shared as u32 {
            self.shared = 0;
        }
    }

    fn go_past_any(&mut self, offset: u32, rules: &Rules) {
        match rules.way {
            Way::Marker | Way::Align => self.go_past_marker(i64::from(offset)),
            _ => self.go_past(i64::from(offset), rules),
        }
    }

    /// The rules of offsets and overlaps, for a non-marker: negative where one
    /// is broken.
    #[inline(always)]
    pub fn room(&self, offset: i64, rules: &Rules, size: i64) -> i64 {
        // At one place: negative for types that may not share it.
        let after = match offset + rules.share == self.shared {
            true => rules.share,
            false => offset - self.end,
        };
        (size - offset - i64::from(rules.width)) | after
    }

    /// The rules of the offset of a marker: negative where one is broken.
    #[inline(always)]
    pub fn marker_room(&self, offset: i64, size: i64) -> i64 {
        (offset - self.offset) | (size - offset)
    }
}

/// How far the checks of one list came.
enum Reached {
    End,
    /// A relocation with a pair, for which the list's high halves are needed.
    Pair(usize, Before),
}

/// Checks all relocations: by RELA section, then in file order.
pub fn check<C: Class, const N: usize>(
    object: &Object<C>,
    addresses: &Addresses,
    symbols: &mut Symbols<C, N>,
) -> Result<(), Answer> {
    let mut first = 0;
    for (target, relocations) in object.relocation_sections() {
        let section = object.section(target);
        let list = List {
            relocations,
            rules: object.rules,
            target,
            bytes: object.bytes_from(section),
            size: section.size() as i64,
            address: addresses[target],
        };
        check_list(&list, symbols).map_err(|(broken, place)| Answer {
            number: u32::from(broken.number),
            place: first + place,
            reason: u32::from(broken.reason),
        })?;
        first += relocations.len() as u32;
    }
    Ok(())
}

/// The error is the broken check, and the place in this list.
fn check_list<C: Class, const N: usize>(
    list: &List<C>,
    symbols: &mut Symbols<C, N>,
) -> Result<(), (Broken, u32)> {
    match check_from(list, symbols, 0, Before::START, None)? {
        Reached::End => Ok(()),
        Reached::Pair(index, before) if list.relocations.len() <= FEW => {
            check_with_pairs::<C, N, FEW>(list, symbols, index, before)
        }
        Reached::Pair(index, before) => {
            check_with_pairs::<C, N, MAX_RELOCATIONS>(list, symbols, index, before)
        }
    }
}

/// The most relocations of a list that is not long.
const FEW: usize = 4_096;

/// Goes on at the first relocation with a pair. The high halves take room on
/// the stack, which a list without pairs does not pay for.
#[inline(never)]
fn check_with_pairs<C: Class, const N: usize, const MOST: usize>(
    list: &List<C>,
    symbols: &mut Symbols<C, N>,
    start: usize,
    before: Before,
) -> Result<(), (Broken, u32)> {
    let mut room = Room::<C, MOST>::new();
    let high_halves = room.find(list.relocations);
    check_from(list, symbols, start, before, Some(&high_halves)).map(|_| ())
}

fn check_from<C: Class, const N: usize>(
    list: &List<C>,
    symbols: &mut Symbols<C, N>,
    start: usize,
    mut before: Before,
    high_halves: Option<&HighHalves<C>>,
) -> Result<Reached, (Broken, u32)> {
    let mut rest = &list.relocations[start..];
    loop {
        rest = match high_halves {
            None => pass::<C, N, false>(list, rest, symbols, &mut before, None),
            Some(_) => pass::<C, N, true>(list, rest, symbols, &mut before, high_halves),
        };
        let Some((relocation, behind)) = rest.split_first() else {
            return Ok(Reached::End);
        };
        let index = list.relocations.len() - rest.len();
        let entry = Entry::read::<C>(relocation);
        let rules = list.rules(entry);
        if rules.way == Way::Pair && high_halves.is_none() {
            return Ok(Reached::Pair(index, before));
        }
        exact::first_broken(list, symbols, entry, &before)
            .map_err(|broken| (broken, index as u32))?;
        debug_assert!(rules.way != Way::Pair, "a pair that was not found");
        before.go_past_any(entry.offset, rules);
        rest = behind;
    }
}

/// Goes past relocations that keep all rules, as far as this can say, and gives
/// those that are left. It stops also at ALIGN, in the last bytes of a file,
/// and where a symbol is named for the first time. A list without pairs has a
/// copy of this function that knows none.
#[inline(never)]
fn pass<'r, C: Class, const N: usize, const PAIRS: bool>(
    list: &List<C>,
    relocations: &'r [C::Relocation],
    symbols: &mut Symbols<C, N>,
    before: &mut Before,
    high_halves: Option<&HighHalves<C>>,
) -> &'r [C::Relocation] {
    let mut now = *before;
    let mut rest = relocations;
    while let Some((relocation, behind)) = rest.split_first() {
        let entry = Entry::read::<C>(relocation);
        let offset = i64::from(entry.offset);
        let rules = list.rules(entry);
        let holds = match rules.way {
            Way::Plain => holds(list, symbols, entry, rules, &now),
            Way::Call => is_call_at(list, entry) && holds(list, symbols, entry, rules, &now),
            Way::Marker if now.marker_room(offset, list.size) >= 0 => {
                now.go_past_marker(offset);
                rest = behind;
                continue;
            }
            Way::Pair if PAIRS => {
                high_halves.is_some_and(|high| pair_holds(list, symbols, entry, rules, &now, high))
            }
            _ => false,
        };
        if !holds {
            break;
        }
        now.go_past(offset, rules);
        rest = behind;
    }
    *before = now;
    rest
}

/// Whether all rules hold of a plain relocation. They are worked out beside
/// each other, without a branch for each.
#[inline(always)]
fn holds<C: Class, const N: usize>(
    list: &List<C>,
    symbols: &Symbols<C, N>,
    entry: Entry,
    rules: &Rules,
    before: &Before,
) -> bool {
    let Some(half) = half_at(list.bytes, entry.offset as usize) else {
        return false;
    };
    let Some(value) = symbols.remembered(entry.symbol) else {
        return false;
    };
    let offset = i64::from(entry.offset);
    let place = list.place(entry);
    let wrong = wrong_distance::<C>(value, entry, place, rules)
        | i64::from(missing_forms::<C>(half) & rules.form)
        | place as i64 & i64::from(rules.even);
    wrong == 0 && before.room(offset, rules, list.size) >= 0
}

/// Whether both instructions of a call are there.
#[inline(always)]
fn is_call_at<C: Class>(list: &List<C>, entry: Entry) -> bool {
    double_word_at(list.bytes, entry.offset as usize).is_some_and(is_call)
}

/// Whether all rules hold of a PCREL_LO12; then its pair is remembered.
#[inline(always)]
fn pair_holds<C: Class, const N: usize>(
    list: &List<C>,
    symbols: &mut Symbols<C, N>,
    entry: Entry,
    rules: &Rules,
    before: &Before,
    high_halves: &HighHalves<C>,
) -> bool {
    let Some(half) = half_at(list.bytes, entry.offset as usize) else {
        return false;
    };
    let Some(label) = symbols.label(entry.symbol, list.target) else {
        return false;
    };
    let offset = i64::from(entry.offset);
    let place = list.place(entry);
    let wrong = entry.addend
        | i64::from(missing_forms::<C>(half) & rules.form)
        | place as i64 & i64::from(rules.even);
    if wrong != 0 || before.room(offset, rules, list.size) < 0 {
        return false;
    }
    let pair = high_halves.only_at(label);
    if let Some(pair) = pair {
        symbols.remember_pair(entry.symbol, pair);
    }
    pair.is_some()
}
