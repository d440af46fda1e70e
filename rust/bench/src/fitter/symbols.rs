//! S, the value of a symbol in a relocation, or why it has none, and external
//! values against symbols (check 7).

use super::class::{Class, Word};
use super::object::{is_in, Object, Set};
use super::order::Order;
use super::placing::Addresses;

const UNDEFINED: u16 = 0;
const ABSOLUTE: u16 = 0xFFF1;
const COMMON: u16 = 0xFFF2;
/// The first section number that names no section.
const FIRST_RESERVED: u16 = 0xFF00;
const WEAK: u8 = 2;
const TLS: u8 = 6;
const IFUNC: u8 = 10;

/// Set in the mark of a symbol whose S is known.
const KNOWN: u32 = 1 << 31;
/// Set in the mark of a symbol that has a value in the order, and a type with which
/// it does not resolve.
const GIVEN: u32 = 1 << 30;
/// The bits of a label's mark that are the place of its pair.
const PAIR: u32 = 0x7FFF;

/// Ticket 9: why a symbol does not resolve, by its number.
#[derive(Clone, Copy)]
pub enum Reason {
    PastTable = 1,
    NotAllocated,
    Common,
    Reserved,
    Undefined,
    WrongType,
    NotInTarget,
}

/// What is known of a symbol by now.
#[derive(Clone, Copy, Default)]
struct Memory<W> {
    value: W,
    mark: u32,
}

/// The symbols of an object, and what is known of each by now. The memory is
/// filled as relocations name symbols, so that an object with many symbols and
/// few relocations costs no more than it must. It has room for `N` symbols, at
/// least as many as the table has, and one.
pub struct Symbols<'a, C: Class, const N: usize> {
    entries: &'a [C::Symbol],
    allocated: Set,
    addresses: &'a Addresses,
    memory: [Memory<C::Word>; N],
    has_pairs: bool,
}

impl<'a, C: Class, const N: usize> Symbols<'a, C, N> {
    pub fn new(object: &Object<'a, C>, addresses: &'a Addresses) -> Symbols<'a, C, N> {
        let mut symbols = Symbols {
            entries: object.symbols(),
            allocated: object.allocated,
            addresses,
            memory: [Memory::default(); N],
            has_pairs: false,
        };
        // S is 0 for symbol 0, whatever its entry holds.
        symbols.memory[0].mark = KNOWN;
        symbols
    }

    /// Check 7: remembers the order's values. The error is the lowest symbol
    /// that is not an undefined one; the list ascends.
    pub fn take_external_values(&mut self, order: &Order<C>) -> Result<(), u32> {
        for (symbol, value) in order.external_values() {
            match self.entries.get(symbol as usize) {
                Some(entry) if symbol > 0 && C::symbol_section(entry) == UNDEFINED => {
                    match has_value::<C>(entry) {
                        true => self.remember(symbol as usize, C::Word::cut(value)),
                        false => self.memory[symbol as usize].mark |= GIVEN,
                    }
                }
                _ => return Err(symbol),
            }
        }
        Ok(())
    }

    fn remember(&mut self, symbol: usize, value: C::Word) {
        let memory = &mut self.memory[symbol];
        memory.value = value;
        memory.mark |= KNOWN;
    }

    /// S where it is known by now.
    #[inline(always)]
    pub fn remembered(&self, symbol: usize) -> Option<C::Word> {
        let memory = *self.memory.get(symbol)?;
        (memory.mark & KNOWN != 0).then_some(memory.value)
    }

    /// S, or why the symbol does not resolve.
    pub fn value(&mut self, symbol: usize) -> Result<C::Word, Reason> {
        if let Some(value) = self.remembered(symbol) {
            return Ok(value);
        }
        let entry = self.entries.get(symbol).ok_or(Reason::PastTable)?;
        let value = match C::symbol_section(entry) {
            UNDEFINED if self.is_given_or_weak(symbol, entry) => C::Word::default(),
            UNDEFINED => return Err(Reason::Undefined),
            ABSOLUTE => C::symbol_value(entry),
            COMMON => return Err(Reason::Common),
            FIRST_RESERVED.. => return Err(Reason::Reserved),
            section if !is_in(self.allocated, usize::from(section)) => {
                return Err(Reason::NotAllocated)
            }
            section => {
                let value = C::symbol_value(entry).whole();
                C::Word::cut(self.addresses[usize::from(section)].wrapping_add(value))
            }
        };
        if !has_value::<C>(entry) {
            return Err(Reason::WrongType);
        }
        self.remember(symbol, value);
        Ok(value)
    }

    /// Whether an undefined symbol has a value. One that the order gives a value is
    /// known already, unless its type is wrong.
    fn is_given_or_weak(&self, symbol: usize, entry: &C::Symbol) -> bool {
        self.memory[symbol].mark & GIVEN != 0 || C::symbol_info(entry) >> 4 == WEAK
    }

    /// Why a symbol is no label of the section that is patched.
    pub fn no_label(&mut self, symbol: usize) -> Reason {
        self.value(symbol).err().unwrap_or(Reason::NotInTarget)
    }

    /// S of a symbol that a checked relocation names.
    #[inline(always)]
    pub fn known_value(&self, symbol: usize) -> C::Word {
        self.memory[symbol].value
    }

    /// The offset of a label in this section, or `None` where the symbol is
    /// none or does not resolve.
    #[inline(always)]
    pub fn label(&self, symbol: usize, section: usize) -> Option<C::Word> {
        let entry = self.entries.get(symbol)?;
        let is_in_section = usize::from(C::symbol_section(entry)) == section;
        let is_label = symbol > 0 && is_in_section && has_value::<C>(entry);
        is_label.then_some(C::symbol_value(entry))
    }

    /// Remembers which relocation of its section is a label's pair. A label is
    /// in one section, which has at most one RELA section, so that it has one
    /// pair for all relocations that name it.
    #[inline(always)]
    pub fn remember_pair(&mut self, label: usize, relocation: usize) {
        self.memory[label].mark |= relocation as u32;
        self.has_pairs = true;
    }

    /// Whether any label has a pair.
    pub fn has_pairs(&self) -> bool {
        self.has_pairs
    }

    /// The pair of a label that a checked relocation names.
    #[inline(always)]
    pub fn known_pair(&self, label: usize) -> usize {
        (self.memory[label].mark & PAIR) as usize
    }
}

/// "types TLS 6 and IFUNC 10 do not resolve"
#[inline(always)]
fn has_value<C: Class>(entry: &C::Symbol) -> bool {
    !matches!(C::symbol_info(entry) & 15, TLS | IFUNC)
}
