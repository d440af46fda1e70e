//! Symbols, and S: the value of a symbol in a relocation, or why it has none
//! (check 10).

use crate::class::Class;
use crate::numbers::{u16_at, Whole};
use crate::object::{Object, Section};
use crate::order::ExternalValue;
use crate::placement::Addresses;

/// Ticket 7: "symbols and outside values up to 8,192".
pub const MAX_SYMBOLS: u32 = 8_192;

/// The section number of an undefined symbol.
pub const UNDEFINED: u16 = 0;
/// "the value for section 0xFFF1"
const ABSOLUTE: u16 = 0xFFF1;
const COMMON: u16 = 0xFFF2;
/// The lowest of the section numbers that name no section.
const FIRST_RESERVED: u16 = 0xFF00;
const WEAK: u8 = 2;
const TLS: u8 = 6;
const IFUNC: u8 = 10;

/// Why a lookup gives no value: "the first that applies, in this order, numbered 1
/// to 7".
#[derive(Clone, Copy, PartialEq, Eq, Debug)]
pub enum Reason {
    /// "past the table"
    PastTable = 1,
    /// "row missing or not allocated (sections 1 to 0xFEFF)"
    NotAllocated = 2,
    /// "common (section 0xFFF2)"
    Common = 3,
    /// "reserved section (0xFF00 and up, but for 0xFFF1 and 0xFFF2)"
    Reserved = 4,
    /// "undefined, not weak and without a value in the order"
    Undefined = 5,
    /// "wrong type (TLS or IFUNC)"
    WrongType = 6,
    /// "not in the target row (24 and 25 only)"
    NotInTarget = 7,
}

/// One entry of the symbol table.
#[derive(Clone, Copy, PartialEq, Eq, Debug)]
pub struct Symbol {
    pub value: u64,
    pub binding: u8,
    pub kind: u8,
    pub section: u16,
}

/// The bytes of a SYMTAB section that passed check 5.
#[derive(Clone, Copy, Debug)]
pub struct SymbolTable<'a> {
    class: Class,
    entries: &'a [u8],
}

impl<'a> SymbolTable<'a> {
    pub fn new(class: Class, entries: &'a [u8]) -> SymbolTable<'a> {
        SymbolTable { class, entries }
    }

    /// The symbol with this index; `None` for "an index past the table".
    pub fn get(&self, index: u32) -> Option<Symbol> {
        let layout = self.class.layout();
        let start = index as usize * layout.symbol_size;
        let entry = self.entries.get(start..start + layout.symbol_size)?;
        let info = entry[layout.st_info];
        Some(Symbol {
            value: self.class.number_at(entry, layout.st_value)?,
            binding: info / 16,
            kind: info % 16,
            section: u16_at(entry, layout.st_shndx)?,
        })
    }
}

/// What S depends on: the object, where its sections are placed, and the
/// order's external values.
#[derive(Clone, Copy, Debug)]
pub struct Symbols<'a> {
    pub object: &'a Object<'a>,
    pub addresses: Addresses,
    pub external_values: &'a [ExternalValue],
}

impl Symbols<'_> {
    /// S, from 0 to 2^32 - 1, or to 2^64 - 1; or why the symbol does "not
    /// resolve".
    pub fn value(&self, index: u32) -> Result<Whole, Reason> {
        // "0 for symbol 0, whatever its entry holds and even in an empty table"
        if index == 0 {
            return Ok(0);
        }
        let symbol = self.entry(index).ok_or(Reason::PastTable)?;
        let value = match symbol.section {
            UNDEFINED => self.undefined_value(index, symbol)?,
            ABSOLUTE => Whole::from(symbol.value),
            COMMON => return Err(Reason::Common),
            FIRST_RESERVED.. => return Err(Reason::Reserved),
            section => self.placed_value(section, symbol)?,
        };
        // "types TLS 6 and IFUNC 10 do not resolve", and this is the last of the
        // reasons of a lookup.
        match symbol.kind {
            TLS | IFUNC => Err(Reason::WrongType),
            _ => Ok(value),
        }
    }

    /// The entry of a symbol in the object's table.
    pub fn entry(&self, index: u32) -> Option<Symbol> {
        self.object.symbol_table()?.get(index)
    }

    /// "for an undefined symbol the order's value, else 0 if weak (binding 2)"
    fn undefined_value(&self, index: u32, symbol: Symbol) -> Result<Whole, Reason> {
        let mut values = self.external_values.iter();
        match values.find(|external| external.symbol == index) {
            Some(external) => Ok(Whole::from(external.value)),
            None if symbol.binding == WEAK => Ok(0),
            None => Err(Reason::Undefined),
        }
    }

    /// "placed address plus value modulo 2^32 for a symbol of an allocated row",
    /// or modulo 2^64
    fn placed_value(&self, section: u16, symbol: Symbol) -> Result<Whole, Reason> {
        let row = self.object.section(u32::from(section));
        if !row.is_some_and(Section::is_allocated) {
            return Err(Reason::NotAllocated);
        }
        let address = self.addresses[usize::from(section)];
        let sum = Whole::from(address.0) + Whole::from(symbol.value);
        Ok(sum.rem_euclid(self.object.class().address_end()))
    }
}
