//! Placements against sections (check 6), external values against symbols
//! (check 7), and "Placing" (check 8).

use crate::numbers::{Address, Whole};
use crate::object::{Object, Section, MAX_SECTIONS};
use crate::order::{Order, Window};
use crate::symbol::UNDEFINED;

/// "The 32 row addresses travel as one array passed by value." There are 128
/// now; only those of allocated sections mean something.
pub type Addresses = [Address; MAX_SECTIONS];

/// Check 6: "placements differ from allocated rows", at the "lowest row in one
/// only".
pub fn lowest_differing_section(object: &Object, order: &Order) -> Option<u32> {
    let allocated: Vec<u32> = object.allocated().map(|(index, _)| index as u32).collect();
    let placed: Vec<u32> = order.placements.iter().map(|p| p.section).collect();
    let only_allocated = allocated.iter().filter(|index| !placed.contains(index));
    let only_placed = placed.iter().filter(|index| !allocated.contains(index));
    only_allocated.chain(only_placed).min().copied()
}

/// Check 7: "outside value for a wrong symbol", at the "lowest such symbol".
/// The list is ascending, so the first is the lowest.
pub fn lowest_wrong_external(object: &Object, order: &Order) -> Option<u32> {
    let mut symbols = order.external_values.iter().map(|value| value.symbol);
    symbols.find(|symbol| !is_undefined(object, *symbol))
}

/// "undefined symbols (section 0, index above 0)"
fn is_undefined(object: &Object, symbol: u32) -> bool {
    let entry = object.symbol_table().and_then(|table| table.get(symbol));
    symbol > 0 && entry.is_some_and(|entry| entry.section == UNDEFINED)
}

/// The addresses that an order gives. Check 6 has passed, so that each
/// placement names a section of the table.
pub fn addresses(order: &Order) -> Addresses {
    let mut addresses = [Address(0); MAX_SECTIONS];
    for placement in &order.placements {
        addresses[placement.section as usize] = placement.address;
    }
    addresses
}

/// Check 8: the lowest section that is wrongly placed.
pub fn lowest_misplaced(object: &Object, addresses: Addresses, window: Window) -> Option<u32> {
    let (index, _) = object.allocated().find(|(index, section)| {
        let address = addresses[*index];
        !is_aligned(section, address)
            || end(section, address) > object.class().address_end()
            || (has_loaded_bytes(section) && !window.covers(address, section.size))
            || meets_lower_section(object, addresses, *index)
    })?;
    Some(index as u32)
}

/// "an address is a multiple of the row's alignment (0 counts as 1)"
fn is_aligned(section: &Section, address: Address) -> bool {
    address.0.is_multiple_of(section.alignment.max(1))
}

/// The first address behind a section. "the row ends at or below 2^32", or 2^64
fn end(section: &Section, address: Address) -> Whole {
    Whole::from(address.0) + Whole::from(section.size)
}

/// "a laid row of size above 0"
pub fn has_loaded_bytes(section: &Section) -> bool {
    section.is_loaded() && section.size > 0
}

/// "two rows of size above 0 share no address, the higher row being at fault"
fn meets_lower_section(object: &Object, addresses: Addresses, higher: usize) -> bool {
    let range = |index: usize, section: &Section| {
        let start = Whole::from(addresses[index].0);
        (start, end(section, addresses[index]))
    };
    let this = &object.sections()[higher];
    let (start, behind) = range(higher, this);
    let mut lower = object.allocated().take_while(|(index, _)| *index < higher);
    lower.any(|(index, section)| {
        let (other_start, other_behind) = range(index, section);
        this.size > 0 && section.size > 0 && start < other_behind && other_start < behind
    })
}
