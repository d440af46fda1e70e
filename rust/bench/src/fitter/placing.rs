//! Placements against sections (check 6), and "Placing" (check 8).

use super::class::Class;
use super::journal::Span;
use super::object::{indexes, is_in, Object, Set, MAX_SECTIONS};
use super::order::Order;

/// The address of each allocated section.
pub type Addresses = [u64; MAX_SECTIONS];

/// Check 6: the addresses, or the lowest section that is only allocated or only
/// placed.
pub fn addresses<C: Class>(object: &Object<C>, order: &Order<C>) -> Result<Addresses, u32> {
    let mut addresses = [0; MAX_SECTIONS];
    let (mut placed, mut beyond): (Set, _) = (0, None);
    for (section, address) in order.placements() {
        match addresses.get_mut(section as usize) {
            Some(place) => {
                *place = address;
                placed |= 1 << section;
            }
            // The list ascends, so that the first is the lowest.
            None => beyond = beyond.or(Some(section)),
        }
    }
    match (placed ^ object.allocated, beyond) {
        (0, None) => Ok(addresses),
        (0, Some(section)) => Err(section),
        (differing, _) => Err(differing.trailing_zeros()),
    }
}

/// The addresses that the image covers. The window has passed check 3.
#[derive(Clone, Copy)]
pub struct Window {
    pub base: u64,
    pub length: u64,
}

/// Check 8: the span of what will be loaded, or the lowest section that is
/// wrongly placed. A section's range goes from its first address to its last, so
/// that no end is past all addresses.
pub fn check<C: Class>(
    object: &Object<C>,
    addresses: &Addresses,
    window: Window,
) -> Result<Span, u32> {
    let mut ranges = [(0, 0); MAX_SECTIONS];
    let mut count = 0;
    let (mut lowest, mut highest) = (u64::MAX, 0);
    for index in indexes(object.allocated) {
        let section = object.section(index);
        let (start, size) = (addresses[index], section.size());
        let mut holds = start & section.alignment().saturating_sub(1) == 0;
        if size > 0 {
            let room = C::LAST_ADDRESS - start;
            let last = start + room.min(size - 1);
            holds &= size - 1 <= room;
            let meets = |other: &(u64, u64)| start <= other.1 && other.0 <= last;
            holds &= !ranges[..count].iter().any(meets);
            ranges[count] = (start, last);
            count += 1;
            if is_in(object.loaded, index) {
                let behind = last.wrapping_sub(window.base);
                holds &= window.base <= start && behind < window.length;
                (lowest, highest) = (lowest.min(start), highest.max(last));
            }
        }
        if !holds {
            return Err(index as u32);
        }
    }
    Ok(match lowest <= highest {
        true => Span {
            start: (lowest - window.base) as usize,
            length: (highest - lowest) as usize + 1,
        },
        false => Span {
            start: 0,
            length: 0,
        },
    })
}
