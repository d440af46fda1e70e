//! The order's format (check 2) and the window (check 3).

use super::class::Class;
use super::MAX_BYTES;

const MAX_PLACEMENTS: u32 = 128;
const MAX_EXTERNAL_VALUES: u32 = 8_192;

/// An order whose bytes are well formed.
pub struct Order<'a, C: Class> {
    pub base: u64,
    placements: &'a [C::Pair],
    external_values: &'a [C::Pair],
}

impl<'a, C: Class> Order<'a, C> {
    /// `None` where the bytes are malformed.
    pub fn read(bytes: &'a [u8]) -> Option<Order<'a, C>> {
        let (count, rest) = read_u32(bytes)?;
        let (base, rest) = C::split_number(rest)?;
        let (placements, rest) = read_pairs::<C>(rest, MAX_PLACEMENTS)?;
        let (external_values, rest) = read_pairs::<C>(rest, MAX_EXTERNAL_VALUES)?;
        (count == 1 && rest.is_empty()).then_some(Order {
            base,
            placements,
            external_values,
        })
    }

    /// Sections and their addresses, upward.
    pub fn placements(&self) -> impl Iterator<Item = (u32, u64)> + use<'a, C> {
        self.placements.iter().map(C::pair)
    }

    /// Symbols and their values, upward.
    pub fn external_values(&self) -> impl Iterator<Item = (u32, u64)> + use<'a, C> {
        self.external_values.iter().map(C::pair)
    }
}

fn read_u32(bytes: &[u8]) -> Option<(u32, &[u8])> {
    let (number, rest) = bytes.split_first_chunk()?;
    Some((u32::from_le_bytes(*number), rest))
}

/// A list after its count, strictly ascending by index, and what follows it.
fn read_pairs<C: Class>(bytes: &[u8], limit: u32) -> Option<(&[C::Pair], &[u8])> {
    let (count, rest) = read_u32(bytes)?;
    if count > limit {
        return None;
    }
    let (pairs, rest) = C::split_pairs(rest, count as usize)?;
    // All neighbours are compared without a branch between them.
    let neighbours = pairs.iter().zip(pairs.get(1..).unwrap_or_default());
    let ascends = neighbours.fold(true, |ascends, (lower, higher)| {
        ascends & (C::pair(lower).0 < C::pair(higher).0)
    });
    ascends.then_some((pairs, rest))
}

/// Check 3: the length is not above the limit, "end at most 2^32", or 2^64.
pub fn is_allowed_window<C: Class>(base: u64, image_length: usize) -> bool {
    image_length <= MAX_BYTES && (image_length as u64).saturating_sub(1) <= C::LAST_ADDRESS - base
}
