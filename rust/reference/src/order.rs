//! The order's format (check 2) and the window (check 3).

use crate::class::Class;
use crate::numbers::{Address, Unread, Whole};
use crate::object::MAX_SECTIONS;
use crate::symbol::MAX_SYMBOLS;
use crate::MAX_BYTES;

/// One address for one section. Document 01: placement, of a row.
#[derive(Clone, Copy, PartialEq, Eq, Debug)]
pub struct Placement {
    pub section: u32,
    pub address: Address,
}

/// One value for one undefined symbol. Document 01: outside value.
#[derive(Clone, Copy, PartialEq, Eq, Debug)]
pub struct ExternalValue {
    pub symbol: u32,
    pub value: u64,
}

/// An order whose bytes passed check 2.
#[derive(Clone, PartialEq, Eq, Debug)]
pub struct Order {
    pub base: Address,
    pub placements: Vec<Placement>,
    pub external_values: Vec<ExternalValue>,
}

impl Order {
    /// Check 2: `None` where "order bytes malformed". The class is the object's.
    pub fn read(bytes: &[u8], class: Class) -> Option<Order> {
        let mut rest = Unread(bytes);
        let base = rest.window_base(class)?;
        let placements = rest.ascending_pairs(MAX_SECTIONS as u32, class)?;
        let external_values = rest.ascending_pairs(MAX_SYMBOLS, class)?;
        rest.end()?;
        let placement = |(section, address)| Placement {
            section,
            address: Address(address),
        };
        let external_value = |(symbol, value)| ExternalValue { symbol, value };
        Some(Order {
            base,
            placements: placements.into_iter().map(placement).collect(),
            external_values: external_values.into_iter().map(external_value).collect(),
        })
    }
}

/// "sections in a fixed order, each after its u32 count". "The order's base,
/// addresses and values become u64" for an object of class 2.
impl Unread<'_> {
    /// "window base (count 1; one u32)"
    fn window_base(&mut self, class: Class) -> Option<Address> {
        let count = self.next_u32()?;
        let base = self.next_number(class)?;
        (count == 1).then_some(Address(base))
    }

    /// A list of an index and a number each. "Both lists strictly ascending by
    /// index"
    fn ascending_pairs(&mut self, limit: u32, class: Class) -> Option<Vec<(u32, u64)>> {
        let count = self.next_u32()?;
        if count > limit {
            return None;
        }
        let mut pairs = Vec::new();
        for _ in 0..count {
            pairs.push((self.next_u32()?, self.next_number(class)?));
        }
        let ascending = pairs.windows(2).all(|two| two[0].0 < two[1].0);
        ascending.then_some(pairs)
    }
}

/// "the image covers base up to base + its length"
#[derive(Clone, Copy, PartialEq, Eq, Debug)]
pub struct Window {
    base: Address,
    length: Whole,
}

impl Window {
    /// Check 3: `None` where "window rule broken". "length 0 to 65,536, end at
    /// most 2^32", or 2^64; now up to 1,048,576.
    pub fn new(base: Address, image_length: usize, class: Class) -> Option<Window> {
        if !is_allowed_length(image_length) {
            return None;
        }
        let length = image_length as Whole;
        let ends_in_time = Whole::from(base.0) + length <= class.address_end();
        ends_in_time.then_some(Window { base, length })
    }

    /// Whether `size` bytes from `address` on all lie in the window.
    pub fn covers(&self, address: Address, size: u64) -> bool {
        let start = self.position(address);
        0 <= start && start + Whole::from(size) <= self.length
    }

    /// Where an address lies, counted from the image's first byte.
    pub fn position(&self, address: Address) -> Whole {
        Whole::from(address.0) - Whole::from(self.base.0)
    }
}

/// Check 3 of a rollback: "3 (length only)".
pub fn is_allowed_length(image_length: usize) -> bool {
    image_length <= MAX_BYTES
}
