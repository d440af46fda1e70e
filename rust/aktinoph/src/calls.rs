//! Lists of calls.

/// What a list has before a fit and before a taking-back.
const FIT: u32 = 1;
const TAKE_BACK: u32 = 2;

/// A list of calls for [`replay`](crate::replay), kept as the bytes that the
/// library reads: the count of calls; then each call, 1 for a fit and 2 for a
/// taking-back, and of a fit the object and the order, each after its length.
/// Count, kinds and lengths are four bytes, little-endian.
///
/// ```
/// use aktinoph::Calls;
///
/// let mut calls = Calls::new();
/// calls.take_back().fit(b"object", b"order");
/// assert_eq!(calls.len(), 2);
/// assert_eq!(
///     calls.as_bytes(),
///     b"\x02\0\0\0\x02\0\0\0\x01\0\0\0\x06\0\0\0object\x05\0\0\0order"
/// );
/// ```
#[derive(Clone, PartialEq, Eq, Hash, Debug)]
pub struct Calls {
    count: u32,
    /// The list's bytes, of which the first four are the count.
    bytes: Vec<u8>,
}

impl Calls {
    /// A list of no call.
    pub fn new() -> Calls {
        Calls {
            count: 0,
            bytes: 0_u32.to_le_bytes().to_vec(),
        }
    }

    /// Adds a fit of this object by this order.
    ///
    /// # Panics
    ///
    /// Where object or order has 2^32 bytes or more, or the list has 2^32 - 1
    /// calls.
    pub fn fit(&mut self, object: &[u8], order: &[u8]) -> &mut Calls {
        let lengths = [object, order].map(|part| u32::try_from(part.len()));
        let [Ok(object_length), Ok(order_length)] = lengths else {
            panic!("an object and an order of less than 2^32 bytes");
        };
        self.add(FIT);
        self.bytes.extend(object_length.to_le_bytes());
        self.bytes.extend(object);
        self.bytes.extend(order_length.to_le_bytes());
        self.bytes.extend(order);
        self
    }

    /// Adds a taking-back of the newest fit that stands.
    ///
    /// # Panics
    ///
    /// Where the list has 2^32 - 1 calls.
    pub fn take_back(&mut self) -> &mut Calls {
        self.add(TAKE_BACK);
        self
    }

    fn add(&mut self, kind: u32) {
        self.count = self.count.checked_add(1).expect("at most 2^32 - 1 calls");
        self.bytes[..4].copy_from_slice(&self.count.to_le_bytes());
        self.bytes.extend(kind.to_le_bytes());
    }

    /// How many calls the list has.
    pub fn len(&self) -> usize {
        self.count as usize
    }

    /// Whether the list has no call.
    pub fn is_empty(&self) -> bool {
        self.count == 0
    }

    /// The list's bytes, for [`replay_bytes`](crate::replay_bytes) or for a
    /// file.
    pub fn as_bytes(&self) -> &[u8] {
        &self.bytes
    }
}

impl Default for Calls {
    fn default() -> Calls {
        Calls::new()
    }
}
