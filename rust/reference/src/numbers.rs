//! Little-endian numbers in byte strings, and the three kinds of place that
//! must not be mixed: "a file offset, a row offset and a run-time address are
//! three types".

use crate::class::Class;

/// A whole number, wide enough that no sum or difference of document 01 leaves
/// it; every reduction is written out.
pub type Whole = i128;

/// Counts from the object's first byte.
#[derive(Clone, Copy, PartialEq, Eq, PartialOrd, Ord, Debug)]
pub struct FileOffset(pub u64);

/// Counts from a section's first byte. Document 01: row offset.
#[derive(Clone, Copy, PartialEq, Eq, PartialOrd, Ord, Debug)]
pub struct SectionOffset(pub u64);

/// A run-time address.
#[derive(Clone, Copy, PartialEq, Eq, PartialOrd, Ord, Debug)]
pub struct Address(pub u64);

/// The number of `N` bytes at `offset`, if they are all there.
fn chunk_at<const N: usize>(bytes: &[u8], offset: usize) -> Option<[u8; N]> {
    bytes.get(offset..)?.first_chunk::<N>().copied()
}

pub fn u16_at(bytes: &[u8], offset: usize) -> Option<u16> {
    chunk_at(bytes, offset).map(u16::from_le_bytes)
}

pub fn u32_at(bytes: &[u8], offset: usize) -> Option<u32> {
    chunk_at(bytes, offset).map(u32::from_le_bytes)
}

pub fn u64_at(bytes: &[u8], offset: usize) -> Option<u64> {
    chunk_at(bytes, offset).map(u64::from_le_bytes)
}

/// The whole of up to eight bytes as one number.
pub fn number_from(bytes: &[u8]) -> u64 {
    bytes
        .iter()
        .rev()
        .fold(0, |number, byte| number * 256 + u64::from(*byte))
}

/// The lowest bytes of `number`, as many as `bytes` has.
pub fn write_number(bytes: &mut [u8], number: u64) {
    let all = number.to_le_bytes();
    let count = bytes.len();
    bytes.copy_from_slice(&all[..count]);
}

/// The bytes of a format that are not read yet.
pub(crate) struct Unread<'a>(pub(crate) &'a [u8]);

impl<'a> Unread<'a> {
    pub(crate) fn next_u32(&mut self) -> Option<u32> {
        let number = u32_at(self.0, 0)?;
        self.0 = &self.0[4..];
        Some(number)
    }

    /// A number that is as long as an address of the class.
    pub(crate) fn next_number(&mut self, class: Class) -> Option<u64> {
        let number = class.number_at(self.0, 0)?;
        self.0 = &self.0[class.address_bytes()..];
        Some(number)
    }

    pub(crate) fn next_bytes(&mut self, count: u32) -> Option<&'a [u8]> {
        let (next, rest) = self.0.split_at_checked(count as usize)?;
        self.0 = rest;
        Some(next)
    }

    /// "no byte left over"
    pub(crate) fn end(self) -> Option<()> {
        self.0.is_empty().then_some(())
    }
}
