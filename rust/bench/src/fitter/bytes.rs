//! Little-endian numbers in entries of fixed length. The place of a number is
//! known when the program is built, so that no bound is checked when it runs.

#[inline(always)]
pub fn u16_at<const LENGTH: usize>(entry: &[u8; LENGTH], at: usize) -> u16 {
    u16::from_le_bytes([entry[at], entry[at + 1]])
}

#[inline(always)]
pub fn u32_at<const LENGTH: usize>(entry: &[u8; LENGTH], at: usize) -> u32 {
    u32::from_le_bytes([entry[at], entry[at + 1], entry[at + 2], entry[at + 3]])
}

#[inline(always)]
pub fn u64_at<const LENGTH: usize>(entry: &[u8; LENGTH], at: usize) -> u64 {
    u64::from(u32_at(entry, at + 4)) << 32 | u64::from(u32_at(entry, at))
}

/// The number of two bytes at a place that is known only now.
#[inline(always)]
pub fn half_at(bytes: &[u8], at: usize) -> Option<u16> {
    let found = bytes.get(at..at + 2)?;
    Some(u16::from_le_bytes([found[0], found[1]]))
}

/// The number of eight bytes at a place that is known only now.
#[inline(always)]
pub fn double_word_at(bytes: &[u8], at: usize) -> Option<u64> {
    let found = bytes.get(at..at + 8)?;
    found.first_chunk().copied().map(u64::from_le_bytes)
}
