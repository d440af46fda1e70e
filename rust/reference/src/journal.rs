//! The journal (document 01: ledger): its soundness (check 1), its room (check
//! 15), whether a fit stands (check 16), saving a span and writing it back.
//!
//! Its bytes: count n, 16 entries of start and length, count k, k old bytes.

use crate::numbers::{u32_at, write_number};

/// Document 01: count n is 0 to 16.
pub const MAX_ENTRIES: usize = 16;
/// Where count k is.
const K_AT: usize = 132;
/// Where the old bytes start. "136 + k"
pub const OLD_BYTES_AT: usize = 136;

/// Document 01: span, of one fit. The start counts from the image's first
/// byte.
#[derive(Clone, Copy, PartialEq, Eq, Debug)]
pub struct Span {
    pub start: u32,
    pub length: u32,
}

impl Span {
    /// "with none laid it is start 0, length 0"
    pub const NONE: Span = Span {
        start: 0,
        length: 0,
    };

    fn start_and_end(&self) -> (usize, usize) {
        let start = self.start as usize;
        (start, start + self.length as usize)
    }

    fn lies_inside(&self, image_length: usize) -> bool {
        u64::from(self.start) + u64::from(self.length) <= image_length as u64
    }
}

/// What a sound journal says.
#[derive(Clone, PartialEq, Eq, Debug)]
pub struct Standing {
    /// The spans of the standing installs, oldest first: n of them.
    pub spans: Vec<Span>,
    /// Document 01: k.
    pub old_bytes: usize,
}

impl Standing {
    /// Check 1: `None` where "ledger unsound".
    pub fn read(journal: &[u8], image_length: usize) -> Option<Standing> {
        let n = u32_at(journal, 0)? as usize;
        let k = u64::from(u32_at(journal, K_AT)?);
        if n > MAX_ENTRIES {
            return None;
        }
        let mut spans: Vec<Span> = (0..MAX_ENTRIES)
            .filter_map(|entry| read_entry(journal, entry))
            .collect();
        let unused = spans.split_off(n);
        let sum: u64 = spans.iter().map(|span| u64::from(span.length)).sum();
        let sound = unused.iter().all(|span| *span == Span::NONE)
            && k == sum
            && OLD_BYTES_AT as u64 + k <= journal.len() as u64
            && spans.iter().all(|span| span.lies_inside(image_length));
        sound.then_some(Standing {
            spans,
            old_bytes: k as usize,
        })
    }

    /// Check 15 is broken if "n is 16, or 136 + k + span above ledger length".
    pub fn has_room_for(&self, span: Span, journal_length: usize) -> bool {
        let needed = OLD_BYTES_AT as u64 + self.old_bytes as u64 + u64::from(span.length);
        self.spans.len() != MAX_ENTRIES && needed <= journal_length as u64
    }
}

/// "A fit appends the span's old bytes." Check 15 has passed.
pub(crate) fn save(journal: &mut [u8], standing: &Standing, span: Span, image: &[u8]) {
    let (start, end) = span.start_and_end();
    let free = OLD_BYTES_AT + standing.old_bytes;
    journal[free..free + (end - start)].copy_from_slice(&image[start..end]);
    write_entry(journal, standing.spans.len(), span);
    write_counts(
        journal,
        standing.spans.len() + 1,
        standing.old_bytes + (end - start),
    );
}

/// "A taking-back writes them back, zeroes the entry and the released bytes,
/// and lowers n and k." Nothing happens where no install stands (check 16).
pub(crate) fn undo(journal: &mut [u8], standing: &Standing, image: &mut [u8]) {
    let Some((newest, older)) = standing.spans.split_last() else {
        return;
    };
    let (start, end) = newest.start_and_end();
    let kept = standing.old_bytes - (end - start);
    let released = OLD_BYTES_AT + kept..OLD_BYTES_AT + standing.old_bytes;
    image[start..end].copy_from_slice(&journal[released.clone()]);
    journal[released].fill(0);
    write_entry(journal, older.len(), Span::NONE);
    write_counts(journal, older.len(), kept);
}

fn entry_at(entry: usize) -> usize {
    4 + 8 * entry
}

fn read_entry(journal: &[u8], entry: usize) -> Option<Span> {
    let at = entry_at(entry);
    Some(Span {
        start: u32_at(journal, at)?,
        length: u32_at(journal, at + 4)?,
    })
}

fn write_entry(journal: &mut [u8], entry: usize, span: Span) {
    let at = entry_at(entry);
    write_number(&mut journal[at..at + 4], u64::from(span.start));
    write_number(&mut journal[at + 4..at + 8], u64::from(span.length));
}

fn write_counts(journal: &mut [u8], n: usize, k: usize) {
    write_number(&mut journal[0..4], n as u64);
    write_number(&mut journal[K_AT..OLD_BYTES_AT], k as u64);
}
