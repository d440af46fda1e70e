//! The journal (document 01: ledger): its soundness (check 1), its room (check
//! 15), saving a span, and writing the newest one back.

use super::bytes::u32_at;

const MAX_ENTRIES: usize = 16;
/// Where count k is.
const K_AT: usize = 132;
/// Where the old bytes start.
const HEAD: usize = 136;

/// Document 01: span. The start counts from the image's first byte.
#[derive(Clone, Copy)]
pub struct Span {
    pub start: usize,
    pub length: usize,
}

/// The two counts of a sound journal.
pub struct Journal {
    entries: usize,
    old_bytes: usize,
}

impl Journal {
    /// `None` where the journal is not sound.
    pub fn read(journal: &[u8], image_length: usize) -> Option<Journal> {
        let head: &[u8; HEAD] = journal.first_chunk()?;
        let entries = u32_at(head, 0) as usize;
        let old_bytes = u64::from(u32_at(head, K_AT));
        if entries > MAX_ENTRIES || HEAD as u64 + old_bytes > journal.len() as u64 {
            return None;
        }
        let (used, unused) = head[4..K_AT].split_at(8 * entries);
        let mut sum = 0;
        for entry in used.as_chunks::<8>().0 {
            let (start, length) = (u64::from(u32_at(entry, 0)), u64::from(u32_at(entry, 4)));
            if start + length > image_length as u64 {
                return None;
            }
            sum += length;
        }
        let is_sound = sum == old_bytes && unused.iter().all(|byte| *byte == 0);
        is_sound.then_some(Journal {
            entries,
            old_bytes: old_bytes as usize,
        })
    }

    pub fn has_room_for(&self, span: Span, journal_length: usize) -> bool {
        self.entries < MAX_ENTRIES && HEAD + self.old_bytes + span.length <= journal_length
    }

    /// Appends the span's old bytes. There is room for them.
    pub fn save(&self, journal: &mut [u8], span: Span, image: &[u8]) {
        let free = HEAD + self.old_bytes;
        let old = &image[span.start..span.start + span.length];
        journal[free..free + span.length].copy_from_slice(old);
        write_entry(journal, self.entries, span);
        write_counts(journal, self.entries + 1, self.old_bytes + span.length);
    }

    /// The span of the newest install that stands, if one does.
    pub fn newest(&self, journal: &[u8]) -> Option<Span> {
        let at = entry_at(self.entries.checked_sub(1)?);
        let entry: &[u8; 8] = journal[at..].first_chunk()?;
        Some(Span {
            start: u32_at(entry, 0) as usize,
            length: u32_at(entry, 4) as usize,
        })
    }

    /// Writes the newest span's old bytes back, and releases them.
    pub fn undo(&self, journal: &mut [u8], newest: Span, image: &mut [u8]) {
        let kept = self.old_bytes - newest.length;
        let released = &mut journal[HEAD + kept..HEAD + self.old_bytes];
        image[newest.start..newest.start + newest.length].copy_from_slice(released);
        released.fill(0);
        let none = Span {
            start: 0,
            length: 0,
        };
        write_entry(journal, self.entries - 1, none);
        write_counts(journal, self.entries - 1, kept);
    }
}

fn entry_at(entry: usize) -> usize {
    4 + 8 * entry
}

fn write_entry(journal: &mut [u8], entry: usize, span: Span) {
    let at = entry_at(entry);
    journal[at..at + 4].copy_from_slice(&(span.start as u32).to_le_bytes());
    journal[at + 4..at + 8].copy_from_slice(&(span.length as u32).to_le_bytes());
}

fn write_counts(journal: &mut [u8], entries: usize, old_bytes: usize) {
    journal[..4].copy_from_slice(&(entries as u32).to_le_bytes());
    journal[K_AT..HEAD].copy_from_slice(&(old_bytes as u32).to_le_bytes());
}
