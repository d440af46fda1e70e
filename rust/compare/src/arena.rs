//! Memory with watched ends: pages between two that can be neither read nor
//! written, so that an access past them stops the process.

use std::ffi::c_void;
use std::ops::Range;
use std::ptr::null_mut;
use std::slice;

const PAGE: usize = 4_096;
/// The bytes between the two pages: enough for a list of calls with buffers
/// that are too long.
pub const ROOM: usize = 2_048 * PAGE;
/// How many bytes beside a buffer are watched.
pub const GUARD: usize = 64;

const PROT_NONE: i32 = 0;
const PROT_READ_WRITE: i32 = 3;
const MAP_PRIVATE_ANONYMOUS: i32 = 0x22;

extern "C" {
    fn mmap(
        at: *mut c_void,
        length: usize,
        prot: i32,
        flags: i32,
        fd: i32,
        from: i64,
    ) -> *mut c_void;
    fn mprotect(at: *mut c_void, length: usize, prot: i32) -> i32;
    fn munmap(at: *mut c_void, length: usize) -> i32;
}

/// Where a buffer lies between the two pages.
#[derive(Clone, Copy, PartialEq, Eq, Debug)]
pub enum Layout {
    /// With guard bytes on both sides.
    Between,
    /// Its end is the inaccessible page's start; guard bytes before it.
    BeforePage,
    /// Its start is the inaccessible page's end; guard bytes behind it.
    AfterPage,
}

impl Layout {
    pub const ALL: [Layout; 3] = [Layout::Between, Layout::BeforePage, Layout::AfterPage];
}

/// One buffer at a time, with what lies around it.
pub struct Arena {
    /// The first byte between the two pages.
    first: *mut u8,
    buffer: Range<usize>,
}

impl Arena {
    #[allow(clippy::new_without_default)]
    pub fn new() -> Arena {
        let whole = ROOM + 2 * PAGE;
        // SAFETY: a new mapping at an address that the system picks.
        let at = unsafe { mmap(null_mut(), whole, PROT_NONE, MAP_PRIVATE_ANONYMOUS, -1, 0) };
        assert_ne!(at as isize, -1, "memory can be mapped");
        // SAFETY: one page into the mapping, which is two pages longer.
        let first = unsafe { at.cast::<u8>().add(PAGE) };
        // SAFETY: whole pages of that mapping, to which nothing points yet.
        let done = unsafe { mprotect(first.cast(), ROOM, PROT_READ_WRITE) };
        assert_eq!(done, 0, "the pages between can be used");
        Arena {
            first,
            buffer: 0..0,
        }
    }

    /// All bytes between the two pages.
    fn room(&self) -> &[u8] {
        // SAFETY: `ROOM` bytes of a mapping that is this arena's alone, zero at
        // first, readable and writable while the arena is there.
        unsafe { slice::from_raw_parts(self.first, ROOM) }
    }

    fn room_mut(&mut self) -> &mut [u8] {
        // SAFETY: as above, and lent from a mutable arena.
        unsafe { slice::from_raw_parts_mut(self.first, ROOM) }
    }

    /// Makes a buffer with these bytes, and guard bytes beside it.
    pub fn fill(&mut self, bytes: &[u8], layout: Layout) {
        assert!(
            bytes.len() + 2 * GUARD <= ROOM,
            "a buffer of at most the room"
        );
        let start = match layout {
            Layout::Between => GUARD,
            Layout::BeforePage => ROOM - bytes.len(),
            Layout::AfterPage => 0,
        };
        self.buffer = start..start + bytes.len();
        for at in self.guards() {
            self.room_mut()[at] = guard_byte(at);
        }
        let buffer = self.buffer.clone();
        self.room_mut()[buffer].copy_from_slice(bytes);
    }

    /// Where the guard bytes are: none where the inaccessible page is.
    fn guards(&self) -> impl Iterator<Item = usize> {
        let before = self.buffer.start.saturating_sub(GUARD)..self.buffer.start;
        let behind = self.buffer.end..(self.buffer.end + GUARD).min(ROOM);
        before.chain(behind)
    }

    /// Whether every guard byte is as it was made.
    pub fn guards_hold(&self) -> bool {
        let room = self.room();
        self.guards().all(|at| room[at] == guard_byte(at))
    }

    pub fn bytes(&self) -> &[u8] {
        &self.room()[self.buffer.clone()]
    }

    pub fn bytes_mut(&mut self) -> &mut [u8] {
        let buffer = self.buffer.clone();
        &mut self.room_mut()[buffer]
    }
}

impl Drop for Arena {
    fn drop(&mut self) {
        // SAFETY: the mapping that `new` made, from its first page on; nothing
        // borrows from the arena any more.
        unsafe { munmap(self.first.sub(PAGE).cast(), ROOM + 2 * PAGE) };
    }
}

/// Bytes as numbers of eight bytes each. They begin at a multiple of eight, as
/// a buffer of whole numbers does in every layout.
pub fn numbers(bytes: &mut [u8]) -> &mut [u64] {
    // SAFETY: any eight bytes are a number.
    let (before, numbers, behind) = unsafe { bytes.align_to_mut() };
    assert!(before.is_empty() && behind.is_empty(), "whole numbers");
    numbers
}

/// Bytes that differ from their neighbours.
fn guard_byte(at: usize) -> u8 {
    (at as u8).wrapping_mul(37) ^ 0xC3
}
