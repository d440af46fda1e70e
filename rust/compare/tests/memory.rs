//! The watched memory itself: what lies beside a buffer is seen to change, and
//! a byte past an inaccessible page's border ends the process.

use std::env;
use std::os::unix::process::ExitStatusExt;
use std::process::Command;

use compare::arena::{Arena, Layout, GUARD};

const SIGSEGV: i32 = 11;
/// Says to `touch` on which side it reads.
const SIDE: &str = "COMPARE_TOUCH";

/// The byte this many bytes from the buffer's start.
fn beside(arena: &mut Arena, distance: isize) -> *mut u8 {
    arena.bytes_mut().as_mut_ptr().wrapping_offset(distance)
}

#[test]
fn buffers_hold_their_bytes() {
    let mut arena = Arena::new();
    for layout in Layout::ALL {
        for length in [0, 1, 4_095, 4_096, 1_048_576, 1_100_000] {
            let bytes: Vec<u8> = (0..length).map(|at| at as u8).collect();
            arena.fill(&bytes, layout);
            assert_eq!(arena.bytes(), bytes);
            assert!(arena.guards_hold());
        }
    }
}

/// Every guard byte is seen, on each side that has some.
#[test]
fn guard_bytes_are_watched() {
    let mut arena = Arena::new();
    let guard = GUARD as isize;
    for (layout, sides) in [
        (Layout::Between, [-guard..0, 5..5 + guard]),
        (Layout::BeforePage, [-guard..0, 0..0]),
        (Layout::AfterPage, [0..0, 5..5 + guard]),
    ] {
        for distance in sides.into_iter().flatten() {
            arena.fill(&[1, 2, 3, 4, 5], layout);
            // SAFETY: a guard byte lies in the arena's room.
            unsafe { *beside(&mut arena, distance) ^= 1 };
            assert!(!arena.guards_hold(), "{layout:?}, {distance}");
            assert_eq!(arena.bytes(), [1, 2, 3, 4, 5]);
        }
    }
}

/// Runs only in a process of its own, which it ends.
#[test]
#[ignore = "started by pages_are_inaccessible"]
fn touch() {
    let mut arena = Arena::new();
    let (layout, distance) = match env::var(SIDE).as_deref() {
        Ok("before") => (Layout::AfterPage, -1),
        Ok("behind") => (Layout::BeforePage, 3),
        _ => return,
    };
    arena.fill(&[1, 2, 3], layout);
    // SAFETY: a byte of the arena's own mapping; the read faults, as it should.
    let byte = unsafe { beside(&mut arena, distance).read_volatile() };
    println!("read {byte}");
}

#[test]
fn pages_are_inaccessible() {
    for side in ["before", "behind", "nowhere"] {
        let status = Command::new(env::current_exe().expect("this test"))
            .args(["touch", "--exact", "--ignored"])
            .env(SIDE, side)
            .output()
            .expect("it starts")
            .status;
        let expected = (side != "nowhere").then_some(SIGSEGV);
        assert_eq!(status.signal(), expected, "{side}");
    }
}
