//! How much stack a call needs: it is made on a stack of its own, every byte of
//! which is known before.

use std::arch::asm;

/// The bytes of that stack.
const SIZE: usize = 1 << 20;

type Call<'a> = &'a mut dyn FnMut();

extern "C" fn make(call: *mut Call) {
    // SAFETY: `on_own_stack` passes a pointer to a call that lives on.
    unsafe { (*call)() }
}

/// Makes a call on a stack that ends at `top`.
fn on_own_stack(mut call: Call, top: *mut u8) {
    // SAFETY: `top` is aligned to 16 bytes, SIZE bytes below it are writable and
    // nobody else's, and the register that keeps the old stack is one that the
    // call preserves. `make` does not unwind.
    unsafe {
        asm!(
            "mov r12, rsp",
            "mov rsp, {top}",
            "call {make}",
            "mov rsp, r12",
            top = in(reg) top,
            make = in(reg) make as extern "C" fn(*mut Call),
            in("rdi") &mut call,
            out("r12") _,
            clobber_abi("C"),
        );
    }
}

/// How many bytes of a stack filled with `fill` a call reaches down to.
fn reached(call: Call, fill: u8) -> usize {
    let mut stack = vec![fill; SIZE + 16];
    let end = stack.as_mut_ptr_range().end;
    // SAFETY: at most 15 bytes back from the end.
    let top = unsafe { end.sub(end as usize % 16) };
    on_own_stack(call, top);
    let untouched = stack.iter().position(|byte| *byte != fill);
    stack.len() - untouched.unwrap_or(stack.len())
}

/// How many bytes of stack a call needs. It is made twice, so that no byte
/// passes for untouched because the call wrote what was there.
pub fn needed(call: Call) -> usize {
    reached(call, 0x5A).max(reached(call, 0xA5))
}
