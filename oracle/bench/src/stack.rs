//! How many bytes of stack a call needs: it runs on memory that was filled with a pattern, and what it overwrote is counted.

use std::arch::asm;

const SIZE: usize = 1 << 20;
const PATTERN: u8 = 0xa5;

/// Runs the closure that `work` points to.
extern "C" fn enter<F: FnMut()>(work: *mut F) {
    // SAFETY: `bytes` passes a closure that nobody else holds.
    unsafe { (*work)() }
}

/// The bytes that `work` and what it calls overwrote, with the few of the closure itself.
pub fn bytes<F: FnMut()>(mut work: F) -> usize {
    let mut memory = vec![PATTERN; SIZE];
    let end = memory.as_mut_ptr_range().end as usize & !15;
    // SAFETY: the stack pointer is moved to the end of `memory`, which outlives the call, and is moved back after it; an
    // `extern "C"` function does not unwind, and nothing else uses the memory meanwhile.
    unsafe {
        asm!(
            "mov r12, rsp",
            "mov rsp, {end}",
            "call {enter}",
            "mov rsp, r12",
            end = in(reg) end,
            enter = in(reg) enter::<F> as extern "C" fn(*mut F),
            in("rdi") &raw mut work,
            out("r12") _,
            clobber_abi("C"),
        );
    }
    let untouched = memory.iter().take_while(|byte| **byte == PATTERN).count();
    assert!(untouched > 0, "the stack is long enough");
    end - (memory.as_ptr() as usize + untouched)
}
