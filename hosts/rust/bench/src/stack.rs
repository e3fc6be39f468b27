//! How much stack a call uses: it runs on memory of our own that was painted before, and what is no longer paint was used.

/// The paint. A stack seldom has it as its last byte.
const PAINT: u8 = 0xA5;

/// Far more than any call may need; the library calls itself nowhere.
const SIZE: usize = 1 << 20;

/// The bytes of stack that a call writes to, its caller's frame included; none on a processor without a switch.
pub fn used(mut call: impl FnMut()) -> Option<usize> {
    let mut stack = vec![PAINT; SIZE];
    // SAFETY: the stack is big enough, nothing else touches it, and the call comes back before it is freed.
    unsafe { switch::run(&mut stack, &mut call)? };
    Some(stack.iter().position(|&byte| byte != PAINT).map_or(0, |lowest| SIZE - lowest))
}

#[cfg(any(target_arch = "x86_64", target_arch = "aarch64"))]
mod switch {
    use std::arch::asm;

    /// Calls the closure behind the pointer. A panic must not leave it: nothing could unwind past the switch.
    extern "C" fn enter<F: FnMut()>(call: *mut F) {
        // SAFETY: `run` hands over a closure that lives until it returns.
        unsafe { (*call)() }
    }

    /// Runs a call with the stack pointer at the end of some memory.
    ///
    /// # Safety
    /// The call needs less stack than there is memory.
    pub unsafe fn run<F: FnMut()>(stack: &mut [u8], call: &mut F) -> Option<()> {
        let entry: extern "C" fn(*mut F) = enter::<F>;
        // The calling convention asks for a multiple of 16.
        let top = (stack.as_mut_ptr_range().end as usize) & !15;
        #[cfg(target_arch = "x86_64")]
        asm!(
            "mov r12, rsp",
            "mov rsp, {top}",
            "call {entry}",
            "mov rsp, r12",
            top = in(reg) top,
            entry = in(reg) entry,
            in("rdi") call,
            out("r12") _,
            clobber_abi("C"),
        );
        #[cfg(target_arch = "aarch64")]
        asm!(
            "mov x20, sp",
            "mov sp, {top}",
            "blr {entry}",
            "mov sp, x20",
            top = in(reg) top,
            entry = in(reg) entry,
            in("x0") call,
            out("x20") _,
            clobber_abi("C"),
        );
        Some(())
    }
}

#[cfg(not(any(target_arch = "x86_64", target_arch = "aarch64")))]
mod switch {
    /// Nothing is run.
    pub unsafe fn run<F: FnMut()>(_stack: &mut [u8], _call: &mut F) -> Option<()> {
        None
    }
}

#[cfg(all(test, any(target_arch = "x86_64", target_arch = "aarch64")))]
mod tests {
    use std::hint::black_box;

    #[test]
    fn a_large_array_is_seen() {
        let empty = super::used(|| ()).expect("a switch");
        let large = super::used(|| assert!(black_box([1u8; 20_000]).len() > 1)).expect("a switch");
        assert!(empty < 1_000, "{empty}");
        assert!((20_000..70_000).contains(&large), "{large}");
    }
}
