//! The linkage table's calls as they stand in liblinkage.a, and the floating-point environment that they need. The package `linkage` is the safe form.
//!
//! What each call takes and answers is said in `linkage.h`.
#![no_std]

#[cfg(not(target_arch = "x86_64"))]
compile_error!("liblinkage.a is for x86-64");

use core::arch::asm;

extern "C" {
    pub fn linkage_check(card: *const u8, card_bytes: usize) -> u32;
    pub fn linkage_sizes(
        card: *const u8,
        card_bytes: usize,
        bodies: *mut u32,
        joints: *mut u32,
        numbers: *mut u32,
    ) -> u32;
    pub fn linkage_start(
        card: *const u8,
        card_bytes: usize,
        state: *mut f32,
        state_numbers: usize,
    ) -> u32;
    pub fn linkage_tick(
        card: *const u8,
        card_bytes: usize,
        state: *mut f32,
        state_numbers: usize,
    ) -> u32;
    pub fn linkage_run(
        card: *const u8,
        card_bytes: usize,
        state: *mut f32,
        state_numbers: usize,
        ticks: u32,
        done: *mut u32,
    ) -> u32;
    pub fn linkage_to_edition_1(
        card: *const u8,
        card_bytes: usize,
        out: *mut u8,
        out_bytes: usize,
        length: *mut u32,
    ) -> u32;
    pub fn linkage_to_edition_2(
        card: *const u8,
        card_bytes: usize,
        out: *mut u8,
        out_bytes: usize,
        length: *mut u32,
    ) -> u32;
}

/// The environment of the calls, from `enter` until this is dropped: round to nearest, flush-to-zero and denormals-are-zero off, exceptions masked.
///
/// It is Rust's own, so that this changes nothing but where other code left another one.
pub struct Environment {
    before: u32,
}

const MXCSR: u32 = 0x1f80;

impl Environment {
    pub fn enter() -> Environment {
        let mut before = 0;
        // SAFETY: both addresses are those of a u32, and the register gets what Rust has in it.
        unsafe {
            asm!("stmxcsr [{}]", in(reg) &mut before, options(nostack));
            asm!("ldmxcsr [{}]", in(reg) &MXCSR, options(nostack));
        }
        Environment { before }
    }
}

impl Drop for Environment {
    fn drop(&mut self) {
        // SAFETY: the register gets what was in it.
        unsafe { asm!("ldmxcsr [{}]", in(reg) &self.before, options(nostack)) }
    }
}
