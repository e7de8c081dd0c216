//! A host without std: the status is the refusal of an empty card.
#![no_std]
#![no_main]

use core::panic::PanicInfo;

#[no_mangle]
pub extern "C" fn main() -> i32 {
    linkage::Card::new(&[]).map_or_else(|refusal| refusal.number() as i32, |_| 0)
}

#[panic_handler]
fn panic(_: &PanicInfo) -> ! {
    loop {}
}

/// Core's code for unwinding names it; nothing unwinds here.
#[no_mangle]
pub extern "C" fn rust_eh_personality() {}
