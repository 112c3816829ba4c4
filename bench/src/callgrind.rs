//! What this program says to valgrind's callgrind, by which it runs itself: count from here, and write the count. Outside valgrind
//! the instructions of a request change nothing.

use std::arch::asm;
use std::hint::black_box;

// The requests of callgrind, as valgrind/callgrind.h numbers them.
const BASE: u64 = (b'C' as u64) << 24 | (b'T' as u64) << 16;
const WRITE: u64 = BASE;
const FROM_ZERO: u64 = BASE + 1;
const BEGIN: u64 = BASE + 4;

/// Counts what is done in between, and writes a file of it.
pub fn counted(work: impl FnOnce() -> u64) {
    request(BEGIN);
    request(FROM_ZERO);
    black_box(work());
    request(WRITE);
}

/// A request, as valgrind/valgrind.h makes it: instructions that do nothing, which valgrind knows.
#[cfg(target_arch = "x86_64")]
fn request(number: u64) {
    let words = [number, 0, 0, 0, 0, 0];
    // In bounds: valgrind reads the six words and writes one register.
    unsafe {
        asm!("rol rdi, 3", "rol rdi, 13", "rol rdi, 61", "rol rdi, 51", "xchg rbx, rbx",
            in("rax") words.as_ptr(), inout("rdx") 0u64 => _);
    }
}

#[cfg(target_arch = "aarch64")]
fn request(number: u64) {
    let words = [number, 0, 0, 0, 0, 0];
    // In bounds: valgrind reads the six words and writes one register.
    unsafe {
        asm!("ror x12, x12, #3", "ror x12, x12, #13", "ror x12, x12, #51", "ror x12, x12, #61", "orr x10, x10, x10",
            in("x4") words.as_ptr(), inout("x3") 0u64 => _);
    }
}
