//! Asks callgrind, where the program runs under it, to count from here on and to write down what it
//! has counted.

use std::arch::asm;

/// Callgrind's requests begin with its two letters.
const CALLGRIND: u64 = (b'C' as u64) << 24 | (b'T' as u64) << 16;
const DUMP: u64 = CALLGRIND;
const ZERO: u64 = CALLGRIND + 1;

/// Valgrind knows a request by these instructions, which do nothing: the register has its bits
/// again after 128 rotations.
fn request(request: u64) {
    let words = [request, 0, 0, 0, 0, 0];
    // SAFETY: the instructions change no register; valgrind reads `words` and answers in rdx.
    unsafe {
        asm!(
            "rol rdi, 3",
            "rol rdi, 13",
            "rol rdi, 61",
            "rol rdi, 51",
            "xchg rbx, rbx",
            in("rax") words.as_ptr(),
            inout("rdx") 0u64 => _,
        );
    }
}

/// What `work` comes to; callgrind writes down what it took.
pub fn counted<T>(work: impl FnOnce() -> T) -> T {
    request(ZERO);
    let result = work();
    request(DUMP);
    result
}
