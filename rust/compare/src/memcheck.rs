//! What memcheck, valgrind's tool, is told about memory: by idle instructions, which mean something only to it. They and the numbers are
//! those of valgrind's `valgrind.h` and `memcheck.h`.
use std::mem::size_of_val;

const RUNNING_ON_VALGRIND: usize = 0x1001;

/// The first request of memcheck, from its letters.
const OF_MEMCHECK: usize = (b'M' as usize) << 24 | (b'C' as usize) << 16;

const MAKE_MEM_UNDEFINED: usize = OF_MEMCHECK + 1;

const MAKE_MEM_DEFINED: usize = OF_MEMCHECK + 2;

/// Whether the program runs under valgrind.
pub fn is_there() -> bool {
    request(RUNNING_ON_VALGRIND, 0, 0) != 0
}

/// From here on, memcheck takes the elements for such as nobody has written. They keep what they hold.
pub fn make_undefined<T>(elements: &mut [T]) {
    request(MAKE_MEM_UNDEFINED, elements.as_ptr() as usize, size_of_val(elements));
}

/// From here on, memcheck takes the elements for written. They keep what they hold.
pub fn make_defined<T>(elements: &mut [T]) {
    request(MAKE_MEM_DEFINED, elements.as_ptr() as usize, size_of_val(elements));
}

/// A request with two words. Gives 0 where there is no valgrind. The instructions differ from machine to machine, and the library is compiled
/// for these two.
fn request(number: usize, first: usize, second: usize) -> usize {
    let words = [number, first, second, 0, 0, 0];
    let mut answer = 0_usize;
    // SAFETY: rdi is rotated by 128 in all, and rbx exchanged with itself: no register and no memory changes. Valgrind knows the sequence,
    // reads the words and sets rdx.
    #[cfg(target_arch = "x86_64")]
    unsafe {
        std::arch::asm!(
            "rol rdi, 3", "rol rdi, 13", "rol rdi, 61", "rol rdi, 51", "xchg rbx, rbx",
            in("rax") words.as_ptr(), inout("rdx") answer, options(nostack)
        );
    }
    // SAFETY: the same of x12, which is rotated, x10, which becomes itself, and x3, which valgrind sets.
    #[cfg(target_arch = "aarch64")]
    unsafe {
        std::arch::asm!(
            "ror x12, x12, #3", "ror x12, x12, #13", "ror x12, x12, #51", "ror x12, x12, #61", "orr x10, x10, x10",
            in("x4") words.as_ptr(), inout("x3") answer, options(nostack)
        );
    }
    answer
}
