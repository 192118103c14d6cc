//! "A length above 4,294,967,295 is reported as that number": print and rows of such a length, without the memory for it.
//!
//! U+2026 counts three, so 1.4 thousand million of them are enough. One block of them stands in the memory, and is mapped at one address
//! after the other; only the first stretch is the print's own. Of a row nothing but the length is looked at, so none of it stands in the memory.
//! It takes some megabytes, and Linux on x86-64 or AArch64, where the numbers below are the same.
#![cfg(all(any(target_arch = "x86_64", target_arch = "aarch64"), target_os = "linux"))]
use omdurgash::{read, step, transcribe, Refusal};
use std::ffi::{c_char, c_int, c_long, c_uint, c_void};
use std::fs::File;
use std::io::{Error, Write};
use std::os::fd::{AsRawFd, FromRawFd};
use std::{ptr, slice};
use vectors::say;

const ELLIPSIS: u32 = 0x2026;

const LETTER: u32 = 'a' as u32;

/// The greatest length that is reported.
const CAP: usize = 4_294_967_295;

/// The code points of a block, and its bytes.
const BLOCK: usize = 1 << 20;

const BLOCK_BYTES: usize = 4 * BLOCK;

/// Room for the print's own stretch: less than a block, and two letters.
const OWN: usize = 2 * BLOCK;

const OWN_BYTES: usize = 4 * OWN;

extern "C" {
    fn memfd_create(name: *const c_char, flags: c_uint) -> c_int;
    fn mmap(address: *mut c_void, length: usize, protection: c_int, flags: c_int, file: c_int, offset: c_long) -> *mut c_void;
    fn munmap(address: *mut c_void, length: usize) -> c_int;
}

const PROT_NONE: c_int = 0;
const PROT_READ: c_int = 1;
const PROT_WRITE: c_int = 2;
const MAP_SHARED: c_int = 0x01;
const MAP_PRIVATE: c_int = 0x02;
const MAP_FIXED: c_int = 0x10;
const MAP_ANONYMOUS: c_int = 0x20;
const MAP_NORESERVE: c_int = 0x4000;
const MAP_FAILED: usize = usize::MAX;

/// A file in the memory with one block of U+2026.
fn block() -> Result<File, Error> {
    // SAFETY: the name is a string of C.
    let number = unsafe { memfd_create(c"ellipses".as_ptr(), 0) };
    if number < 0 {
        return Err(Error::last_os_error());
    }
    // SAFETY: the descriptor is new, and nobody else has it.
    let mut file = unsafe { File::from_raw_fd(number) };
    file.write_all(&ELLIPSIS.to_ne_bytes().repeat(BLOCK))?;
    Ok(file)
}

/// Print, or a row, that lies in mapped memory.
struct Mapped {
    address: *mut c_void,
    bytes: usize,
    /// Print begins behind so many numbers, and has so many.
    before: usize,
    points: usize,
}

/// `mmap`, with its failure as an error.
///
/// # Safety
///
/// With `MAP_FIXED`, the addresses are a part of a mapping of the caller's that nothing refers to.
unsafe fn map(address: *mut c_void, bytes: usize, protection: c_int, flags: c_int, file: c_int) -> Result<*mut c_void, Error> {
    // SAFETY: without MAP_FIXED no mapping is replaced; with it, what the caller has promised.
    let mapped = unsafe { mmap(address, bytes, protection, flags, file, 0) };
    match mapped as usize {
        MAP_FAILED => Err(Error::last_os_error()),
        _ => Ok(mapped),
    }
}

impl Mapped {
    /// Print whose normalised length is `length`: at most two letters, and then U+2026 as often as it goes. With a letter in front, a count in threes
    /// steps over the greatest length that is reported.
    fn of_normalised_length(length: usize, block: &File) -> Result<Mapped, Error> {
        let (ellipses, letters) = (length / 3, length % 3);
        let (blocks, rest) = (ellipses / BLOCK, ellipses % BLOCK);
        let own = letters + rest;
        let bytes = OWN_BYTES + blocks * BLOCK_BYTES;
        let free = MAP_PRIVATE | MAP_ANONYMOUS | MAP_NORESERVE;
        // SAFETY: the addresses are the system's choice.
        let address = unsafe { map(ptr::null_mut(), bytes, PROT_NONE, free, -1)? };
        // From here on, an error unmaps it.
        let mapped = Mapped { address, bytes, before: OWN - own, points: letters + ellipses };
        // SAFETY: the first part of the mapping above, which nothing refers to yet.
        let first = unsafe { map(address, OWN_BYTES, PROT_READ | PROT_WRITE, free | MAP_FIXED, -1)? };
        // SAFETY: zeros, lent to nobody else; a page is aligned for any number.
        let first = unsafe { slice::from_raw_parts_mut(first.cast::<u32>(), OWN) };
        first[OWN - own..].fill(ELLIPSIS);
        first[OWN - own..][..letters].fill(LETTER);
        for i in 0..blocks {
            // SAFETY: a part of the mapping above, which nothing refers to yet.
            unsafe {
                map(address.byte_add(OWN_BYTES + i * BLOCK_BYTES), BLOCK_BYTES, PROT_READ, MAP_SHARED | MAP_FIXED, block.as_raw_fd())?
            };
        }
        Ok(mapped)
    }

    /// A row of so many blanks: pages that nobody has written to are 0.
    fn blanks(bytes: usize) -> Result<Mapped, Error> {
        // SAFETY: the addresses are the system's choice.
        let address = unsafe { map(ptr::null_mut(), bytes, PROT_READ, MAP_PRIVATE | MAP_ANONYMOUS | MAP_NORESERVE, -1)? };
        Ok(Mapped { address, bytes, before: 0, points: 0 })
    }

    fn row(&self) -> &[u8] {
        // SAFETY: as for `print`.
        unsafe { slice::from_raw_parts(self.address.cast::<u8>(), self.bytes) }
    }

    fn print(&self) -> &[u32] {
        // SAFETY: all of it can be read while the mapping stands, which is as long as self does, and nobody writes to it.
        unsafe { slice::from_raw_parts(self.address.cast::<u32>().add(self.before), self.points) }
    }
}

impl Drop for Mapped {
    fn drop(&mut self) {
        // SAFETY: the mapping is ours, and what was lent of it is given back. A failure leaves it until the program ends.
        unsafe { munmap(self.address, self.bytes) };
    }
}

/// Asks for the length of print whose normalised length it is, and that the row is left as it was.
fn length_is_reported(length: usize, reported: usize) {
    let mapped = match block().and_then(|block| Mapped::of_normalised_length(length, &block)) {
        Ok(mapped) => mapped,
        Err(error) => return say(&format!("NOT TESTED: print of the normalised length {length} cannot be mapped here: {error}")),
    };
    let mut row = [0xA5; 16];
    let answer = transcribe(mapped.print(), &mut row);
    assert_eq!(answer, Err(Refusal::TooLong { length: reported }), "print of the normalised length {length}");
    assert_eq!(row, [0xA5; 16], "print of the normalised length {length}");
}

// Short enough to be counted here as well: the mapping is as it should be.
#[test]
fn len_of_three_blocks() {
    let length = 3 * 3 * BLOCK + 3 * 5 + 2;
    match block().and_then(|block| Mapped::of_normalised_length(length, &block)) {
        Ok(mapped) => {
            let (letters, ellipses) = mapped.print().split_at(2);
            assert_eq!(letters, [LETTER, LETTER]);
            assert_eq!(ellipses.len(), 3 * BLOCK + 5);
            assert!(ellipses.iter().all(|&point| point == ELLIPSIS));
        }
        Err(error) => say(&format!("NOT TESTED: print cannot be mapped here: {error}")),
    }
    length_is_reported(length, length);
}

#[test]
fn len_one_below_the_cap() {
    length_is_reported(CAP - 1, CAP - 1);
}

#[test]
fn len_at_the_cap() {
    length_is_reported(CAP, CAP);
}

// In 32 bits it would be 0.
#[test]
fn len_one_above_the_cap() {
    length_is_reported(CAP + 1, CAP);
}

// In 32 bits it would be 5, which is not too long.
#[test]
fn len_twice_above_the_cap() {
    length_is_reported(2 * (CAP + 1) + 5, CAP);
}

/// Asks for the length of a row, from reading and from a step, and that the text is left as it was.
fn row_length_is_reported(length: usize, reported: usize) {
    let mapped = match Mapped::blanks(length) {
        Ok(mapped) => mapped,
        Err(error) => return say(&format!("NOT TESTED: a row of {length} cells cannot be mapped here: {error}")),
    };
    let refusal = Refusal::TooLong { length: reported };
    let mut text = [u32::MAX; 16];
    assert_eq!(read(mapped.row(), &mut text), Err(refusal), "a row of {length} cells");
    assert_eq!(text, [u32::MAX; 16], "a row of {length} cells");
    assert_eq!(step(mapped.row(), 0), Err(refusal), "a row of {length} cells");
    assert_eq!(plain::read(mapped.row(), &mut text), Err(plain::Refusal::RowTooLong(reported)), "a row of {length} cells");
}

#[test]
fn row_at_the_cap() {
    row_length_is_reported(CAP, CAP);
}

// In 32 bits it would be 0, which is accepted.
#[test]
fn row_one_above_the_cap() {
    row_length_is_reported(CAP + 1, CAP);
}

// In 32 bits it would be 12,289, which is refused with that number.
#[test]
fn row_far_above_the_cap() {
    row_length_is_reported(CAP + 1 + 12_289, CAP);
}
