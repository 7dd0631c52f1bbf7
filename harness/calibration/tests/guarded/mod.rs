//! Memory between two pages that nothing can be read from or written to: a call that goes a byte too far ends
//! the program.

use std::{
    ffi::{c_int, c_void},
    ptr::null_mut,
    slice,
};

unsafe extern "C" {
    fn mmap(
        address: *mut c_void,
        length: usize,
        access: c_int,
        flags: c_int,
        file: c_int,
        offset: i64,
    ) -> *mut c_void;

    fn mprotect(address: *mut c_void, length: usize, access: c_int) -> c_int;

    fn munmap(address: *mut c_void, length: usize) -> c_int;
}

/// Linux on x86-64.
const PAGE: usize = 4096;
const NO_ACCESS: c_int = 0;
const READ_AND_WRITE: c_int = 1 | 2;
const PRIVATE_AND_OF_NO_FILE: c_int = 0x02 | 0x20;

pub struct Guarded {
    /// The first of the two closed pages.
    start: *mut u8,
    /// Of the pages between them.
    room: usize,
}

impl Guarded {
    /// Room for so many bytes.
    pub fn new(bytes: usize) -> Self {
        let room = bytes.max(1).next_multiple_of(PAGE);
        // SAFETY: a new mapping, of which the pages between the first and the last are opened.
        unsafe {
            let start = mmap(null_mut(), room + 2 * PAGE, NO_ACCESS, PRIVATE_AND_OF_NO_FILE, -1, 0);
            assert!(start as isize != -1, "no memory");
            let start = start.cast::<u8>();
            assert_eq!(mprotect(start.add(PAGE).cast(), room, READ_AND_WRITE), 0);
            Guarded { start, room }
        }
    }

    fn memory(&mut self) -> &mut [u8] {
        // SAFETY: these pages are open, zero from the start, and this object's alone.
        unsafe { slice::from_raw_parts_mut(self.start.add(PAGE), self.room) }
    }

    /// The bytes, right after the first closed page.
    pub fn at_start(&mut self, bytes: &[u8]) -> &mut [u8] {
        let place = &mut self.memory()[..bytes.len()];
        place.copy_from_slice(bytes);
        place
    }

    /// The bytes, right before the last closed page.
    pub fn at_end(&mut self, bytes: &[u8]) -> &mut [u8] {
        let start = self.room - bytes.len();
        let place = &mut self.memory()[start..];
        place.copy_from_slice(bytes);
        place
    }
}

impl Drop for Guarded {
    fn drop(&mut self) {
        // SAFETY: the whole mapping, which nothing borrows any more.
        assert_eq!(unsafe { munmap(self.start.cast(), self.room + 2 * PAGE) }, 0);
    }
}

/// The guard itself: each of two reads, in a program of its own, ends it.
mod tests {
    use super::Guarded;
    use std::{
        os::unix::process::ExitStatusExt,
        process::{Command, ExitStatus},
    };

    const SEGMENTATION_FAULT: i32 = 11;

    /// A read that the compiler can't leave out.
    fn read(byte: *const u8) -> u8 {
        // SAFETY: none, and that is the test: the program ends here.
        unsafe { byte.read_volatile() }
    }

    #[test]
    #[ignore = "ends the program"]
    fn a_byte_after() {
        let mut memory = Guarded::new(3);
        read(memory.at_end(&[1, 2, 3]).as_ptr().wrapping_add(3));
    }

    #[test]
    #[ignore = "ends the program"]
    fn a_byte_before() {
        let mut memory = Guarded::new(3);
        read(memory.at_start(&[1, 2, 3]).as_ptr().wrapping_sub(1));
    }

    #[test]
    #[ignore = "runs by itself, to show that the bytes between can be read"]
    fn the_bytes_between() {
        let mut memory = Guarded::new(3);
        assert_eq!(read(memory.at_end(&[1, 2, 3]).as_ptr().wrapping_add(2)), 3);
        assert_eq!(read(memory.at_start(&[1, 2, 3]).as_ptr()), 1);
    }

    fn run(test: &str) -> ExitStatus {
        let program = std::env::current_exe().unwrap();
        let name = format!("guarded::tests::{test}");
        Command::new(program).args(["--ignored", "--exact", &name]).output().unwrap().status
    }

    #[test]
    fn a_byte_around_ends_the_program() {
        assert!(run("the_bytes_between").success());
        assert_eq!(run("a_byte_after").signal(), Some(SEGMENTATION_FAULT));
        assert_eq!(run("a_byte_before").signal(), Some(SEGMENTATION_FAULT));
    }
}
