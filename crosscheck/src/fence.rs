//! Memory between two pages that may not be touched, so that a read or write outside of a buffer stops the program.
use std::ffi::{c_int, c_void};

extern "C" {
    fn mmap(at: *mut c_void, length: usize, access: c_int, flags: c_int, file: c_int, offset: i64) -> *mut c_void;
    fn mprotect(at: *mut c_void, length: usize, access: c_int) -> c_int;
    fn munmap(at: *mut c_void, length: usize) -> c_int;
}

const NO_ACCESS: c_int = 0;
const READ_WRITE: c_int = 3;
/// MAP_PRIVATE and MAP_ANONYMOUS on Linux.
const OWN_MEMORY: c_int = 0x22;
const PAGE: usize = 4096;

/// Where in its memory a buffer is lent.
#[derive(Clone, Copy, PartialEq, Eq)]
pub enum Side {
    /// Its first byte follows the first page.
    Front,
    /// The last page follows its last byte.
    Back,
}

/// A buffer between two pages without access.
pub struct Fenced {
    base: *mut u8,
    whole: usize,
    from: usize,
    length: usize,
}

impl Fenced {
    pub fn new(bytes: &[u8], side: Side) -> Fenced {
        let inner = bytes.len().div_ceil(PAGE).max(1) * PAGE;
        let whole = inner + 2 * PAGE;
        let from = if side == Side::Front { PAGE } else { PAGE + inner - bytes.len() };
        // The kernel gives fresh memory of its own, of which the first and last page are then closed.
        let base = unsafe {
            let base = mmap(std::ptr::null_mut(), whole, READ_WRITE, OWN_MEMORY, -1, 0).cast::<u8>();
            assert!(base as isize != -1, "no memory");
            assert_eq!(mprotect(base.cast(), PAGE, NO_ACCESS), 0);
            assert_eq!(mprotect(base.add(whole - PAGE).cast(), PAGE, NO_ACCESS), 0);
            base
        };
        let mut fenced = Fenced { base, whole, from, length: bytes.len() };
        fenced.bytes_mut().copy_from_slice(bytes);
        fenced
    }

    pub fn bytes(&self) -> &[u8] {
        // The bytes lie inside the pages that may be read, for as long as self lives.
        unsafe { std::slice::from_raw_parts(self.base.add(self.from), self.length) }
    }

    pub fn bytes_mut(&mut self) -> &mut [u8] {
        // As above, and self is lent alone.
        unsafe { std::slice::from_raw_parts_mut(self.base.add(self.from), self.length) }
    }
}

impl Drop for Fenced {
    fn drop(&mut self) {
        // The memory was had from mmap with this length and isn't lent any more.
        unsafe { munmap(self.base.cast(), self.whole) };
    }
}
