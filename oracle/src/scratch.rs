//! Scratch memory at exactly the base that the opening gives, since the Rust compares real pointers
//! with 32-bit addresses.

use std::ffi::{c_int, c_long, c_void};

unsafe extern "C" {
    fn mmap(
        addr: *mut c_void,
        length: usize,
        prot: c_int,
        flags: c_int,
        fd: c_int,
        offset: c_long,
    ) -> *mut c_void;
    fn munmap(addr: *mut c_void, length: usize) -> c_int;
    fn getpagesize() -> c_int;
}

const PROT_READ_WRITE: c_int = 1 | 2;
const MAP_PRIVATE: c_int = 0x02;
const MAP_ANONYMOUS: c_int = 0x20;
const MAP_FIXED_NOREPLACE: c_int = 0x10_0000;

/// Zeroed bytes at a fixed address, given back when dropped.
pub struct Scratch {
    base: usize,
    len: usize,
    map: usize,
    map_len: usize,
}

impl Scratch {
    /// None where the memory can't be had: base 0, or an address that the system keeps for itself.
    pub fn new(base: u32, len: u32) -> Option<Self> {
        let (base, len) = (base as usize, len as usize);
        if base == 0 {
            return None;
        }
        let page = unsafe { getpagesize() } as usize;
        let map = base & !(page - 1);
        let map_len = (base + len).next_multiple_of(page) - map;
        let scratch = Self {
            base,
            len,
            map,
            map_len: if len == 0 { 0 } else { map_len },
        };
        if scratch.map_len > 0 {
            let wanted = map as *mut c_void;
            let flags = MAP_PRIVATE | MAP_ANONYMOUS | MAP_FIXED_NOREPLACE;
            // New memory at an address where nothing was mapped: nothing else points there.
            let got = unsafe { mmap(wanted, map_len, PROT_READ_WRITE, flags, -1, 0) };
            if got != wanted {
                if got as isize != -1 {
                    unsafe { munmap(got, map_len) };
                }
                std::mem::forget(scratch);
                return None;
            }
        }
        Some(scratch)
    }

    /// The bytes, for the storage.
    ///
    /// # Safety
    ///
    /// One storage at a time, gone before this is dropped.
    #[allow(clippy::mut_from_ref)]
    pub unsafe fn lend(&self) -> &mut [u8] {
        unsafe { std::slice::from_raw_parts_mut(self.base as *mut u8, self.len) }
    }

    pub fn len(&self) -> usize {
        self.len
    }

    pub fn is_empty(&self) -> bool {
        self.len == 0
    }

    /// A copy of the bytes. Between calls: the storage has its slice of them, but isn't running.
    pub fn copy(&self) -> Vec<u8> {
        let mut bytes = vec![0; self.len];
        unsafe {
            std::ptr::copy_nonoverlapping(self.base as *const u8, bytes.as_mut_ptr(), self.len)
        };
        bytes
    }

    /// Whether `len` bytes at `place` lie inside.
    pub fn holds(&self, place: u32, len: usize) -> bool {
        place as usize + len <= self.len
    }

    /// Changes bytes inside, between calls.
    pub fn poke(&self, place: u32, bytes: &[u8]) {
        assert!(self.holds(place, bytes.len()));
        let to = (self.base + place as usize) as *mut u8;
        unsafe { std::ptr::copy_nonoverlapping(bytes.as_ptr(), to, bytes.len()) };
    }
}

impl Drop for Scratch {
    fn drop(&mut self) {
        if self.map_len > 0 {
            unsafe { munmap(self.map as *mut c_void, self.map_len) };
        }
    }
}
