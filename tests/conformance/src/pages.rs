//! Memory between pages that nobody may touch: a read or a write there ends the process.

use std::ffi::c_void;
use std::ptr::{null_mut, NonNull};

/// Bytes on each side that nobody may touch: more than the longest piece that is lent, so that a wrong index
/// does not get past them. Whole pages, whatever a page has; they take no memory.
const AROUND: usize = 1 << 20;

// Linux's numbers.
const PROT_NONE: i32 = 0;
const PROT_READ_AND_WRITE: i32 = 3;
const MAP_PRIVATE_AND_ANONYMOUS: i32 = 0x22;

extern "C" {
    fn mmap(
        at: *mut c_void,
        length: usize,
        prot: i32,
        flags: i32,
        fd: i32,
        from: i64,
    ) -> *mut c_void;
    fn mprotect(at: *mut c_void, length: usize, prot: i32) -> i32;
    fn munmap(at: *mut c_void, length: usize) -> i32;
    fn getpagesize() -> i32;
}

/// The bytes of a page.
fn page() -> usize {
    // It asks the system for a number.
    unsafe { getpagesize() as usize }
}

/// Whole pages with pages that nobody may touch on each side of them.
pub struct Pages {
    first: NonNull<u8>,
    length: usize,
}

impl Pages {
    /// As few pages as hold so many bytes; none, if there are none.
    pub fn holding(bytes: usize) -> Pages {
        let length = bytes.next_multiple_of(page());
        // New memory, which nothing else has; the middle of it is opened, the pages around it are not.
        let first = unsafe {
            let all = length + 2 * AROUND;
            let start = mmap(null_mut(), all, PROT_NONE, MAP_PRIVATE_AND_ANONYMOUS, -1, 0);
            assert!(start as isize != -1, "no memory for {all} bytes");
            let first = start.cast::<u8>().add(AROUND);
            assert!(mprotect(first.cast(), length, PROT_READ_AND_WRITE) == 0);
            first
        };
        let first = NonNull::new(first).expect("an address after a page's");
        Pages { first, length }
    }

    pub fn pointer(&mut self) -> *mut u8 {
        self.first.as_ptr()
    }

    pub fn bytes(&self) -> &[u8] {
        // The pages are open, in full, as long as this is there.
        unsafe { std::slice::from_raw_parts(self.first.as_ptr(), self.length) }
    }

    pub fn bytes_mut(&mut self) -> &mut [u8] {
        // As above.
        unsafe { std::slice::from_raw_parts_mut(self.first.as_ptr(), self.length) }
    }
}

impl Drop for Pages {
    fn drop(&mut self) {
        // What `holding` took, in full.
        unsafe {
            let start = self.first.as_ptr().sub(AROUND);
            assert!(munmap(start.cast(), self.length + 2 * AROUND) == 0);
        }
    }
}
