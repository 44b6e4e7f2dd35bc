//! Pages between two that may not be touched: a call that reads past what it was lent, and not only one that writes there,
//! ends the program, with a word on the case that was under way.

use std::ffi::c_void;
use std::ops::{Deref, DerefMut};
use std::os::raw::c_int;
use std::sync::Mutex;

extern "C" {
    fn mmap(at: *mut c_void, length: usize, access: c_int, flags: c_int, file: c_int, offset: i64) -> *mut c_void;
    fn mprotect(at: *mut c_void, length: usize, access: c_int) -> c_int;
    fn munmap(at: *mut c_void, length: usize) -> c_int;
    fn signal(number: c_int, handler: extern "C" fn(c_int)) -> usize;
}

/// Of Linux on x86-64, for which the archive is made.
const PAGE: usize = 4_096;
const NO_ACCESS: c_int = 0;
const READ_AND_WRITE: c_int = 3;
const PRIVATE_AND_EMPTY: c_int = 0x22;
const SEGMENT_FAULT: c_int = 11;

/// Whole pages with a fence on either side.
pub struct Pages {
    first: *mut u8,
    length: usize,
}

impl Pages {
    /// At least so many octets.
    pub fn new(octets: usize) -> Pages {
        let length = (octets / PAGE + 1) * PAGE;
        // New pages that nothing else has, of which the inner ones are opened.
        unsafe {
            let outer = mmap(std::ptr::null_mut(), length + 2 * PAGE, NO_ACCESS, PRIVATE_AND_EMPTY, -1, 0);
            assert!(outer as isize != -1, "no memory for pages");
            let first = outer.cast::<u8>().add(PAGE);
            assert_eq!(mprotect(first.cast(), length, READ_AND_WRITE), 0, "pages that cannot be opened");
            Pages { first, length }
        }
    }
}

impl Deref for Pages {
    type Target = [u8];
    fn deref(&self) -> &[u8] {
        // Opened above, zero at first, and borrowed with self.
        unsafe { std::slice::from_raw_parts(self.first, self.length) }
    }
}

impl DerefMut for Pages {
    fn deref_mut(&mut self) -> &mut [u8] {
        // As above.
        unsafe { std::slice::from_raw_parts_mut(self.first, self.length) }
    }
}

impl Drop for Pages {
    fn drop(&mut self) {
        // All that was mapped, and no reference to it is left.
        unsafe { munmap(self.first.sub(PAGE).cast(), self.length + 2 * PAGE) };
    }
}

static UNDER_WAY: Mutex<String> = Mutex::new(String::new());

/// Tries a case. These lines are printed if the program ends in it.
pub fn during<T>(lines: Vec<String>, case: impl FnOnce() -> T) -> T {
    *UNDER_WAY.lock().unwrap() = lines.join("\n  ");
    let done = case();
    UNDER_WAY.lock().unwrap().clear();
    done
}

/// From here on a touched fence ends the program, with a word on the case.
pub fn watch() {
    // The handler prints and ends the program. The call that faulted holds none of the locks that this needs.
    unsafe { signal(SEGMENT_FAULT, touched) };
}

extern "C" fn touched(_: c_int) {
    println!("a call touched an octet that it was not lent, in this case:\n  {}", UNDER_WAY.lock().unwrap());
    println!("0 passed, 1 failed");
    std::process::exit(1);
}
