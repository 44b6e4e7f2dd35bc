//! OpenSSL's digest, looked up when the program runs, so that a machine without it can still build and measure the rest.
//! The three calls of its old interface are taken: they look nothing up by name on the way, and are its fastest.

use std::ffi::{c_void, CStr};
use std::os::raw::{c_char, c_int};

#[link(name = "dl")]
extern "C" {
    fn dlopen(file: *const c_char, flags: c_int) -> *mut c_void;
    fn dlsym(handle: *mut c_void, name: *const c_char) -> *mut c_void;
}

const RTLD_NOW: c_int = 2;
/// The shared object of OpenSSL 3, of 1.1, and the one for building.
const FILES: [&[u8]; 3] = [b"libcrypto.so.3\0", b"libcrypto.so.1.1\0", b"libcrypto.so\0"];

/// Room for libcrypto's SHA256_CTX, which has 112 octets.
#[repr(C, align(16))]
struct Context([u8; 256]);

type Init = unsafe extern "C" fn(*mut Context) -> c_int;
type Update = unsafe extern "C" fn(*mut Context, *const u8, usize) -> c_int;
type Final = unsafe extern "C" fn(*mut u8, *mut Context) -> c_int;

pub struct Libcrypto {
    init: Init,
    update: Update,
    last: Final,
}

impl Libcrypto {
    pub fn open() -> Option<Libcrypto> {
        // dlopen and dlsym are given strings that end in 0, and the types are those of openssl/sha.h.
        unsafe {
            let handles = FILES.iter().map(|file| dlopen(file.as_ptr().cast(), RTLD_NOW));
            let handle = handles.into_iter().find(|handle| !handle.is_null())?;
            Some(Libcrypto {
                init: std::mem::transmute::<*mut c_void, Init>(symbol(handle, b"SHA256_Init\0")?),
                update: std::mem::transmute::<*mut c_void, Update>(symbol(handle, b"SHA256_Update\0")?),
                last: std::mem::transmute::<*mut c_void, Final>(symbol(handle, b"SHA256_Final\0")?),
            })
        }
    }

    pub fn sha256(&self, input: &[u8], digest: &mut [u8; 32]) {
        let mut context = Context([0; 256]);
        // The context has room, and the digest is 32 octets.
        unsafe {
            (self.init)(&mut context);
            (self.update)(&mut context, input.as_ptr(), input.len());
            (self.last)(digest.as_mut_ptr(), &mut context);
        }
    }
}

unsafe fn symbol(handle: *mut c_void, name: &[u8]) -> Option<*mut c_void> {
    let name = CStr::from_bytes_with_nul(name).ok()?;
    let found = dlsym(handle, name.as_ptr());
    (!found.is_null()).then_some(found)
}
