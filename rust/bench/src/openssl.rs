//! SHA-3 of OpenSSL, through the EVP interface of a libcrypto loaded at run time.

use std::ffi::{c_char, c_int, c_uint, c_void, CStr};
use std::mem::transmute_copy;
use std::ptr::null_mut;

#[link(name = "dl")]
extern "C" {
    fn dlopen(file: *const c_char, flags: c_int) -> *mut c_void;
    fn dlsym(library: *mut c_void, symbol: *const c_char) -> *mut c_void;
}

const RTLD_NOW: c_int = 2;

type Context = *mut c_void;
type Method = *const c_void;

/// The functions of libcrypto that are used, and one context for every call.
pub struct OpenSsl {
    context: Context,
    init: unsafe extern "C" fn(Context, Method, *mut c_void) -> c_int,
    update: unsafe extern "C" fn(Context, *const c_void, usize) -> c_int,
    last: unsafe extern "C" fn(Context, *mut u8, *mut c_uint) -> c_int,
    last_xof: unsafe extern "C" fn(Context, *mut u8, usize) -> c_int,
    free: unsafe extern "C" fn(Context),
    sha3_256: Method,
    shake128: Method,
    shake256: Method,
}

impl OpenSsl {
    /// The machine's libcrypto, if it has one with all of these functions.
    pub fn load() -> Option<Self> {
        // SAFETY: each symbol has the type that OpenSSL's evp.h declares.
        unsafe {
            let library = open(c"libcrypto.so.3").or_else(|| open(c"libcrypto.so"))?;
            let new: unsafe extern "C" fn() -> Context = symbol(library, c"EVP_MD_CTX_new")?;
            let method =
                |name| symbol::<unsafe extern "C" fn() -> Method>(library, name).map(|get| get());
            Some(OpenSsl {
                init: symbol(library, c"EVP_DigestInit_ex")?,
                update: symbol(library, c"EVP_DigestUpdate")?,
                last: symbol(library, c"EVP_DigestFinal_ex")?,
                last_xof: symbol(library, c"EVP_DigestFinalXOF")?,
                free: symbol(library, c"EVP_MD_CTX_free")?,
                sha3_256: method(c"EVP_sha3_256")?,
                shake128: method(c"EVP_shake128")?,
                shake256: method(c"EVP_shake256")?,
                context: Some(new()).filter(|context| !context.is_null())?,
            })
        }
    }

    pub fn sha3_256(&self, message: &[u8]) -> [u8; 32] {
        self.absorb(self.sha3_256, message);
        let mut digest = [0; 32];
        // SAFETY: the digest has the 32 bytes that SHA3-256 writes.
        let done = unsafe { (self.last)(self.context, digest.as_mut_ptr(), null_mut()) };
        assert_eq!(done, 1, "EVP_DigestFinal_ex");
        digest
    }

    pub fn shake128(&self, message: &[u8], output: &mut [u8]) {
        self.absorb(self.shake128, message);
        self.squeeze(output);
    }

    pub fn shake256(&self, message: &[u8], output: &mut [u8]) {
        self.absorb(self.shake256, message);
        self.squeeze(output);
    }

    fn absorb(&self, method: Method, message: &[u8]) {
        // SAFETY: the context and the method live, and the message is valid for its length.
        let done = unsafe {
            (self.init)(self.context, method, null_mut())
                & (self.update)(self.context, message.as_ptr().cast(), message.len())
        };
        assert_eq!(done, 1, "EVP_DigestInit_ex, EVP_DigestUpdate");
    }

    fn squeeze(&self, output: &mut [u8]) {
        // SAFETY: the output is valid for its length.
        let done = unsafe { (self.last_xof)(self.context, output.as_mut_ptr(), output.len()) };
        assert_eq!(done, 1, "EVP_DigestFinalXOF");
    }
}

impl Drop for OpenSsl {
    fn drop(&mut self) {
        // SAFETY: the context is this value's own.
        unsafe { (self.free)(self.context) }
    }
}

unsafe fn open(file: &CStr) -> Option<*mut c_void> {
    let library = dlopen(file.as_ptr(), RTLD_NOW);
    (!library.is_null()).then_some(library)
}

/// The symbol as a function pointer of type `F`.
unsafe fn symbol<F: Copy>(library: *mut c_void, name: &CStr) -> Option<F> {
    let address = dlsym(library, name.as_ptr());
    assert_eq!(size_of::<F>(), size_of_val(&address));
    (!address.is_null()).then(|| transmute_copy(&address))
}
