//! The shelf in files for hosts in C: `include/wivulameno_store.h`, over
//! [`wivulameno::store`].
//!
//! The functions test what they are lent, call [`Shelf`], and answer with a
//! number. What a shelf does, and in which order, is the Rust store's.
#![warn(missing_docs, missing_debug_implementations)]

mod answer;
mod call;
mod lent;
mod status;
mod store;

pub use answer::Answer;
pub use status::{CStatus, PAGES};
pub use store::Store;

use answer::{text_of, Failed};
use call::{call, last_sentence};
use lent::{bytes, lent, path, place, slots};
use std::ffi::{c_char, CStr};
use wivulameno::limits::ROOT_LEN;
use wivulameno::{burn_stack, Shelf};

const VERSION: &CStr = {
    let version = concat!(env!("CARGO_PKG_VERSION"), "\0");
    match CStr::from_bytes_with_nul(version.as_bytes()) {
        Ok(version) => version,
        Err(_) => panic!("a version has no zero byte"),
    }
};

/// Begins a page without roots and its log.
///
/// # Safety
///
/// As the header asks.
#[no_mangle]
pub unsafe extern "C" fn wv_store_create(
    page: *const c_char,
    log: *const c_char,
    slot_count: u32,
    opened: *mut *mut Store,
) -> u32 {
    call(|| {
        let (page, log, slots) = (path(page)?, path(log)?, slots(slot_count)?);
        open_at(opened, || Ok(Shelf::create(page, log, slots)?))
    })
}

/// Begins a page without roots under the log of a page that is lost.
///
/// # Safety
///
/// As the header asks.
#[no_mangle]
pub unsafe extern "C" fn wv_store_renew(
    page: *const c_char,
    log: *const c_char,
    slot_count: u32,
    opened: *mut *mut Store,
) -> u32 {
    call(|| {
        let (page, log, slots) = (path(page)?, path(log)?, slots(slot_count)?);
        open_at(opened, || Ok(Shelf::renew(page, log, slots)?))
    })
}

/// Opens a shelf.
///
/// # Safety
///
/// As the header asks.
#[no_mangle]
pub unsafe extern "C" fn wv_store_open(
    page: *const c_char,
    log: *const c_char,
    opened: *mut *mut Store,
) -> u32 {
    call(|| {
        let (page, log) = (path(page)?, path(log)?);
        open_at(opened, || Ok(Shelf::open(page, log)?))
    })
}

/// Tests the output before a shelf is opened, so that none is lost.
unsafe fn open_at(
    opened: *mut *mut Store,
    open: impl FnOnce() -> Result<Shelf, Failed>,
) -> Result<(), Failed> {
    let opened = place(opened)?;
    *opened = Box::into_raw(Store::new(open()?));
    Ok(())
}

/// Puts a root on the shelf.
///
/// # Safety
///
/// As the header asks.
#[no_mangle]
pub unsafe extern "C" fn wv_store_stock(
    store: *const Store,
    root: *const u8,
    root_len: usize,
) -> u32 {
    call(|| {
        let (store, root) = (lent(store)?, bytes(root, root_len)?);
        Ok(store.shelf()?.stock(root)?)
    })
}

/// Takes a root off the shelf.
///
/// # Safety
///
/// As the header asks.
#[no_mangle]
pub unsafe extern "C" fn wv_store_draw(store: *const Store, root: *mut [u8; ROOT_LEN]) -> u32 {
    let answer = draw(store, root);
    burn_stack();
    answer
}

/// In a frame of its own, which is burned.
#[inline(never)]
unsafe fn draw(store: *const Store, root: *mut [u8; ROOT_LEN]) -> u32 {
    call(|| {
        let (store, root) = (lent(store)?, place(root)?);
        *root = store.shelf()?.draw()?;
        Ok(())
    })
}

/// What is on an open shelf.
///
/// # Safety
///
/// As the header asks.
#[no_mangle]
pub unsafe extern "C" fn wv_store_status(store: *const Store, status: *mut CStatus) -> u32 {
    call(|| {
        let (store, status) = (lent(store)?, place(status)?);
        *status = store.shelf()?.status()?.into();
        Ok(())
    })
}

/// What is on a shelf that is not opened.
///
/// # Safety
///
/// As the header asks.
#[no_mangle]
pub unsafe extern "C" fn wv_store_look(
    page: *const c_char,
    log: *const c_char,
    status: *mut CStatus,
) -> u32 {
    call(|| {
        let (page, log, status) = (path(page)?, path(log)?, place(status)?);
        *status = Shelf::look(page, log)?.into();
        Ok(())
    })
}

/// Closes a shelf.
///
/// # Safety
///
/// As the header asks.
#[no_mangle]
pub unsafe extern "C" fn wv_store_close(store: *mut Store) {
    call(|| {
        if !store.is_null() {
            drop(Box::from_raw(store));
        }
        Ok(())
    });
}

/// The sentence of a number.
#[no_mangle]
pub extern "C" fn wv_store_text(answer: u32) -> *const c_char {
    text_of(answer).as_ptr()
}

/// Writes what this thread's last call that did not end well has found.
///
/// # Safety
///
/// As the header asks.
#[no_mangle]
pub unsafe extern "C" fn wv_store_explain(text: *mut c_char, len: usize) -> usize {
    let sentence = last_sentence();
    if !text.is_null() && len > 0 {
        let shown = whole_characters(&sentence, len - 1);
        let text = text.cast::<u8>();
        text.copy_from_nonoverlapping(sentence.as_ptr(), shown);
        text.add(shown).write(0);
    }
    sentence.len()
}

/// The most bytes up to `most` that cut no character.
fn whole_characters(sentence: &str, most: usize) -> usize {
    let ends = (0..=most.min(sentence.len())).rev();
    let mut whole = ends.filter(|&end| sentence.is_char_boundary(end));
    whole.next().unwrap_or(0)
}

/// The version of this library.
#[no_mangle]
pub extern "C" fn wv_store_version() -> *const c_char {
    VERSION.as_ptr()
}
