//! What a C host lends, tested as far as it can be.

use crate::answer::Answer;
use std::ffi::{c_char, CStr, OsStr};
use std::os::unix::ffi::OsStrExt;
use std::path::Path;
use wivulameno::limits::MAX_SLOTS;

/// # Safety
///
/// The pointer is null, or leads to a string that ends in a zero byte and stays.
pub unsafe fn path<'a>(name: *const c_char) -> Result<&'a Path, Answer> {
    if name.is_null() {
        return Err(Answer::Argument);
    }
    let name = CStr::from_ptr(name).to_bytes();
    Ok(Path::new(OsStr::from_bytes(name)))
}

/// # Safety
///
/// The pointer is null, or valid for so many bytes, which stay as they are.
pub unsafe fn bytes<'a>(first: *const u8, len: usize) -> Result<&'a [u8], Answer> {
    match first.is_null() {
        true => Err(Answer::Argument),
        false => Ok(std::slice::from_raw_parts(first, len)),
    }
}

/// # Safety
///
/// The pointer is null, or leads to a value that stays as it is.
pub unsafe fn lent<'a, T>(value: *const T) -> Result<&'a T, Answer> {
    value.as_ref().ok_or(Answer::Argument)
}

/// The place of an output, which is tested before the work and written after it.
pub fn place<T>(output: *mut T) -> Result<*mut T, Answer> {
    match output.is_null() {
        true => Err(Answer::Argument),
        false => Ok(output),
    }
}

/// A number of slots.
pub fn slots(number: u32) -> Result<u16, Answer> {
    match u16::try_from(number) {
        Ok(slots @ 1..=MAX_SLOTS) => Ok(slots),
        _ => Err(Answer::Argument),
    }
}
