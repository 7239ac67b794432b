//! Buffers between pages that may not be touched, so that a read or a write past
//! an end is a crash; inputs may not be written to either.

use crate::random::Random;
use crate::works;
use std::ffi::{c_int, c_long, c_void};
use std::ptr;
use wivulameno::Refusal;

extern "C" {
    fn mmap(
        address: *mut c_void,
        len: usize,
        protection: c_int,
        flags: c_int,
        file: c_int,
        offset: i64,
    ) -> *mut c_void;
    fn mprotect(address: *mut c_void, len: usize, protection: c_int) -> c_int;
    fn munmap(address: *mut c_void, len: usize) -> c_int;
    fn sysconf(name: c_int) -> c_long;
}

// As Linux has them.
const NOTHING: c_int = 0;
const READ: c_int = 1;
const READ_AND_WRITE: c_int = 3;
const PRIVATE_AND_ANONYMOUS: c_int = 0x22;
const PAGE_SIZE: c_int = 30;

/// What fills the pages beside the buffer.
const REST: u8 = 0xa5;

pub struct Paged {
    whole: *mut u8,
    whole_len: usize,
    /// The pages that may be touched.
    inner: usize,
    inner_len: usize,
    start: usize,
    len: usize,
}

/// At which end the buffer meets the page that may not be touched.
#[derive(Clone, Copy, Debug, PartialEq, Eq)]
pub enum Edge {
    Start,
    End,
}

impl Paged {
    pub fn holding(bytes: &[u8], edge: Edge) -> Paged {
        // SAFETY: a plain question.
        let page = unsafe { sysconf(PAGE_SIZE) } as usize;
        let inner_len = bytes.len().max(1).next_multiple_of(page);
        let whole_len = inner_len + 2 * page;
        let whole = map(whole_len);
        let start = match edge {
            Edge::Start => page,
            Edge::End => page + inner_len - bytes.len(),
        };
        let mut buffer = Paged {
            whole,
            whole_len,
            inner: page,
            inner_len,
            start,
            len: bytes.len(),
        };
        buffer.allow(READ_AND_WRITE);
        buffer.inside().fill(REST);
        buffer.lent().copy_from_slice(bytes);
        buffer
    }

    /// From now on a write is a crash too.
    pub fn close(&mut self) {
        self.allow(READ);
    }

    fn allow(&mut self, protection: c_int) {
        // SAFETY: these pages are part of the mapping.
        let done = unsafe {
            let inner = self.whole.add(self.inner);
            mprotect(inner.cast(), self.inner_len, protection)
        };
        assert_eq!(done, 0, "mprotect");
    }

    fn inside(&mut self) -> &mut [u8] {
        // SAFETY: these pages are mapped, and this value owns them.
        unsafe { std::slice::from_raw_parts_mut(self.whole.add(self.inner), self.inner_len) }
    }

    pub fn lent(&mut self) -> &mut [u8] {
        // SAFETY: as above; the buffer lies in these pages. One without bytes
        // may lie at their end.
        unsafe { std::slice::from_raw_parts_mut(self.whole.add(self.start), self.len) }
    }

    pub fn get(&self) -> &[u8] {
        // SAFETY: as above.
        unsafe { std::slice::from_raw_parts(self.whole.add(self.start), self.len) }
    }

    /// Is all beside the buffer as it was?
    pub fn rest_is_unchanged(&mut self) -> bool {
        let (before, len) = (self.start - self.inner, self.len);
        let inside = self.inside();
        let mut rest = inside[..before].iter().chain(&inside[before + len..]);
        rest.all(|&byte| byte == REST)
    }
}

impl Drop for Paged {
    fn drop(&mut self) {
        // SAFETY: the mapping is this value's own.
        unsafe { munmap(self.whole.cast(), self.whole_len) };
    }
}

/// Pages of which none may be touched.
fn map(len: usize) -> *mut u8 {
    // SAFETY: a new mapping touches nothing that is there.
    let address = unsafe { mmap(ptr::null_mut(), len, NOTHING, PRIVATE_AND_ANONYMOUS, -1, 0) };
    assert_ne!(address as isize, -1, "mmap");
    address.cast()
}

/// The answer to a call, and what its outputs hold afterwards.
pub type Lent = (Result<(), u32>, Vec<Vec<u8>>);

/// Makes a call with every buffer between such pages. A refused call must leave
/// the outputs as they were.
pub fn lend(
    random: &mut Random,
    inputs: &[&[u8]],
    outputs: &[Vec<u8>],
    call: impl FnOnce(&[&[u8]], Vec<&mut [u8]>) -> Result<(), Refusal>,
) -> Lent {
    lend_with_work(random, inputs, outputs, 0, |inputs, out, _| {
        call(inputs, out)
    })
}

/// The same with a work buffer of so many random bytes. The first input is the circuit;
/// what becomes of the work buffer must be as the paper says.
pub fn lend_with_work(
    random: &mut Random,
    inputs: &[&[u8]],
    outputs: &[Vec<u8>],
    work_len: usize,
    call: impl FnOnce(&[&[u8]], Vec<&mut [u8]>, &mut [u8]) -> Result<(), Refusal>,
) -> Lent {
    let is_untouched = inputs
        .first()
        .is_none_or(|file| works::is_untouched(file, work_len));
    let before = random.bytes(work_len);
    let mut edge = || random.pick(&[Edge::Start, Edge::End]);
    let mut inputs: Vec<Paged> = inputs
        .iter()
        .map(|bytes| Paged::holding(bytes, edge()))
        .collect();
    let mut out: Vec<Paged> = outputs
        .iter()
        .map(|bytes| Paged::holding(bytes, edge()))
        .collect();
    let mut work = Paged::holding(&before, edge());
    inputs.iter_mut().for_each(Paged::close);
    let read: Vec<&[u8]> = inputs.iter().map(Paged::get).collect();
    let filled = out.iter_mut().map(Paged::lent).collect();
    let answer = call(&read, filled, work.lent());
    let filled: Vec<Vec<u8>> = out.iter().map(|out| out.get().to_vec()).collect();
    assert!(answer.is_ok() || filled == outputs, "refused, yet written");
    assert!(out.iter_mut().all(Paged::rest_is_unchanged));
    assert!(work.rest_is_unchanged());
    let good = match is_untouched {
        true => work.get() == before,
        false => work.get().iter().all(|&byte| byte == 0),
    };
    assert!(good, "work is not as stated");
    (answer.map_err(|refusal| refusal.number()), filled)
}
