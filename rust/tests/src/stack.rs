//! The stack below a call: how much of it was used, and what was left there.

use std::arch::asm;

/// The bytes below the caller's frame that are looked at.
pub const SEEN: usize = 512 * 1024;

const PATTERN: u8 = 0x5c;

/// Runs `call` on a stack that is filled with a pattern; gives what is then below the
/// frame that made the call, the byte next to it last.
///
/// It runs in a thread of its own, whose stack has room for all that is looked at.
pub fn below(call: impl FnOnce() + Send) -> Vec<u8> {
    std::thread::scope(|scope| {
        let thread = std::thread::Builder::new().stack_size(4 * SEEN);
        let seen = thread.spawn_scoped(scope, move || seen(call));
        seen.expect("a thread").join().expect("no panic")
    })
}

/// How many bytes below the caller's frame are not the pattern any more.
pub fn used(below: &[u8]) -> usize {
    let left = below.iter().take_while(|&&byte| byte == PATTERN).count();
    assert!(left > 0, "more than is looked at");
    below.len() - left
}

#[inline(never)]
fn seen(call: impl FnOnce()) -> Vec<u8> {
    let mut bytes = vec![0; SEEN];
    paint();
    call();
    copy(&mut bytes);
    bytes
}

/// Nothing is called between here and the end of the loop, and no signal is handled on
/// this stack; so what is below this frame belongs to nobody.
#[inline(never)]
fn paint() {
    let top = stack_pointer();
    let mut place = 1;
    while place <= SEEN {
        // SAFETY: the thread's stack has this place, below all frames.
        unsafe { top.sub(place).write_volatile(PATTERN) };
        place += 1;
    }
}

#[inline(never)]
fn copy(bytes: &mut [u8]) {
    let (top, out) = (stack_pointer(), bytes.as_mut_ptr());
    let mut place = 1;
    while place <= SEEN {
        // SAFETY: as above, and `bytes` has so many places.
        unsafe { *out.add(SEEN - place) = top.sub(place).read_volatile() };
        place += 1;
    }
}

#[inline(always)]
fn stack_pointer() -> *mut u8 {
    let pointer: *mut u8;
    // SAFETY: reads a register.
    unsafe { asm!("mov {}, rsp", out(reg) pointer, options(nomem, nostack, preserves_flags)) };
    pointer
}

#[cfg(test)]
mod tests {
    use super::*;
    use std::hint::black_box;

    #[inline(never)]
    fn take(bytes: &[u8; 20_000]) -> u8 {
        let copy = black_box(*bytes);
        black_box(&copy)[9]
    }

    #[test]
    fn a_frame_is_seen() {
        let bytes = Box::new([0x11; 20_000]);
        let none = used(&below(|| ()));
        let some = used(&below(|| assert_eq!(take(&bytes), 0x11)));
        assert!(none < 1_000, "{none}");
        assert!((20_000..90_000).contains(&some), "{some}");
    }
}
