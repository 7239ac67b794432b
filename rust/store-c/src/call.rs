//! What every call does around its work: no panic gets out, and what went wrong
//! is kept for the thread that asks.

use crate::answer::{Answer, Failed};
use std::cell::RefCell;
use std::panic::{catch_unwind, AssertUnwindSafe};

thread_local! {
    static LAST: RefCell<String> = const { RefCell::new(String::new()) };
}

/// Does the work and gives its number, 0 if all went well. A panic is a fault.
pub fn call(work: impl FnOnce() -> Result<(), Failed>) -> u32 {
    // What the work has changed is behind a lock that a panic poisons.
    let done = catch_unwind(AssertUnwindSafe(work));
    let done = done.unwrap_or_else(|_| Err(Answer::Fault.into()));
    match done {
        Ok(()) => 0,
        Err(failed) => {
            let _ = LAST.try_with(|last| last.replace(failed.sentence));
            failed.number
        }
    }
}

/// The sentence of this thread's last call that did not end well.
pub fn last_sentence() -> String {
    let sentence = LAST.try_with(|last| last.borrow().clone());
    sentence.unwrap_or_default()
}

#[cfg(test)]
mod tests {
    use super::*;

    #[test]
    fn no_panic_gets_out() {
        assert_eq!(call(|| panic!("a test")), Answer::Fault.number());
        assert_eq!(last_sentence(), Answer::Fault.sentence());
        assert_eq!(call(|| Ok(())), 0);
        assert_eq!(last_sentence(), Answer::Fault.sentence());
    }
}
