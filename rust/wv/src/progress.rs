//! Tells on a terminal that a long call is still at work.

use std::io::{self, IsTerminal, Write};
use std::sync::mpsc::{self, RecvTimeoutError, Sender};
use std::sync::{Arc, Mutex};
use std::thread::{self, JoinHandle};
use std::time::{Duration, Instant};

/// Nothing is shown before this time, and the line is not changed more often.
const PAUSE: Duration = Duration::from_millis(250);

/// A line on standard error with the time that has passed, as long as this value
/// lives. Nothing at all if standard error is no terminal.
pub struct Progress(Option<Shown>);

struct Shown {
    what: Arc<Mutex<String>>,
    end: Sender<()>,
    thread: JoinHandle<()>,
}

impl Progress {
    /// Begins to tell that this is being done.
    pub fn start(what: &str) -> Progress {
        Progress::since(Instant::now(), what)
    }

    /// The same for what began some time ago.
    pub fn since(start: Instant, what: &str) -> Progress {
        if !io::stderr().is_terminal() {
            return Progress(None);
        }
        let (end, ended) = mpsc::channel();
        let what = Arc::new(Mutex::new(what.to_string()));
        let now = what.clone();
        let thread = thread::spawn(move || {
            while ended.recv_timeout(PAUSE) == Err(RecvTimeoutError::Timeout) {
                let what = now.lock().expect("no panic").clone();
                show(&format!("\r{what}: {:.1} s", start.elapsed().as_secs_f64()));
            }
            show("\r\x1b[K");
        });
        Progress(Some(Shown { what, end, thread }))
    }

    /// From now on tells that this is being done.
    pub fn tell(&self, what: &str) {
        if let Some(shown) = &self.0 {
            *shown.what.lock().expect("no panic") = what.into();
        }
    }
}

/// A terminal that cannot be written to is no reason to stop the work.
fn show(text: &str) {
    let mut terminal = io::stderr().lock();
    let _ = terminal.write_all(text.as_bytes());
    let _ = terminal.flush();
}

impl Drop for Progress {
    fn drop(&mut self) {
        if let Some(Shown { end, thread, .. }) = self.0.take() {
            drop(end);
            let _ = thread.join();
        }
    }
}
