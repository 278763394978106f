//! Signs of life on standard error, where that is a terminal and the work is long.

use std::io::{self, IsTerminal};
use std::sync::mpsc::{self, RecvTimeoutError};
use std::thread;
use std::time::{Duration, Instant};

/// Does the work, and says every few seconds that it goes on.
pub fn while_working<T>(work: impl FnOnce() -> T) -> T {
    if !io::stderr().is_terminal() {
        return work();
    }
    thread::scope(|scope| {
        let (done, wait) = mpsc::channel::<()>();
        scope.spawn(move || {
            let start = Instant::now();
            while wait.recv_timeout(Duration::from_secs(2)) == Err(RecvTimeoutError::Timeout) {
                eprint!("\rworking for {} s", start.elapsed().as_secs());
            }
            if start.elapsed() > Duration::from_secs(2) {
                clear();
            }
        });
        let result = work();
        drop(done);
        result
    })
}

/// A count of packets.
pub struct Packets {
    on: bool,
    last: Instant,
    shown: bool,
}

impl Packets {
    pub fn new() -> Packets {
        // A terminal that gets the packets' lines needs no count.
        let on = io::stderr().is_terminal() && !io::stdout().is_terminal();
        Packets { on, last: Instant::now(), shown: false }
    }

    pub fn show(&mut self, packets: u64) {
        if self.on && packets.is_multiple_of(4096) && self.last.elapsed() > Duration::from_secs(1) {
            eprint!("\r{packets} packets");
            self.last = Instant::now();
            self.shown = true;
        }
    }

    pub fn end(&self) {
        if self.shown {
            clear();
        }
    }
}

/// Takes the line of progress away.
fn clear() {
    eprint!("\r{:30}\r", "");
}
