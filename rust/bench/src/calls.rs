//! The library's long calls, and how long they take.

use crate::rows::{file, Row};
use specksonne::{normalise, same_policy, Direction, Gateway, Refusal};
use std::sync::{mpsc, LazyLock};
use std::time::{Duration, Instant};
use std::{fmt, fs, thread};

/// A call that takes longer by the clock is given up.
pub const LIMIT: Duration = Duration::from_secs(60);
/// A call that takes longer is made once.
pub const LONG: Duration = Duration::from_secs(1);

/// A call, with its policy files.
#[derive(Clone, Debug)]
pub enum Call {
    /// Normalising for out.
    Normalise(Vec<u8>),
    /// What `specksonne check` costs.
    Accept(Vec<u8>),
    /// Comparing two for out.
    Compare(Vec<u8>, Vec<u8>),
}

impl Call {
    pub fn normalise(rows: &[Row]) -> Call {
        Call::Normalise(file(rows))
    }

    pub fn accept(rows: &[Row]) -> Call {
        Call::Accept(file(rows))
    }

    pub fn compare(one: &[Row], other: &[Row]) -> Call {
        Call::Compare(file(one), file(other))
    }

    /// The policy files, in order.
    pub fn files(&self) -> Vec<&[u8]> {
        match self {
            Call::Normalise(file) | Call::Accept(file) => vec![file],
            Call::Compare(one, other) => vec![one, other],
        }
    }

    /// The number of the answer; of a comparison, what it found.
    fn answer(&self) -> String {
        let number = |refusal: Refusal| refusal.number().to_string();
        match self {
            Call::Normalise(file) => {
                normalise(file, Direction::Out).map_or_else(number, |_| "5".to_string())
            }
            Call::Accept(file) => {
                let mut gateway = Gateway::new([192, 0, 2, 1].into());
                gateway.set_policy(file).map_or_else(number, |()| "5".to_string())
            }
            Call::Compare(one, other) => match same_policy(one, other, Direction::Out) {
                Ok(true) => "same".to_string(),
                Ok(false) => "different".to_string(),
                Err(refused) => number(refused.refusal()),
            },
        }
    }

    fn timed(&self) -> Timed {
        let start = processor_time();
        let answer = self.answer();
        Timed { time: processor_time() - start, answer }
    }

    /// The quickest of some runs, more of them where they are short.
    fn quickest(&self) -> Timed {
        let mut best = self.timed();
        let (mut runs, mut total) = (1, best.time);
        while best.time < LONG && (runs < 3 || total < Duration::from_millis(300)) {
            let next = self.timed();
            (runs, total) = (runs + 1, total + next.time);
            best.time = best.time.min(next.time);
        }
        best
    }

    /// Its quickest run; none where that is over the limit.
    pub fn measured(&self) -> Option<Timed> {
        self.in_a_thread(Call::quickest)
    }

    /// One run; none where that is over the limit.
    pub fn once(&self) -> Option<Timed> {
        self.in_a_thread(Call::timed)
    }

    /// A thread that is over the limit works on until the process ends.
    fn in_a_thread(&self, work: fn(&Call) -> Timed) -> Option<Timed> {
        let (result, results) = mpsc::channel();
        let call = self.clone();
        thread::spawn(move || result.send(work(&call)));
        match results.recv_timeout(LIMIT) {
            Ok(timed) => Some(timed),
            Err(mpsc::RecvTimeoutError::Timeout) => None,
            Err(mpsc::RecvTimeoutError::Disconnected) => panic!("a call panicked"),
        }
    }
}

/// The processor time of this thread, which others on the machine change little; where the system
/// does not say it, the time by the clock.
fn processor_time() -> Duration {
    static START: LazyLock<Instant> = LazyLock::new(Instant::now);
    // Linux brings the count up to date when the thread gives its turn away.
    thread::yield_now();
    let said = fs::read_to_string("/proc/thread-self/schedstat").ok();
    let nanoseconds = said.and_then(|text| text.split(' ').next()?.parse().ok());
    nanoseconds.map_or_else(|| START.elapsed(), Duration::from_nanos)
}

/// A call's processor time and its answer.
#[derive(Clone, Debug)]
pub struct Timed {
    pub time: Duration,
    pub answer: String,
}

/// In milliseconds, and the answer.
impl fmt::Display for Timed {
    fn fmt(&self, f: &mut fmt::Formatter) -> fmt::Result {
        let milliseconds = self.time.as_secs_f64() * 1e3;
        let decimals = if milliseconds < 10.0 { 2 } else { 0 };
        write!(f, "{milliseconds:.decimals$} ({})", self.answer)
    }
}

/// As [`Timed`], with the limit where there is none.
pub fn shown(measured: &Option<Timed>) -> String {
    match measured {
        Some(timed) => timed.to_string(),
        None => format!("> {} s", LIMIT.as_secs()),
    }
}
