//! How far a long walk is, on standard error where that is a terminal.

use crate::status::{counted, grouped};
use crossterm::terminal::{Clear, ClearType};
use std::io::{self, IsTerminal, Write};
use std::sync::atomic::{AtomicBool, AtomicU32, AtomicU64, Ordering};
use std::sync::{Arc, Mutex, MutexGuard};
use std::thread::{self, JoinHandle};
use std::time::{Duration, Instant};

/// A walk that takes less is not spoken of.
const QUIET: Duration = Duration::from_millis(500);
const TICK: Duration = Duration::from_millis(200);

#[derive(Default)]
struct Shared {
    /// the steps that the library has been asked for
    asked: AtomicU32,
    answers: AtomicU64,
    ended: AtomicBool,
    /// whether the line stands on the terminal
    shown: Mutex<bool>,
}

impl Shared {
    /// Takes the line away; it does not come back while the guard is held.
    fn clear(&self) -> Option<MutexGuard<'_, bool>> {
        let mut shown = self.shown.lock().ok()?;
        if std::mem::take(&mut *shown) {
            _ = write!(io::stderr(), "\r{}", Clear(ClearType::CurrentLine));
        }
        Some(shown)
    }

    fn show(&self, since: Instant) {
        let (asked, answers) = (self.asked.load(Ordering::Relaxed), self.answers.load(Ordering::Relaxed));
        if let Ok(mut shown) = self.shown.lock() {
            *shown = true;
            let line = format!("walking up to {} steps: {}, {} s", grouped(asked.into()), counted(answers, "answer"), since.elapsed().as_secs());
            _ = write!(io::stderr(), "\r{}{line}", Clear(ClearType::CurrentLine)).and_then(|()| io::stderr().flush());
        }
    }
}

/// A counter that is shown while a walk is long.
pub struct Progress {
    shared: Arc<Shared>,
    ticker: Option<JoinHandle<()>>,
}

impl Progress {
    /// Shown on a terminal, else silent.
    pub fn new() -> Progress {
        let shared = Arc::new(Shared::default());
        let ticked = Arc::clone(&shared);
        let since = Instant::now();
        let ticks = move || {
            while !ticked.ended.load(Ordering::Relaxed) {
                thread::park_timeout(TICK);
                if since.elapsed() > QUIET && !ticked.ended.load(Ordering::Relaxed) {
                    ticked.show(since);
                }
            }
        };
        let ticker = if io::stderr().is_terminal() { thread::Builder::new().spawn(ticks).ok() } else { None };
        Progress { shared, ticker }
    }

    /// What is to be told of each asking.
    pub fn asking(&self) -> impl FnMut(u32) + 'static {
        let shared = Arc::clone(&self.shared);
        move |steps| shared.asked.store(steps, Ordering::Relaxed)
    }

    /// Makes room for an answer.
    pub fn answer(&self) -> Option<MutexGuard<'_, bool>> {
        self.shared.answers.fetch_add(1, Ordering::Relaxed);
        self.shared.clear()
    }
}

impl Drop for Progress {
    fn drop(&mut self) {
        self.shared.ended.store(true, Ordering::Relaxed);
        if let Some(ticker) = self.ticker.take() {
            ticker.thread().unpark();
            _ = ticker.join();
        }
        _ = self.shared.clear();
    }
}
