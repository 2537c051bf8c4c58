//! How far a long run is, on a terminal, and whether it is to stop.
use std::io::{BufRead, IsTerminal, Write};
use std::sync::Arc;
use std::sync::atomic::{AtomicBool, Ordering};
use std::time::{Duration, Instant};

/// Runs of fewer states are over before a line could be read.
const LONG: usize = 1000;
const EACH: Duration = Duration::from_millis(200);

pub struct Progress {
    total: usize,
    begun: usize,
    started: Instant,
    shown: Instant,
    on: bool,
    said: bool,
    stop: Arc<AtomicBool>,
}

/// Whether this process may read its terminal: one in the background would be held.
fn in_front() -> bool {
    let stat = std::fs::read_to_string("/proc/self/stat").unwrap_or_default();
    // after the name: state, parent, group, session, terminal, the terminal's group
    let after: Vec<&str> = stat.rsplit(')').next().unwrap_or_default().split_whitespace().collect();
    after.len() > 5 && after[2] == after[5]
}

/// Sets the mark when a line is entered.
fn listen(stop: Arc<AtomicBool>) {
    std::thread::spawn(move || {
        let mut line = String::new();
        if std::io::stdin().lock().read_line(&mut line).is_ok_and(|n| n > 0) {
            stop.store(true, Ordering::Relaxed);
        }
    });
}

impl Progress {
    pub fn new(total: usize, begun: usize) -> Progress {
        let on = total >= LONG && std::io::stderr().is_terminal();
        let stop = Arc::new(AtomicBool::new(false));
        if on && std::io::stdin().is_terminal() && in_front() {
            listen(stop.clone());
        }
        let now = Instant::now();
        Progress { total, begun, started: now, shown: now, on, said: false, stop }
    }
    pub fn is_stopped(&self) -> bool {
        self.stop.load(Ordering::Relaxed)
    }
    pub fn show(&mut self, done: usize) {
        if self.on && self.shown.elapsed() >= EACH {
            self.shown = Instant::now();
            self.said = true;
            // a line of progress that cannot be shown is no trouble
            let _ = write!(std::io::stderr(), "\r\x1b[K{}", line(done, self.begun, self.total, self.started.elapsed()));
        }
    }
    pub fn clear(&self) {
        if self.said {
            let _ = write!(std::io::stderr(), "\r\x1b[K");
        }
    }
}

fn line(done: usize, begun: usize, total: usize, took: Duration) -> String {
    let (worked, left) = (done.saturating_sub(begun).max(1), total.saturating_sub(done));
    let seconds = took.as_secs_f64() / worked as f64 * left as f64;
    format!("{done} of {total} states, {} %, some {} s left; Enter stops", done * 100 / total.max(1), seconds.ceil() as u64)
}

#[cfg(test)]
mod tests {
    use super::*;

    #[test]
    fn a_line_of_progress_says_how_far_and_how_long() {
        let said = line(3000, 1000, 10000, Duration::from_secs(4));
        assert_eq!(said, "3000 of 10000 states, 30 %, some 14 s left; Enter stops");
        assert!(line(0, 0, 1000, Duration::ZERO).starts_with("0 of 1000 states, 0 %"));
    }
}
