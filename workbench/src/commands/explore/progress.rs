//! How far an exploration is, each second, for a person who waits.

use std::io::{self, IsTerminal, Write};
use std::time::{Duration, Instant};

use crate::explore::report::grouped;

const EVERY: Duration = Duration::from_secs(1);

/// As wide as a line of it gets.
const WIDTH: usize = 72;

/// Tells on standard error how many situations there are, where that is a
/// terminal, and wipes its line away in the end; else it tells nothing.
pub(super) struct Progress {
    began: Instant,
    next: Instant,
    terminal: bool,
    told: bool,
}

impl Progress {
    pub(super) fn new() -> Progress {
        let began = Instant::now();
        Progress {
            began,
            next: began + EVERY,
            terminal: io::stderr().is_terminal(),
            told: false,
        }
    }

    /// So many situations are there, and so many of them are done with.
    pub(super) fn tell(&mut self, seen: usize, done: usize) {
        if !self.terminal {
            return;
        }
        let now = Instant::now();
        if now < self.next {
            return;
        }
        self.next = now + EVERY;
        self.told = true;
        line(&words(seen, done, self.began.elapsed()));
    }
}

impl Progress {
    /// Wipes its line away, if there is one.
    pub(super) fn wipe(&mut self) {
        if self.told {
            line("");
            self.told = false;
        }
    }
}

impl Drop for Progress {
    fn drop(&mut self) {
        self.wipe();
    }
}

fn words(seen: usize, done: usize, time: Duration) -> String {
    let number = |count: usize| grouped(u64::try_from(count).unwrap_or(u64::MAX));
    format!(
        "{} situations, {} still to go on from, {} s",
        number(seen),
        number(seen.saturating_sub(done)),
        time.as_secs()
    )
}

/// Whether anybody sees it changes nothing.
fn line(words: &str) {
    let _ = write!(io::stderr(), "\r{words:<WIDTH$}\r");
}

#[cfg(test)]
mod tests {
    use super::{words, WIDTH};
    use std::time::Duration;

    #[test]
    fn what_a_person_sees() {
        let told = words(1_234_567, 234_567, Duration::from_millis(12_900));
        assert_eq!(
            told,
            "1,234,567 situations, 1,000,000 still to go on from, 12 s"
        );
        let most = words(999_999_999, 0, Duration::from_secs(99_999));
        assert!(most.len() <= WIDTH, "{most}");
    }
}
