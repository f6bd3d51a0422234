//! A terminal that hands over every key at once, for as long as this lives.

use std::process::{Command, Stdio};

/// The terminal was asked for keys; it is set back when this goes.
#[derive(Debug)]
pub(super) struct Raw {
    /// How it was, in the words of `stty`.
    before: String,
}

impl Raw {
    /// Asks the terminal at standard input; none where it can't be asked.
    pub(super) fn begin() -> Option<Raw> {
        let before = stty(&["-g"])?.trim().to_owned();
        let raw = Raw { before };
        // Ctrl-C comes as a key too: it must not end the program before the
        // terminal is set back.
        stty(&["-icanon", "-echo", "-isig", "min", "1", "time", "0"]).map(|_| raw)
    }
}

impl Drop for Raw {
    fn drop(&mut self) {
        let _ = stty(&[&self.before]);
    }
}

/// What `stty` answers; none where it is missing or refuses.
fn stty(words: &[&str]) -> Option<String> {
    let answer = Command::new("stty")
        .args(words)
        .stdin(Stdio::inherit())
        .stderr(Stdio::null())
        .output()
        .ok()?;
    let answered = answer.status.success();
    answered.then(|| String::from_utf8_lossy(&answer.stdout).into_owned())
}
