//! Playing at a terminal, which the program `script` makes: keys, earlier lines,
//! Ctrl-C.

use std::fs;
use std::io::{Read as _, Write as _};
use std::path::Path;
use std::process::{Child, ChildStdin, ChildStdout, Command, Stdio};

use crate::common::scratch;

const TEXT: &str = "\
tray a has 2
tray b
rule desk is block (take a, put b, end)
start 2 of desk
";

/// A session at a terminal.
struct Session {
    child: Child,
    keys: ChildStdin,
    screen: ChildStdout,
}

impl Session {
    /// Plays in a folder, with this told to the terminal before and behind it.
    fn begin(folder: &Path, before: &str, behind: &str) -> Session {
        let hall = env!("CARGO_BIN_EXE_hall");
        let command = format!("{before}{hall} play a.hall{behind}");
        let mut child = Command::new("script")
            .args(["-qec", &command, "/dev/null"])
            .current_dir(folder)
            .env_remove("COLUMNS")
            .env("TERM", "dumb")
            .stdin(Stdio::piped())
            .stdout(Stdio::piped())
            .spawn()
            .expect("the program script");
        let keys = child.stdin.take().unwrap();
        let screen = child.stdout.take().unwrap();
        Session {
            child,
            keys,
            screen,
        }
    }

    /// What is shown up to the next prompt.
    fn until_prompt(&mut self) -> String {
        let mut shown = Vec::new();
        let mut byte = [0];
        while !shown.ends_with(b"\n> ") {
            assert_eq!(self.screen.read(&mut byte).unwrap(), 1, "the end");
            shown.push(byte[0]);
        }
        String::from_utf8(shown).unwrap().replace('\r', "")
    }

    /// Presses keys, and shows what comes up to the next prompt.
    fn press(&mut self, keys: &str) -> String {
        self.keys.write_all(keys.as_bytes()).unwrap();
        self.until_prompt()
    }

    /// Presses the last keys, and shows all that is left.
    fn last(mut self, keys: &str) -> String {
        self.keys.write_all(keys.as_bytes()).unwrap();
        let mut shown = String::new();
        self.screen.read_to_string(&mut shown).unwrap();
        drop(self.keys);
        assert!(self.child.wait().unwrap().success());
        shown.replace('\r', "")
    }
}

fn folder(name: &str) -> std::path::PathBuf {
    let folder = scratch(name);
    fs::write(folder.join("a.hall"), TEXT).unwrap();
    folder
}

const UP: &str = "\u{1b}[A";
const LEFT: &str = "\u{1b}[D";

/// Ctrl-C keeps the session in a new file, and the terminal is as it was.
#[test]
fn the_session_is_kept_at_ctrl_c() {
    let folder = folder("ctrl-c");
    fs::write(folder.join("a-played.choices"), "mine\n").unwrap();
    let mut session = Session::begin(&folder, "", "; stty -a");
    session.until_prompt();
    session.press("go desk 2\r");
    let left = session.last("half a line\u{3}");
    let words = "1 line written to a-played-2.choices: hall run a.hall a-played-2.choices";
    assert!(left.contains(words), "{left}");
    assert!(left.contains("isig icanon iexten echo echoe"), "{left}");
    assert!(!left.contains("-isig"), "{left}");
    let kept = fs::read_to_string(folder.join("a-played-2.choices")).unwrap();
    assert_eq!(kept, "choices\n  do desk 2 => commits\n");
    let other = fs::read_to_string(folder.join("a-played.choices")).unwrap();
    assert_eq!(other, "mine\n");
}

/// Where nothing was done, nothing is kept.
#[test]
fn nothing_to_keep() {
    let folder = folder("nothing-to-keep");
    let mut session = Session::begin(&folder, "", "");
    session.until_prompt();
    let left = session.last("\u{3}");
    assert!(!left.contains("written"), "{left}");
    assert!(!folder.join("a-played.choices").exists());
    // All of it is kept already.
    let mut session = Session::begin(&folder, "", "");
    session.until_prompt();
    session.press("1\r");
    session.press("save it.choices\r");
    let left = session.last("\u{3}");
    assert!(!left.contains("written"), "{left}");
    assert!(!folder.join("a-played.choices").exists());
}

/// Arrows move in the line and bring back earlier ones.
#[test]
fn arrows_and_earlier_lines() {
    let folder = folder("arrows");
    let mut session = Session::begin(&folder, "", "");
    session.until_prompt();
    let shown = session.press(&format!("go dsk 2{LEFT}{LEFT}{LEFT}{LEFT}e\r"));
    assert!(shown.contains("desk 2 commits"), "{shown}");
    let shown = session.press(&format!("{UP}\u{7f}1\r"));
    assert!(shown.contains("desk 1 commits"), "{shown}");
    let shown = session.press(&format!("{UP}{UP}\r"));
    assert!(shown.contains("> go desk 2"), "{shown}");
    session.press("u\r");
    let left = session.last("q\r");
    assert!(!left.contains("error"), "{left}");
}

/// Lines are as wide as the terminal.
#[test]
fn the_width_of_the_terminal() {
    let folder = folder("width-of-terminal");
    for (columns, lines) in [(40, 2), (120, 1)] {
        let mut session = Session::begin(&folder, &format!("stty cols {columns}; "), "");
        session.until_prompt();
        let shown = session.press("save a.hall\r");
        let said: Vec<&str> = shown
            .lines()
            .skip_while(|line| !line.starts_with("      a.hall is"))
            .take_while(|line| line.starts_with("      "))
            .collect();
        assert!(
            said.len() >= lines && said.len() <= 3 * lines - 2,
            "{shown}"
        );
        assert!(said.iter().all(|line| line.len() <= columns), "{shown}");
        session.last("\u{4}");
    }
}
