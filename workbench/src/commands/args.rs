//! The arguments of a command.

use super::{help, Failure};
use crate::text::words::nearest;

/// Files and options.
#[derive(Clone, Debug, Default, PartialEq, Eq)]
pub struct Args {
    /// Everything that is no option.
    pub files: Vec<String>,
    /// What follows `-o`.
    pub output: Option<String>,
    options: Vec<String>,
    values: Vec<(String, String)>,
}

/// The options of each command, besides `--help`, and how many files it takes.
fn known(command: &str) -> (&'static [&'static str], usize) {
    match command {
        "check" => (&["--json", "--binary"], 2),
        "build" => (&["-o", "--choices", "--binary"], 1),
        "show" => (&["--exact", "--binary"], 1),
        "opening" => (&["--json", "--binary"], 1),
        "run" => (&["--board", "--moves", "--quiet", "--json", "--binary"], 2),
        "play" => (&["--moves", "--binary"], 2),
        "explore" => (
            &[
                "--groups", "--engine", "--first", "--all", "--moves", "--quiet", "--json",
                "--binary",
            ],
            1,
        ),
        "test" => (&["--quiet"], MOST_FOLDERS),
        _ => (&[], 0),
    }
}

/// More folders than these are not tested together.
const MOST_FOLDERS: usize = 100;

/// The options of a command that are followed by something.
fn with_value(command: &str) -> &'static [&'static str] {
    match command {
        "run" => &["--svg"],
        "explore" => &[
            "--ask",
            "--svg",
            "--never",
            "--ends",
            "--seconds",
            "--memory",
            "--dot",
            "--save",
            "--graph",
        ],
        "test" => &["--seconds", "--memory"],
        _ => &[],
    }
}

impl Args {
    /// The arguments behind a command.
    ///
    /// # Errors
    ///
    /// Where the command does not take them.
    pub fn read(command: &str, rest: &[String]) -> Result<Args, Failure> {
        let (options, most_files) = known(command);
        let mut args = Args::default();
        let mut rest = rest.iter();
        let mut only_files = false;
        while let Some(argument) = rest.next() {
            let is_option = argument.starts_with('-') && argument != "-" && !only_files;
            match argument.as_str() {
                "--" if !only_files => only_files = true,
                "--help" | "-h" if is_option => args.options.push("--help".to_owned()),
                "-o" if is_option && options.contains(&"-o") => {
                    let file = rest
                        .next()
                        .ok_or_else(|| usage(command, "-o wants a file"))?;
                    args.output = Some(file.clone());
                }
                option if is_option && with_value(command).contains(&option) => {
                    let wants = || usage(command, &format!("{option} wants something behind it"));
                    let value = rest.next().ok_or_else(wants)?;
                    args.values.push((option.to_owned(), value.clone()));
                }
                option if is_option && options.contains(&option) => {
                    args.options.push(option.to_owned());
                }
                option if is_option => {
                    let known = options.iter().chain(with_value(command)).copied();
                    let near = did_you_mean(option, known);
                    let words = format!("there is no option '{option}'{near}");
                    return Err(usage(command, &words));
                }
                file => args.files.push(file.to_owned()),
            }
        }
        if args.has("--help") {
            return Ok(args);
        }
        if args.files.is_empty() {
            return Err(usage(command, "which file?"));
        }
        if args.files.len() > most_files {
            return Err(usage(command, "too many files"));
        }
        Ok(args)
    }

    /// Whether an option was given.
    #[must_use]
    pub fn has(&self, option: &str) -> bool {
        self.options.iter().any(|given| given == option)
    }

    /// What stands behind an option, each time it was given.
    pub fn values<'a>(&'a self, option: &'a str) -> impl Iterator<Item = &'a str> {
        self.values
            .iter()
            .filter(move |(given, _)| given == option)
            .map(|(_, value)| value.as_str())
    }

    /// The file of this index.
    #[must_use]
    pub fn file(&self, index: usize) -> Option<&str> {
        self.files.get(index).map(String::as_str)
    }
}

/// The nearest of some words, as a question behind an error.
#[must_use]
pub fn did_you_mean<'a>(word: &str, known: impl Iterator<Item = &'a str>) -> String {
    nearest(word, known).map_or(String::new(), |near| format!("; did you mean '{near}'?"))
}

fn usage(command: &str, words: &str) -> Failure {
    let line = help::page(command).and_then(|page| page.lines().next());
    Failure::Usage(format!("{command}: {words}\n{}", line.unwrap_or("")))
}
