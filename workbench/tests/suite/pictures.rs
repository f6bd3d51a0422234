//! Pictures of runs: whole, escaped, the same each time, and with a mark for each
//! line that is told.

use std::fmt::Write as _;
use std::fs;

use crate::common::{files, hall_in, name_of, package, scratch};

/// Whether every tag is closed by its own, and no letter that means something
/// stands between them.
fn well_formed(picture: &str) -> Result<usize, String> {
    let mut open: Vec<&str> = Vec::new();
    let mut rest = picture;
    let mut tags = 0;
    while let Some(begin) = rest.find('<') {
        let text = &rest[..begin];
        if text.contains('>') || text.contains('\'') {
            return Err(format!("a sign in {text}"));
        }
        let end = rest[begin..].find('>').ok_or("no end")? + begin;
        let tag = &rest[begin + 1..end];
        let name = tag
            .trim_start_matches('/')
            .split([' ', '/'])
            .next()
            .unwrap_or("");
        if tag.matches('"').count() % 2 != 0 {
            return Err(format!("quotes of {tag}"));
        }
        match (tag.starts_with('/'), tag.ends_with('/')) {
            (true, _) if open.pop() != Some(name) => return Err(format!("closes {tag}")),
            (false, false) => open.push(name),
            _ => {}
        }
        tags += 1;
        rest = &rest[end + 1..];
    }
    if open.is_empty() && rest.trim().is_empty() {
        Ok(tags)
    } else {
        Err(format!("open: {open:?}"))
    }
}

/// The numbers of the lines that are told, without those that are refused.
fn told(out: &str) -> Vec<String> {
    let lines = out.lines().filter(|line| !line.contains("refused"));
    let numbers = lines.filter_map(|line| {
        let number = line.get(..6)?.strip_suffix("  ")?.trim();
        let digits = number.starts_with(|letter: char| letter.is_ascii_digit());
        (digits && line.get(6..7) != Some(" ")).then(|| number.to_owned())
    });
    numbers.collect()
}

#[test]
fn every_example_drawn() {
    let folder = scratch("pictures");
    let examples = package().join("examples");
    let mut marks = 0;
    for file in files(&examples, "hall") {
        let name = name_of(&file);
        let path = file.to_str().unwrap();
        let answer = hall_in(&folder, &["run", path, "--svg", "run.svg"], b"");
        assert_eq!((answer.code, answer.err.as_str()), (Some(0), ""), "{name}");
        let picture = fs::read_to_string(folder.join("run.svg")).unwrap();
        well_formed(&picture).unwrap_or_else(|wrong| panic!("{name}: {wrong}\n{picture}"));
        let numbers: Vec<String> = picture
            .split("<title>")
            .skip(1)
            .map(|it| it.split(' ').next().unwrap().to_owned())
            .collect();
        assert_eq!(numbers, told(&answer.out), "{name}\n{}", answer.out);
        marks += numbers.len();
        // However the run is told, it is drawn the same.
        for option in ["--moves", "--quiet", "--json"] {
            let again = ["run", path, option, "--svg", "again.svg"];
            assert_eq!(hall_in(&folder, &again, b"").code, Some(0), "{name}");
            let again = fs::read_to_string(folder.join("again.svg")).unwrap();
            assert!(again == picture, "{name} {option}");
        }
    }
    assert!(marks > 150, "{marks}");
}

#[test]
fn ways_drawn() {
    let folder = scratch("ways-drawn");
    let ballots = package().join("examples/ballots.hall");
    fs::copy(ballots, folder.join("ballots.hall")).unwrap();
    let explore = [
        "explore",
        "ballots.hall",
        "--ends",
        "counted=1",
        "--svg",
        "ways.svg",
    ];
    let answer = hall_in(&folder, &explore, b"");
    assert_eq!((answer.code, answer.err.as_str()), (Some(1), ""));
    let picture = fs::read_to_string(folder.join("ways.svg")).unwrap();
    assert!(well_formed(&picture).unwrap() > 100, "{picture}");
    for title in [
        "end-1, after 6 steps",
        "end-2, after 7 steps",
        // The text's own questions come first.
        "never-1, after 5 steps",
        "ends-2, after 6 steps",
        "possible-3, after 4 steps",
        "leads-to-4, after 6 steps",
        "ends-6, after 6 steps",
    ] {
        let title = format!(">ballots.hall: {title}</text>");
        assert_eq!(picture.matches(&title).count(), 1, "{title}");
    }
    let marks = 6 + 7 + 5 + 6 + 4 + 6 + 6;
    assert_eq!(picture.matches("<title>").count(), marks);
    assert!(
        picture.contains(">desk&#39;s put aside</text>"),
        "{picture}"
    );
    // The file that is read is not written over.
    let over = ["explore", "ballots.hall", "--svg", "ballots.hall"];
    assert_eq!(hall_in(&folder, &over, b"").code, Some(2));
    let over = ["run", "ballots.hall", "--svg", "ballots.hall"];
    assert_eq!(hall_in(&folder, &over, b"").code, Some(2));
}

/// Pictures to the byte.
#[test]
fn pictures_to_the_byte() {
    let folder = scratch("picture");
    for name in ["ballots", "leader"] {
        let hall = format!("{name}.hall");
        let example = package().join("examples").join(&hall);
        fs::copy(example, folder.join(&hall)).unwrap();
        let answer = hall_in(&folder, &["run", &hall, "--svg", "run.svg"], b"");
        assert_eq!(answer.code, Some(0));
        let picture = fs::read_to_string(folder.join("run.svg")).unwrap();
        let expected = package().join(format!("tests/screens/{name}.svg"));
        assert_eq!(picture, fs::read_to_string(expected).unwrap());
    }
}

#[test]
fn too_many_steps_for_a_picture() {
    let folder = scratch("no-picture");
    let mut rules = String::new();
    for rule in 0..9 {
        let _ = writeln!(rules, "rule r{rule} is repeatedly take a then put a");
    }
    // Turns of nine stations that never repeat in the same order.
    let mut long = format!("tray a has 1\n{rules}start r0");
    for rule in 1..9 {
        let _ = write!(long, " beside r{rule}");
    }
    long.push_str("\nchoices\n");
    let mut seed: u32 = 7;
    for _ in 0..250 {
        seed = seed.wrapping_mul(1_664_525).wrapping_add(1_013_904_223);
        let rule = (seed >> 16) % 9;
        let _ = writeln!(long, "  do r{rule}  do r{rule}'s put a");
    }
    fs::write(folder.join("long.hall"), long).unwrap();
    let answer = hall_in(
        &folder,
        &["run", "long.hall", "--quiet", "--svg", "no.svg"],
        b"",
    );
    assert_eq!(answer.code, Some(3), "{}", answer.err);
    let words = "hall: no picture in no.svg: there are more than 400 steps\n";
    assert_eq!(answer.err, words);
    assert!(!folder.join("no.svg").exists());
}
