//! Questions: what they mean, and where a mistake in one is.

use reference::generator::Random;
use workbench::explore::question::Binder;
use workbench::explore::situations::Glance;
use workbench::table::Table;
use workbench::text::asking::{self, Asked};
use workbench::text::tree::Program;

use crate::common::{explore, BALLOTS};

#[test]
fn mistakes_in_questions() {
    for (question, column, words) in [
        (
            "",
            1,
            "a tray, a station or a number is wanted here, and there is nothing more",
        ),
        (
            "balot > 1",
            1,
            "no tray or rule is called 'balot': did you mean 'ballot'?",
        ),
        (
            "counted",
            8,
            "a comparison, one of = != < <= > >=, is wanted here, and there is nothing more; put the \
             question in quotes, since < and > are the shell's",
        ),
        ("counted == 1", 9, "write '=' for '=='"),
        (
            "counted > ",
            11,
            "a tray, a station or a number is wanted here, and there is nothing more",
        ),
        (
            "counted > 1 aside",
            13,
            "'and', 'or' or the end is wanted here, and there is 'aside'",
        ),
        (
            "(counted > 1",
            13,
            "')' is wanted here, and there is nothing more",
        ),
        (
            "counted > 1)",
            12,
            "'and', 'or' or the end is wanted here, and there is ')'",
        ),
        ("counted > 1000000", 11, "a number is at most 999999"),
        ("counted > 1x", 11, "'1x' is neither a number nor a tray"),
        ("counted & 1", 9, "'&' has no meaning here"),
        (
            "not not",
            8,
            "a tray, a station or a number is wanted here, and there is nothing more",
        ),
        (
            "counted > and",
            11,
            "a tray, a station or a number is wanted here, and there is 'and'",
        ),
        (
            "\u{e4}\u{e4} = \u{fc}",
            1,
            "no tray or rule is called '\u{e4}\u{e4}': there are ballot, screen, call, aside, counted, \
             desk, guest, bell",
        ),
        ("counted > 1 or \t?", 17, "'?' has no meaning here"),
    ] {
        for option in ["--never", "--ends"] {
            let (code, out, err) = explore(BALLOTS, &[option, question]);
            assert_eq!((code, out.as_str()), (2, ""), "{question}");
            let first = format!("hall: explore: {option}, column {column}: {words}");
            let lines: Vec<&str> = err.lines().collect();
            assert_eq!(lines[0], first);
            let caret = lines[2].find('^').unwrap();
            assert_eq!(caret, 4 + column - 1, "{err}");
        }
    }
    let deep = format!("{}a = 1", "not ".repeat(65));
    let (code, _, err) = explore("tray a start put a\n", &["--never", &deep]);
    assert_eq!(code, 2);
    assert!(
        err.contains("column 257: brackets nest 64 deep at most"),
        "{err}"
    );
}

/// Pieces of questions by chance: read or not, and a mistake lies in the text
/// or just behind it.
#[test]
fn questions_of_any_words() {
    let pieces = [
        "a",
        "a-b",
        "c",
        "stations",
        "and",
        "or",
        "not",
        "(",
        ")",
        "=",
        "!=",
        "<",
        "<=",
        ">",
        ">=",
        "+",
        "-",
        "0",
        "1",
        "7x",
        "999999",
        "1000000",
        "==",
        "!",
        "&",
        "\u{e4}",
        " ",
        "\t",
        "\u{0}",
        "_",
        "put a",
        "of",
        "stands",
        "waits",
        "at put a-b",
        "never ",
        "always possible ",
        "at every end ",
        " leads to ",
    ];
    let table = Table::read(&[2, 0, 12, 1, 1, 13, 0]).unwrap();
    let mut program = Program::of_table(&table);
    program.trays[0].name = "a".to_owned();
    program.trays[1].name = "a-b".to_owned();
    let binder = Binder::new(&table, &program);
    let mut random = Random::new(7);
    let (mut read, mut led) = (0, 0);
    for _ in 0..100_000 {
        let mut text = String::new();
        for _ in 0..random.below(9) {
            text.push_str(pieces[random.below(pieces.len())]);
            text.push_str(["", " "][random.below(2)]);
        }
        let asked = asking::read(&text, &program).and_then(|asking| binder.bind(&asking));
        led += usize::from(asked.is_ok());
        match binder.read(Asked::Never, &text) {
            Ok(question) => {
                read += 1;
                let _ = question.holds(Glance::of_codes(&[0, 255], &[0; 64], 1));
            }
            Err(mistake) => {
                let last = mistake.column + mistake.length - 1;
                assert!(mistake.column >= 1 && mistake.length >= 1, "{text:?}");
                assert!(last <= text.chars().count() + 1, "{text:?}: {mistake:?}");
            }
        }
    }
    assert!(read > 100 && led > 10, "{read} {led}");
}

#[test]
fn questions_mean_what_they_say() {
    // One token goes from a to b: (1, 0) with one station, (0, 0), (0, 1).
    let text = "tray a has 1\ntray a-b\ntray c\nstart take a then put a-b\n";
    for (question, so) in [
        ("a = 1 and a-b = 0 and stations = 1", true),
        ("a = 1 and a-b = 1", false),
        ("a + a-b = 0", true),
        ("a - a-b = 1", true),
        ("a - a-b < 0", true),
        ("a - a-b < 0 - 1", false),
        ("a = 2 or a-b = 2 or c > 0", false),
        ("not a <= 1", false),
        ("not (a = 0 or a = 1)", false),
        ("a != 0 and a != 1", false),
        ("a >= 1 and stations != 1", false),
        ("a < 1 and stations = 0", true),
        ("a = 2 or a = 1 and a-b = 1", false),
        ("(a = 2 or a = 1) and a-b = 0", true),
        ("3 = 2 + 1", true),
    ] {
        let (code, out, err) = explore(text, &["--never", question]);
        assert_eq!(
            (code, err.as_str()),
            (u8::from(so), ""),
            "{question}\n{out}"
        );
    }
}
