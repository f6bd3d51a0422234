//! What each command is for, a screen at most.

/// The commands.
pub const OVERVIEW: &str = "\
hall, the workbench of the hall engine: rules as text, runs in sentences

  hall check FILE [HALL]       is it accepted, and how near is each limit
  hall build FILE -o TABLE     the bytes of a text's table
  hall show FILE               the text of a table
  hall opening FILE            how its stations are laid down, turn by turn
  hall run FILE [CHOICES]      a lesson, step by step: who did what, and why
  hall play FILE [CHOICES]     the same by hand
  hall explore FILE            every way the hall can go, and what can go wrong
  hall test FOLDER             every lesson and every question below it
  hall help COMMAND            more about one of them

FILE is a text or a table of bytes; - is standard input.
Exit: 0 accepted, or as expected; 1 refused, or an expectation missed;
2 called wrongly; 3 a file cannot be read or written; 70 the program contradicts
itself.
";

/// Their words.
pub const COMMANDS: [&str; 8] = [
    "check", "build", "show", "opening", "run", "play", "explore", "test",
];

/// The page of a command.
#[must_use]
pub fn page(command: &str) -> Option<&'static str> {
    Some(match command {
        "check" => CHECK,
        "build" => BUILD,
        "show" => SHOW,
        "opening" => OPENING,
        "run" => RUN,
        "play" => PLAY,
        "explore" => EXPLORE,
        "test" => TEST,
        _ => return None,
    })
}

const CHECK: &str = "\
usage: hall check FILE [HALL] [--json] [--binary]

Says whether the engine accepts a text or a table, and how much of each limit it
uses. Errors have a line and a column of the text, or a byte of the table.

  HALL       a stored hall: is it one of this table's? Then FILE is a table of
             bytes, since a rebuilt table may number its terms differently.
  --json     one object on a line, for programs
  --binary   FILE is a table, whatever it looks like
";

const BUILD: &str = "\
usage: hall build FILE [-o TABLE] [--choices] [--binary]

Makes the table of a text and asks the engine about it. The table is read back
and compared with the text before it is handed out.

  -o TABLE    writes the bytes to this file; else they go to standard output,
              which must not be a terminal
  --choices   the lesson's choices stand behind the table, as the program that
              prints a run wants them
  --binary    FILE is a table, whatever it looks like
";

const SHOW: &str = "\
usage: hall show FILE [--exact] [--binary]

Prints the text of a table, or of a text's table. What it prints builds the same
table again, without the terms that nothing uses and with equal terms made one.

  --exact    one line a record: it builds the very same bytes, which a signed
             table needs, and stored halls, since these hold term numbers
  --binary   FILE is a table, whatever it looks like
";

const OPENING: &str = "\
usage: hall opening FILE [--json] [--binary]

Steps through the opening of the hall, as the engine does it: a line for each
turn, counted from 0. Terms wait to be opened, at first the start alone. A turn
takes the next one. Two beside each other give way to the left one, then the
right one; 'nothing' lays down no station, anything else one. Each line ends
with how many terms are left. The stations that are laid down are compared with
those of the opened hall.

  --json     one object a line, for programs
  --binary   FILE is a table, whatever it looks like
";

const RUN: &str = "\
usage: hall run FILE [CHOICES] [--moves] [--board] [--quiet] [--svg PICTURE] ..

Makes the choices of a lesson one by one. A line a step says who did what and
what the trays became: a put, a take, or a whole attempt at a block. 'do clerk'
in the lesson makes one, 'act clerk' and 'step clerk node 1' single moves;
'board' draws the hall, 'why clerk' says what an attempt will come to,
'=> commits' states an answer that is checked. After an expected refusal the
lesson goes on as a new call. In the end one run over each call's choices must
lead to the same hall.

  CHOICES        a text of choices, or their bytes, instead of those in FILE
  --moves        every single move, in a sentence
  --board        the hall after every step, with --moves after every move
  --quiet        nothing but errors and the last line
  --svg PICTURE  the run drawn: a line a station, a mark a step
  --json         one object a line, for programs
  --binary       FILE is a table, whatever it looks like
";

const PLAY: &str = "\
usage: hall play FILE [CHOICES] [--moves] [--binary]

Shows the hall and what each station would do next, and does what you name by
its number, or as a lesson says it: do clerk, act clerk, step clerk node 1.
Enter takes the suggested one, number 1: the first station that can move, and
inside its attempt the first node that can. CHOICES are made first. Equal
stations are listed once.

  go, go clerk, go 2   a put, a take or a whole attempt
  u, r                 takes the last one back; does it again
  b                    the hall once more (board)
  w clerk              why: what an attempt will come to
  moves, steps         lists single moves, as with --moves; lists whole steps
  save FILE            what was done, with what it answered, as a lesson's text
  save! FILE           the same over a file that is there
  h                    what can be typed
  q                    leaves

At a terminal the arrows move in the line and bring back earlier lines. Ctrl-C
keeps what was done in a new file, says which, and leaves.
";

const EXPLORE: &str = "\
usage: hall explore FILE [--ask Q] [--quiet] [--groups] [--engine] ..

Tries every way the hall can go, a block acting in one step. Says where it ends
or goes round for ever, who is left, what trays have, who never acts, whether a
limit is met. Ways are told by steps, and were made on the engine before.
Questions of the text are answered, then those of the call:
  --ask 'never Q'  or 'at every end Q', 'always possible Q', 'Q leads to Q'. Q
                   has = != < <= > >= + - and or not ( ), trays, numbers,
                   stations, '2 of desk inside', 'desk commits'. Quote it.
  --never Q        the same as --ask 'never Q'; --ends Q as 'at every end Q'
  --quiet          the answers alone, a line each
  --groups         the smallest group of the opening's stations with the fault
  --engine         by the engine's own steps, and compares: for small halls
  --all            every sort of end; else the nearest 12, with --json 1000
  --moves          each way as choices for 'hall run'
  --save NAME      the same as files: NAME-end-1.choices, NAME-never-1.choices
  --svg PICTURE    each way drawn: a line a station, a mark a step
  --dot PICTURE    a picture of a small hall, for Graphviz
  --seconds N, --memory MB
                   stop there, as Ctrl-C does; then nothing is said to hold
  --json           one object, for programs; --graph N puts the graph into it
  --binary         FILE is a table, whatever it looks like
  --first          stops at the first fault
Exit: 1 where something asked is broken or not known, or --engine had to stop.
";

const TEST: &str = "\
usage: hall test FOLDER.. [--quiet] [--seconds N] [--memory MB]

Runs the lesson and asks the questions of every text below a folder, one line
each: its name ends in .hall. A text below a folder 'refused' has to be refused.
FOLDER may be a text too.

  --quiet      what is broken, and the last line
  --seconds N  asks a text's questions no longer; what is not known is broken
  --memory MB  the same; 2000 where nothing is said
Exit: 1 where a lesson or a question is broken, or a text is refused.
";
