//! Feeds many inputs to two programs that print a run and compares what they
//! print, byte by byte. The first difference is shown, and the exit status is 1.
//!
//! `compare-programs PROGRAM PROGRAM [INPUTS [SEED]]`

use std::env;
use std::io::{self, ErrorKind, Write};
use std::process::{exit, Command, Stdio};
use std::thread;
use std::time::Duration;

use reference::generator::{self, Random};
use reference::print::LONGEST_INPUT;

/// How an input is handed over.
#[derive(Clone, Debug, PartialEq, Eq)]
enum Handed {
    /// Written at once.
    Whole,
    /// In pieces of at most so many bytes, with a pause before each.
    InPieces(usize),
    /// At once, and far more than a program needs to read: it must stop.
    FarTooMuch,
}

#[derive(Clone, Debug)]
struct Input {
    name: String,
    bytes: Vec<u8>,
    handed: Handed,
}

/// What became of an input.
#[derive(Debug, PartialEq, Eq)]
struct Ended {
    status: Option<i32>,
    printed: Vec<u8>,
}

/// What was met over all inputs.
#[derive(Debug, Default)]
struct Met {
    inputs: usize,
    bytes: usize,
    numbers: [usize; 21],
    long: usize,
}

impl Met {
    fn note(&mut self, input: &Input, printed: &[u8]) {
        self.inputs += 1;
        self.bytes += input.bytes.len();
        if printed == b"long\n" {
            self.long += 1;
            return;
        }
        let text = String::from_utf8_lossy(printed);
        let number = text.split([' ', '\n']).nth(1).map(str::parse);
        if let Some(Ok(number)) = number {
            if let Some(times) = self.numbers.get_mut::<usize>(number) {
                *times += 1;
            }
        }
    }

    fn add(&mut self, other: &Met) {
        self.inputs += other.inputs;
        self.bytes += other.bytes;
        self.long += other.long;
        for (sum, more) in self.numbers.iter_mut().zip(other.numbers) {
            *sum += more;
        }
    }

    /// Every number that can be printed was, and `long` too.
    fn is_varied(&self) -> bool {
        let met = |number: usize| self.numbers[number] > 0;
        self.long > 0 && (0..10).chain(12..21).all(met)
    }
}

/// Hands an input over. A program may stop reading once it knows that the input
/// is too long.
fn hand_over(mut pipe: impl Write, input: &Input) -> io::Result<()> {
    let piece = match input.handed {
        Handed::InPieces(most) => most,
        _ => input.bytes.len().max(1),
    };
    for bytes in input.bytes.chunks(piece) {
        if let Handed::InPieces(_) = input.handed {
            thread::sleep(Duration::from_millis(3));
        }
        match pipe.write_all(bytes) {
            Ok(()) => {}
            Err(error) if stopped(&error) && input.bytes.len() > LONGEST_INPUT => return Ok(()),
            Err(error) => return Err(error),
        }
    }
    if input.handed == Handed::FarTooMuch {
        return Err(io::Error::other("it read all of it"));
    }
    Ok(())
}

fn stopped(error: &io::Error) -> bool {
    error.kind() == ErrorKind::BrokenPipe
}

fn run(program: &str, input: &Input) -> io::Result<Ended> {
    let mut child = Command::new(program)
        .stdin(Stdio::piped())
        .stdout(Stdio::piped())
        .spawn()?;
    if let Some(pipe) = child.stdin.take() {
        hand_over(pipe, input)?;
    }
    let output = child.wait_with_output()?;
    Ok(Ended {
        status: output.status.code(),
        printed: output.stdout,
    })
}

/// The difference between the two programs on an input, where there is one.
fn compare(programs: &[String; 2], input: &Input, met: &mut Met) -> Result<(), String> {
    let [first, second] = programs;
    let ended = |program: &String| {
        run(program, input).map_err(|error| format!("{program} on {}: {error}", input.name))
    };
    let (one, other) = (ended(first)?, ended(second)?);
    if one == other && one.status == Some(0) {
        met.note(input, &one.printed);
        return Ok(());
    }
    let shown = |ended: &Ended| {
        let text = String::from_utf8_lossy(&ended.printed);
        format!("status {:?}\n{text}", ended.status)
    };
    let some = &input.bytes[..input.bytes.len().min(600)];
    Err(format!(
        "{}, {} bytes: {some:?}\n{first}: {}\n{second}: {}",
        input.name,
        input.bytes.len(),
        shown(&one),
        shown(&other)
    ))
}

/// Inputs that arrive in pieces, and some far longer than the limit.
fn special_inputs(seed: u64) -> Vec<Input> {
    let example = [
        7, 10, 1, 0, 9, 0, 1, 6, 2, 12, 0, 1, 13, 3, 1, 0, 2, 0, 0, 2, 0, 0, 1, 0, 1, 0,
    ];
    let mut inputs = Vec::new();
    let mut add = |name: &str, bytes: &[u8], handed: Handed| {
        inputs.push(Input {
            name: name.to_string(),
            bytes: bytes.to_vec(),
            handed,
        });
    };
    add("nothing", &[], Handed::Whole);
    add("byte by byte", &example, Handed::InPieces(1));
    let mut random = Random::new(seed);
    for _ in 0..20 {
        let bytes = generator::input(&mut random);
        let most = bytes.len() / random.between(2, 9) + 1;
        add("in pieces", &bytes, Handed::InPieces(most));
    }
    for length in [LONGEST_INPUT, LONGEST_INPUT + 1] {
        let mut bytes = vec![8, 6, 0, 1, 13, 1];
        bytes.resize(length, 1);
        add("the limit, whole", &bytes, Handed::Whole);
        add("the limit, in pieces", &bytes, Handed::InPieces(1_000));
        bytes.truncate(LONGEST_INPUT - 1);
        bytes.extend(vec![0; length + 1 - LONGEST_INPUT]);
        let most = LONGEST_INPUT - 1;
        add("the last bytes alone", &bytes, Handed::InPieces(most));
    }
    let far = vec![1; 30_000_000];
    add("far too long", &far, Handed::FarTooMuch);
    add("too long, whole", &far[..60_000], Handed::Whole);
    add(
        "too long, in pieces",
        &far[..60_000],
        Handed::InPieces(4_000),
    );
    inputs
}

/// One seed for each input by chance.
fn by_chance(seed: u64) -> Input {
    Input {
        name: format!("seed {seed}"),
        bytes: generator::input(&mut Random::new(seed)),
        handed: Handed::Whole,
    }
}

fn compare_all(programs: &[String; 2], inputs: u64, seed: u64) -> Result<Met, String> {
    let mut met = Met::default();
    for input in special_inputs(seed) {
        compare(programs, &input, &mut met)?;
    }
    let threads = thread::available_parallelism().map_or(1, usize::from);
    let parts: Vec<Result<Met, String>> = thread::scope(|scope| {
        let workers: Vec<_> = (0..threads)
            .map(|worker| {
                scope.spawn(move || {
                    let mut met = Met::default();
                    for index in (0..inputs).skip(worker).step_by(threads) {
                        compare(programs, &by_chance(seed + index), &mut met)?;
                    }
                    Ok(met)
                })
            })
            .collect();
        let joined = workers.into_iter().map(thread::ScopedJoinHandle::join);
        joined.map(|part| part.expect("a worker ends")).collect()
    });
    for part in parts {
        met.add(&part?);
    }
    Ok(met)
}

fn main() {
    let words: Vec<String> = env::args().skip(1).collect();
    let number = |at: usize, usual: u64| {
        let word = words.get(at);
        word.map_or(usual, |word| word.parse().expect("a number"))
    };
    let [first, second, ..] = &words[..] else {
        eprintln!("compare-programs PROGRAM PROGRAM [INPUTS [SEED]]");
        exit(2);
    };
    let (inputs, seed) = (number(2, 6_000), number(3, 1));
    let last = seed + inputs - 1;
    println!("printed runs of two programs: seeds {seed} to {last}");
    match compare_all(&[first.clone(), second.clone()], inputs, seed) {
        Err(difference) => {
            println!("they differ on {difference}");
            exit(1);
        }
        Ok(met) => {
            println!(
                "alike on {} inputs, {} bytes; numbers 0 to 20 {:?}, {} long",
                met.inputs, met.bytes, met.numbers, met.long
            );
            if !met.is_varied() {
                println!("some number was never met");
                exit(1);
            }
        }
    }
}
