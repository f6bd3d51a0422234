//! Two calls measured side by side: by turns, in one run, in batches.

use std::hint::black_box;
use std::time::{Duration, Instant};

/// About how long one batch takes.
const BATCH: Duration = Duration::from_millis(1);

/// A call that says whether its input was accepted, as every input here is.
pub(crate) type Call<'a> = &'a mut dyn FnMut() -> bool;

/// How long so many calls take.
fn time_of(call: Call<'_>, calls: u32) -> Duration {
    let begin = Instant::now();
    for _ in 0..calls {
        assert!(black_box(call()));
    }
    begin.elapsed()
}

/// Nanoseconds for one call, as the mean of a batch.
fn nanoseconds(call: Call<'_>, calls: u32) -> f64 {
    time_of(call, calls).as_secs_f64() * 1e9 / f64::from(calls)
}

/// So many calls that a batch takes its time. The quickest of three trials
/// counts, so that one that was interrupted does not make batches too small.
fn calls_in_a_batch(call: Call<'_>) -> u32 {
    let mut calls = 1;
    loop {
        let trials = [(); 3].map(|()| time_of(call, calls));
        let time = trials[0].min(trials[1]).min(trials[2]);
        if time > BATCH / 4 {
            let scaled = u128::from(calls) * BATCH.as_nanos() / time.as_nanos();
            return u32::try_from(scaled).unwrap_or(u32::MAX).max(1);
        }
        calls *= 2;
    }
}

/// Median, lower and upper quartile. A batch that was interrupted by another
/// program hardly moves them.
fn summary(mut figures: Vec<f64>) -> (f64, f64, f64) {
    figures.sort_by(f64::total_cmp);
    let last = figures.len() - 1;
    (figures[last / 2], figures[last / 4], figures[last * 3 / 4])
}

fn cell((median, lower, upper): (f64, f64, f64)) -> String {
    format!("{median:.0} ({lower:.0} to {upper:.0})")
}

/// One row of the table: the engine, the second implementation, their ratio.
pub(crate) fn print_row(name: &str, rounds: usize, engine: Call<'_>, second: Call<'_>) {
    print_row_per(name, rounds, 1, engine, second);
}

/// The same for calls that do so many things each: the figures are for one of
/// them.
pub(crate) fn print_row_per(
    name: &str,
    rounds: usize,
    things: u32,
    engine: Call<'_>,
    second: Call<'_>,
) {
    let calls = [calls_in_a_batch(engine), calls_in_a_batch(second)];
    let mut figures = [Vec::new(), Vec::new()];
    for round in 0..rounds {
        // Each of the two goes first in every other round.
        for turn in [round % 2, 1 - round % 2] {
            let call: Call<'_> = if turn == 0 { engine } else { second };
            figures[turn].push(nanoseconds(call, calls[turn]) / f64::from(things));
        }
    }
    let [engine, second] = figures.map(summary);
    let ratio = engine.0 / second.0;
    let digits = if ratio < 0.01 { 5 } else { 2 };
    println!(
        "| {name} | {} | {} | {ratio:.digits$} |",
        cell(engine),
        cell(second)
    );
}

/// The head of the table.
pub(crate) fn print_head() {
    println!("| workload | engine | second implementation | engine / second |");
    println!("|---|---|---|---|");
}

/// A row that says what the rows below it are.
pub(crate) fn print_part(what: &str) {
    println!("| **{what}** | | | |");
}
