//! Runs the comparison by hand: `compare SEED TEXTS ROWS`, or under valgrind `compare memory SEED COUNT`.
use compare::check::Check;
use compare::difference::Difference;
use compare::exact::Exact;
use compare::exhaustive::{all_up_to, cells};
use compare::memcheck;
use compare::run::{guarded, rows, texts, Tally};
use compare::trials::Trials;
use std::process::ExitCode;
use std::time::Instant;

const USAGE: &str = "compare SEED TEXTS ROWS, or valgrind --error-exitcode=1 compare memory SEED COUNT";

/// How far it is, is told after so many cases.
const TOLD_AFTER: u64 = 10_000_000;

fn main() -> ExitCode {
    let words: Vec<String> = std::env::args().skip(1).collect();
    let words: Vec<&str> = words.iter().map(String::as_str).collect();
    let result = match words[..] {
        ["memory", seed, count] => numbers([seed, count]).map(|[seed, count]| memory(seed, count)),
        [seed, texts, rows] => numbers([seed, texts, rows]).map(|[seed, texts, rows]| run(seed, texts, rows)),
        _ => None,
    };
    match result {
        Some(Ok(line)) => {
            println!("{line}");
            ExitCode::SUCCESS
        }
        Some(Err(Difference(what))) => {
            println!("{what}");
            ExitCode::FAILURE
        }
        None => {
            eprintln!("{USAGE}");
            ExitCode::from(2)
        }
    }
}

fn numbers<const N: usize>(words: [&str; N]) -> Option<[u64; N]> {
    let numbers: Option<Vec<u64>> = words.iter().map(|word| word.parse().ok()).collect();
    numbers?.try_into().ok()
}

/// So many texts and rows, from the first on.
fn run(seed: u64, most_texts: u64, most_rows: u64) -> Result<String, Difference> {
    let (check, start) = (&mut guarded(), Instant::now());
    let (mut of_texts, mut of_rows) = (Tally::default(), Tally::default());
    for first in (0..most_texts).step_by(TOLD_AFTER as usize) {
        texts(check, seed, first..most_texts.min(first + TOLD_AFTER), &mut of_texts)?;
        eprintln!("{} texts, {} s", of_texts.cases(), start.elapsed().as_secs());
    }
    for first in (0..most_rows).step_by(TOLD_AFTER as usize) {
        rows(check, seed, first..most_rows.min(first + TOLD_AFTER), &mut of_rows)?;
        eprintln!("{} rows, {} s", of_rows.cases(), start.elapsed().as_secs());
    }
    Ok(format!(
        "seed {seed}: {} texts ({of_texts}), {} rows ({of_rows}), 0 differences, {:.1} s",
        of_texts.cases(),
        of_rows.cases(),
        start.elapsed().as_secs_f64()
    ))
}

/// Under memcheck: so many texts, so many rows, and all rows of up to two cells at every room and place.
fn memory(seed: u64, count: u64) -> Result<String, Difference> {
    if !memcheck::is_there() {
        return Err(Difference(format!("memory is looked at by valgrind, and it is not there: {USAGE}")));
    }
    let check = &mut Check::new(Exact, Exact);
    let (mut of_texts, mut of_rows) = (Tally::default(), Tally::default());
    texts(check, seed, 0..count, &mut of_texts)?;
    rows(check, seed, 0..count, &mut of_rows)?;
    let short = all_up_to(2, &cells(), |row| check.row(row, &Trials::EVERY).map(drop))?;
    Ok(format!(
        "seed {seed}: {} texts ({of_texts}), {} rows ({of_rows}), {short} rows of up to two cells, 0 differences",
        of_texts.cases(),
        of_rows.cases()
    ))
}
