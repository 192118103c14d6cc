//! A million texts and a million rows, drawn by a seed, through the library and the plain functions. The program `compare` runs more by
//! hand.
use compare::difference::Difference;
use compare::run::{guarded, rows, texts, Tally};
use vectors::say;

const SEED: u64 = 1;

const CASES: u64 = 1_000_000;

/// With fewer of an answer, the cases are not what they are meant to be.
const FEWEST: u64 = 200;

fn hold(sort: &str, result: Result<(), Difference>, tally: &Tally, answers: &[usize]) {
    result.unwrap_or_else(|Difference(what)| panic!("\n{what}\n"));
    assert_eq!(tally.cases(), CASES);
    assert!(answers.iter().all(|&number| tally.0[number] >= FEWEST), "{tally}");
    say(&format!("{CASES} {sort} of seed {SEED}: {tally}, 0 differences"));
}

#[test]
fn million_texts() {
    let mut tally = Tally::default();
    let result = texts(&mut guarded(), SEED, 0..CASES, &mut tally);
    hold("texts", result, &tally, &[0, 1, 2, 3, 4, 5]);
}

#[test]
fn million_rows() {
    let mut tally = Tally::default();
    let result = rows(&mut guarded(), SEED, 0..CASES, &mut tally);
    hold("rows", result, &tally, &[0, 1, 7, 8]);
}
