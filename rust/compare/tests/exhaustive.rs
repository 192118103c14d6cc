//! All short texts and all short rows through the library and the plain functions, at every room, and the rows at every place.
//!
//! No text is longer than its row, so a row of three cells that has a text has one of up to three code points. Each of these is
//! transcribed, and its row is read as it; each row that is read is the row of its text. So exactly the right rows are accepted.
use compare::classes::alphabet;
use compare::difference::Difference;
use compare::exhaustive::{all_up_to, cells, code_points, representatives};
use compare::run::{guarded, Tally};
use compare::trials::Trials;
use vectors::say;

fn told(sort: &str, wanted: u64, taken: Result<u64, Difference>, tally: &Tally) {
    let taken = taken.unwrap_or_else(|Difference(what)| panic!("\nDIFFERENCE:\n{what}\n"));
    assert_eq!(taken, wanted);
    say(&format!("{taken} {sort}: {tally}, 0 differences"));
}

/// How many sequences there are of up to so many elements.
fn count(length: u32, elements: usize) -> u64 {
    (0..=length).map(|length| (elements as u64).pow(length)).sum()
}

fn all_texts(sort: &str, length: u32, points: &[u32]) {
    let (check, mut tally) = (&mut guarded(), Tally::default());
    let taken = all_up_to(length as usize, points, |print| {
        tally.count(check.text(print, &Trials::EVERY)?);
        Ok(())
    });
    told(sort, count(length, points.len()), taken, &tally);
}

// Accepted: letters, digits, the signs that are no pair marks, and U+2026.
#[test]
fn every_code_point_alone() {
    const ACCEPTED: u64 = 66 + 10 + 26 + 1;
    let (check, mut tally) = (&mut guarded(), Tally::default());
    let taken = code_points().try_fold(0, |taken, point| {
        tally.count(check.text(&[point], &Trials::EVERY)?);
        Ok(taken + 1)
    });
    told("code points, each alone", code_points().len() as u64, taken, &tally);
    assert_eq!(tally.0[0], ACCEPTED);
}

#[test]
fn all_texts_up_to_three_of_every_sign() {
    all_texts("texts of up to three code points that have a sign", 3, &alphabet());
}

#[test]
fn all_texts_up_to_four_of_representatives() {
    all_texts("texts of up to four representatives", 4, &representatives());
}

#[test]
fn all_rows_up_to_three() {
    let (check, mut tally) = (&mut guarded(), Tally::default());
    let taken = all_up_to(3, &cells(), |row| {
        tally.count(check.row(row, &Trials::EVERY)?);
        Ok(())
    });
    told("rows of up to three cells", count(3, 64), taken, &tally);
}
