//! What the tests say of the crate's functions: print in characters, rows in dots, refusals by the two numbers that the desk shows.
#![allow(dead_code)]

use plain::{read, read_lent, step, transcribe, transcribe_lent, Refusal, Step};

/// The two numbers of a refusal.
pub type Shown = (u8, usize);

/// What every element of a row holds before a call: it is no cell.
const NO_CELL: u8 = 0xFF;

/// What every element of a text holds before a call: it is no code point.
const NO_POINT: u32 = u32::MAX;

/// So many elements around the lent ones are looked at too.
const AROUND: usize = 16;

/// The code points of characters.
pub fn points(print: &str) -> Vec<u32> {
    print.chars().map(u32::from).collect()
}

/// Cells from their dots, as the paper writes them: `cells("46-1")`.
pub fn cells(dots: &str) -> Vec<u8> {
    let cell = |dots: &str| dots.bytes().filter(|&dot| dot != b'0').map(|dot| 1 << (dot - b'1')).sum();
    dots.split('-').filter(|dots| !dots.is_empty()).map(cell).collect()
}

/// What `call` writes to the first of so many elements, all of which hold `untouched` before. Every other element, within and around, is as
/// it was.
fn written<T: Copy + PartialEq>(room: usize, untouched: T, call: impl FnOnce(&mut [T]) -> Result<usize, Refusal>) -> Result<Vec<T>, Shown> {
    let mut memory = vec![untouched; AROUND + room + AROUND];
    let answer = call(&mut memory[AROUND..AROUND + room]).map_err(Refusal::shown);
    let (before, lent) = memory.split_at(AROUND);
    let (written, behind) = lent.split_at(answer.unwrap_or(0));
    assert!(before.iter().chain(behind).all(|&element| element == untouched), "an element that is not the answer's was written");
    answer.map(|_| written.to_vec())
}

/// The row of print, written to a room by both transcribers.
pub fn row_within(room: usize, print: &[u32]) -> Result<Vec<u8>, Shown> {
    let row = written(room, NO_CELL, |row| transcribe(print, row));
    assert_eq!(written(room, NO_CELL, |row| transcribe_lent(print, row)), row, "{print:?}");
    row
}

/// The row of print, written to exactly the room that it needs; with room for one cell less, it is refused.
pub fn row_of(print: &[u32]) -> Result<Vec<u8>, Shown> {
    let row = row_within(3 * print.len(), print);
    if let Ok(row) = &row {
        assert_eq!(row_within(row.len(), print).as_ref(), Ok(row), "{print:?}");
        if let Some(less) = row.len().checked_sub(1) {
            assert_eq!(row_within(less, print), Err((6, row.len())), "{print:?}");
        }
    } else {
        assert_eq!(row_within(0, print), row, "{print:?}");
    }
    row
}

/// The text of a row, written to a room by both readers.
pub fn text_within(room: usize, row: &[u8]) -> Result<Vec<u32>, Shown> {
    let text = written(room, NO_POINT, |text| read(row, text));
    assert_eq!(written(room, NO_POINT, |text| read_lent(row, text)), text, "{row:?}");
    text
}

/// A step that gives these characters and this place.
pub fn stepped(print: &str, next: usize) -> Result<Step, Shown> {
    let print = points(print);
    let mut step = Step { points: [0; 2], count: print.len(), next };
    step.points[..print.len()].copy_from_slice(&print);
    Ok(step)
}

/// The step at a place of a row.
pub fn step_at(place: usize, row: &[u8]) -> Result<Step, Shown> {
    step(row, place).map_err(Refusal::shown)
}

/// The code points that the steps give from the first place of an accepted row on. Every place that is stepped over starts no sign.
pub fn joined_steps(row: &[u8]) -> Vec<u32> {
    let (mut text, mut place) = (vec![], 0);
    while place < row.len() {
        let Ok(sign) = step_at(place, row) else { panic!("a step refuses {row:?}") };
        assert!(sign.next > place && (1..=2).contains(&sign.count), "{sign:?} at {place} of {row:?}");
        assert!((place + 1..sign.next).all(|within| step_at(within, row) == stepped("", within)), "{row:?}");
        text.extend(&sign.points[..sign.count]);
        place = sign.next;
    }
    assert_eq!(step_at(place, row), stepped("", place), "{row:?}");
    text
}
