//! One case: the library and the plain functions are called with the same, and must answer the same; and what they answer must go together.
//!
//! A text: at a room that is enough and at others, and its row is read back as the normalised text. A row: the same, its text is
//! transcribed back to it, and steps are taken ([`crate::steps`]). The memory of each call is looked at ([`crate::memory`]).
use crate::difference::{holds, Difference};
use crate::functions::{Function, READERS, TRANSCRIBERS};
use crate::memory::{Fault, Memory};
use crate::show::{answered, Element};
use crate::steps::steps;
use crate::trials::Trials;
use crate::Answer;
use omdurgash::{LONGEST_ROW, LONGEST_TEXT};
use std::mem::take;
use vectors::normal::normalised;

/// A row has no more cells for each code point of its text.
const MOST_CELLS_OF_POINT: usize = 3;

/// More room than any row needs.
pub const PLENTY_OF_CELLS: usize = LONGEST_ROW + 4;

/// More room than any text needs.
pub const PLENTY_OF_POINTS: usize = LONGEST_TEXT + 4;

const NEEDS_ROOM: u8 = 6;

/// The memory for the calls, and what they write.
pub struct Check<P, C> {
    points: P,
    cells: C,
    text: Vec<u32>,
    other_text: Vec<u32>,
    row: Vec<u8>,
    other_row: Vec<u8>,
}

impl<P: Memory<u32>, C: Memory<u8>> Check<P, C> {
    /// With memory for code points and for cells.
    pub fn new(points: P, cells: C) -> Check<P, C> {
        Check { points, cells, text: Vec::new(), other_text: Vec::new(), row: Vec::new(), other_row: Vec::new() }
    }

    /// Any print. Gives the answer where there is room enough.
    pub fn text(&mut self, print: &[u32], trials: &Trials) -> Result<Answer, Difference> {
        let text = normalised(print);
        let answer = self.transcribed(print, (MOST_CELLS_OF_POINT * text.len()).min(PLENTY_OF_CELLS))?;
        let row = take(&mut self.row);
        holds(!is_about_room(answer), print, || "it needs more than three cells for each code point".to_string())?;
        for room in trials.rooms(answer, PLENTY_OF_CELLS) {
            let got = self.transcribed(print, room)?;
            holds(got == at_room(answer, room), print, || format!("room {room}: {got:?}, with room enough {answer:?}"))?;
        }
        if answer.is_ok() {
            let read = self.read(&row, text.len())?;
            holds(read == Ok(text.len()) && self.text == text, print, || {
                format!("its row:\n        {}\n    is read as\n        {}", Element::shown(&row), answered(read, &self.text))
            })?;
        }
        Ok(answer)
    }

    /// Any row. Gives the answer where there is room enough.
    pub fn row(&mut self, row: &[u8], trials: &Trials) -> Result<Answer, Difference> {
        let answer = self.read(row, row.len().min(PLENTY_OF_POINTS))?;
        let text = take(&mut self.text);
        holds(!is_about_room(answer), row, || "its text is longer than the row".to_string())?;
        for room in trials.rooms(answer, PLENTY_OF_POINTS) {
            let got = self.read(row, room)?;
            holds(got == at_room(answer, room), row, || format!("room {room}: {got:?}, with room enough {answer:?}"))?;
        }
        if answer.is_ok() {
            let written = self.transcribed(&text, row.len())?;
            holds(written == Ok(row.len()) && self.row == row, row, || {
                format!("its text:\n        {}\n    has the row\n        {}", Element::shown(&text), answered(written, &self.row))
            })?;
        }
        steps(&mut self.cells, row, answer.map(|_| &text[..]), trials)?;
        Ok(answer)
    }

    /// The answer of all transcribers. The row comes to `self.row`.
    fn transcribed(&mut self, print: &[u32], room: usize) -> Result<Answer, Difference> {
        all_agree((&mut self.points, &mut self.cells), &TRANSCRIBERS, print, room, (&mut self.row, &mut self.other_row))
    }

    /// The answer of all readers. The text comes to `self.text`.
    fn read(&mut self, row: &[u8], room: usize) -> Result<Answer, Difference> {
        all_agree((&mut self.cells, &mut self.points), &READERS, row, room, (&mut self.text, &mut self.other_text))
    }
}

/// Calls each of the functions with the input and a room. All must answer as the first does, and write the same, which comes to `written`.
fn all_agree<I: Element, O: Element>(
    (from, to): (&mut impl Memory<I>, &mut impl Memory<O>),
    functions: &[(&str, Function<I, O>)],
    input: &[I],
    room: usize,
    (written, other): (&mut Vec<O>, &mut Vec<O>),
) -> Result<Answer, Difference> {
    let mut call = |(name, function): (&str, Function<I, O>), written: &mut Vec<O>| {
        let answer = from.lend(input, |input| to.lend_room(room, written, |lent| function(input, lent)));
        answer.and_then(|answer| answer).map_err(|Fault(what)| Difference::of(input, &format!("room {room}, {name}: {what}")))
    };
    let (library, answer) = (functions[0].0, call(functions[0], written)?);
    for &(name, function) in &functions[1..] {
        let theirs = call((name, function), other)?;
        holds(theirs == answer && other == written, input, || {
            let (first, second) = (answered(answer, written), answered(theirs, other));
            format!("room {room}, {library}:\n        {first}\n    {name}:\n        {second}")
        })?;
    }
    Ok(answer)
}

/// What must be answered at a room, from the answer where there is room enough.
fn at_room(answer: Answer, room: usize) -> Answer {
    match answer {
        Ok(count) if count > room => Err((NEEDS_ROOM, count)),
        _ => answer,
    }
}

fn is_about_room(answer: Answer) -> bool {
    matches!(answer, Err((NEEDS_ROOM, _)))
}
