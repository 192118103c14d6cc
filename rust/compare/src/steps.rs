//! The steps through one row: the library's and the plain one must be the same, and go with the text that the row is read as.
use crate::difference::{holds, Difference};
use crate::functions::{sign_of, Sign, STEPPERS};
use crate::memory::{Fault, Memory};
use crate::show::{stepped, Element};
use crate::trials::Trials;
use crate::No;

/// Of a row with more cells, not every place is stepped at: each step costs as much as reading the row.
const EVERY_PLACE_UP_TO: usize = 64;

/// The text that a row is read as, or the refusal.
type Text<'a> = Result<&'a [u32], No>;

/// Steps at the places that are to be tried.
pub fn steps(cells: &mut impl Memory<u8>, row: &[u8], text: Text, trials: &Trials) -> Result<(), Difference> {
    match trials.places(row.len()) {
        Some(places) => steps_at(cells, row, text, &places),
        None if row.len() <= EVERY_PLACE_UP_TO => steps_everywhere(cells, row, text),
        None => steps_at(cells, row, text, &[0, row.len() / 2, row.len(), usize::MAX]),
    }
}

fn steps_at(cells: &mut impl Memory<u8>, row: &[u8], text: Text, places: &[usize]) -> Result<(), Difference> {
    places.iter().try_for_each(|&place| step(cells, row, text, place).map(drop))
}

/// Steps at every place up to one past the end, and at the greatest. A sign starts where the one before it ends, and nowhere else; the
/// signs are the text, and those that the library's iterator gives.
fn steps_everywhere(cells: &mut impl Memory<u8>, row: &[u8], text: Text) -> Result<(), Difference> {
    let (mut start, mut joined) = (0, Vec::new());
    let mut iterated = omdurgash::signs(row).into_iter().flatten();
    for place in (0..=row.len() + 1).chain([usize::MAX]) {
        let Ok(sign) = step(cells, row, text, place)? else { continue };
        let is_start = place == start && place < row.len();
        holds(is_start == (sign.count > 0), row, || {
            format!("place {place}: {}, and the sign before it ends at {start}", stepped(Ok(sign)))
        })?;
        if is_start {
            let next = iterated.next().map(|sign| (sign.place(), sign_of(sign.points(), sign.next())));
            holds(next == Some((place, sign)), row, || format!("place {place}: {}, and the iterator gives {next:?}", stepped(Ok(sign))))?;
            joined.extend_from_slice(&sign.points[..sign.count]);
            start = sign.next;
        }
    }
    holds(iterated.next().is_none(), row, || "the iterator gives more than the steps".to_string())?;
    holds(text.is_err() || start == row.len() && text == Ok(&joined), row, || {
        format!("the steps end at {start} and give\n        {}", Element::shown(&joined))
    })
}

/// One step by all: of a row that is refused the same refusal; otherwise no code point and the same place, or a sign of this row.
fn step(cells: &mut impl Memory<u8>, row: &[u8], text: Text, place: usize) -> Result<Result<Sign, No>, Difference> {
    let [library, plain] = STEPPERS.map(|(name, step)| {
        let lent = cells.lend(row, |row| step(row, place));
        lent.map_err(|Fault(what)| Difference::of(row, &format!("place {place}, {name}: {what}")))
    });
    let (answer, plain) = (library?, plain?);
    holds(answer == plain, row, || {
        format!("place {place}, library:\n        {}\n    plain:\n        {}", stepped(answer), stepped(plain))
    })?;
    let is_due = match (answer, text) {
        (Err(no), Err(due)) => no == due,
        (Ok(Sign { count: 0, next, .. }), Ok(_)) => next == place,
        (Ok(Sign { count, next, .. }), Ok(_)) => count <= 2 && next > place && next <= row.len(),
        _ => false,
    };
    holds(is_due, row, || format!("place {place}: {}, and the row is read as {text:X?}", stepped(answer)))?;
    Ok(answer)
}
