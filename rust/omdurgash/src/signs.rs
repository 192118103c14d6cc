//! The signs of a row, one after the other.
use crate::{step, Refusal, Step};
use std::iter::FusedIterator;

/// A sign of a row: where it stands, its cells, and its print. It borrows its cells from the row.
#[derive(Clone, Copy, Debug, PartialEq, Eq, Hash)]
pub struct Sign<'a> {
    place: usize,
    cells: &'a [u8],
    step: Step,
}

impl<'a> Sign<'a> {
    /// The place of the row where it starts.
    pub fn place(&self) -> usize {
        self.place
    }

    /// The place after it.
    pub fn next(&self) -> usize {
        self.step.next()
    }

    /// Its own cells: the part of the row between these two places, which has one cell at least.
    pub fn cells(&self) -> &'a [u8] {
        self.cells
    }

    /// Its code points, one or two.
    pub fn points(&self) -> &[u32] {
        self.step.points()
    }
}

/// The signs of a row, from the first on; [`signs()`] gives it. It holds the row and the place of the next sign, and nothing else.
#[derive(Clone, Debug)]
pub struct Signs<'a> {
    row: &'a [u8],
    place: usize,
}

/// The signs of `row`, one after the other: their code points, joined, are its text.
///
/// ```
/// use omdurgash::{braille, signs};
///
/// // 3456-25-145 is 3⁄4: the 3 has the 3456 before it, and U+2044, which has no cell, goes with the 4.
/// let row = [60, 18, 25];
/// let shown: Vec<_> = signs(&row)?.map(|sign| (sign.place(), braille(sign.cells()), sign.points().to_vec())).collect();
/// assert_eq!(shown, [(0, "⠼⠒".to_string(), vec![0x33]), (2, "⠙".to_string(), vec![0x2044, 0x34])]);
/// # Ok::<(), omdurgash::Refusal>(())
/// ```
///
/// # What it costs
///
/// Each sign is one [`step`], which follows from the row and the place alone and so reads the whole row: to go over a row takes a time that
/// grows with the square of its length. On an x86-64 machine that had other work to do as well, a row of 40 cells was gone over in 4 to 8
/// microseconds, which nobody notices, and one of 4,000 in 38 to 49 milliseconds, where [`read()`](crate::read()) took 10 to 12
/// microseconds: for the text of a long row, without its places, use that.
///
/// # Errors
///
/// A row that is not accepted is refused here, as [`step`] refuses it, and not on the way.
///
/// ```
/// use omdurgash::{signs, Refusal};
///
/// // 46-1-46-12: no text has this row, though its first two cells are an A.
/// assert_eq!(signs(&[40, 1, 40, 3]).unwrap_err(), Refusal::NoText);
/// ```
pub fn signs(row: &[u8]) -> Result<Signs<'_>, Refusal> {
    // A row is refused the same at every place.
    step(row, 0)?;
    Ok(Signs { row, place: 0 })
}

impl<'a> Iterator for Signs<'a> {
    type Item = Sign<'a>;

    fn next(&mut self) -> Option<Sign<'a>> {
        if self.place >= self.row.len() {
            return None;
        }
        // Never a refusal, nor a place past the end: the row was accepted and is the same, and before its end a sign starts at the place.
        let step = step(self.row, self.place).ok()?;
        let cells = self.row.get(self.place..step.next())?;
        let sign = Sign { place: self.place, cells, step };
        self.place = step.next();
        Some(sign)
    }

    /// A sign has one cell at least.
    fn size_hint(&self) -> (usize, Option<usize>) {
        let cells = self.row.len() - self.place;
        (cells.min(1), Some(cells))
    }
}

impl FusedIterator for Signs<'_> {}
