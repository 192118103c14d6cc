//! Why print or a row is refused: paper 01's numbers, in words. A new refusal is a variant, and an arm of each function below.
use crate::{LONGEST_ROW, LONGEST_TEXT};
use std::error::Error;
use std::fmt;

/// Why print or a row is refused, and where or by how much.
///
/// Places count from 0: in the text, which is the normalised print, where print is transcribed; in the row where a row is read.
/// `NoSign`, `PairBroken`, `OutsideForm` and `SharesCells` are only of print, `NotACell` and `NoText` only of rows.
///
/// ```
/// use omdurgash::{transcribe, Refusal};
///
/// let print: Vec<u32> = "1.b".chars().map(u32::from).collect();
/// let refusal = transcribe(&print, &mut [0; 9]).unwrap_err();
/// assert_eq!(refusal, Refusal::SharesCells { place: 2 });
/// assert_eq!(refusal.to_string(), "the code point at place 2 would share its braille cells with other print");
///
/// // The two numbers that the desk shows: no 5 2
/// assert_eq!((refusal.number(), refusal.second()), (5, 2));
/// ```
#[derive(Clone, Copy, Debug, PartialEq, Eq, Hash)]
pub enum Refusal {
    /// The text of the print is above 4,096 code points, the row is above 12,288 cells, or it reads as a text above 4,096.
    TooLong {
        /// That length; 4,294,967,295 for any length above it.
        length: usize,
    },
    /// A code point of the print has no sign.
    NoSign {
        /// Its place.
        place: usize,
    },
    /// A pair mark of the print stands against the pair rule, or one is open at the end.
    PairBroken {
        /// The place of the mark that may not stand; the length of the text, where one is open at the end.
        place: usize,
    },
    /// º, ª or U+2044 stands outside an ordinal or a fraction, or after a number with a point or comma inside.
    OutsideForm {
        /// Its place.
        place: usize,
    },
    /// The print would share its cells with other print.
    SharesCells {
        /// The place of the letter, of the later hyphen or dash, or of the denominator 1.
        place: usize,
    },
    /// There is too little room for the cells, or for the text.
    NeedsRoom {
        /// The room that they need.
        room: usize,
    },
    /// A byte of the row is above 63.
    NotACell {
        /// The first place of such a one.
        place: usize,
    },
    /// No text of any length has the row.
    NoText,
}

impl Refusal {
    /// The refusal that the library shows by its two numbers.
    #[inline]
    pub(crate) fn of(number: usize, second: usize) -> Refusal {
        match number {
            1 => Refusal::TooLong { length: second },
            2 => Refusal::NoSign { place: second },
            3 => Refusal::PairBroken { place: second },
            4 => Refusal::OutsideForm { place: second },
            5 => Refusal::SharesCells { place: second },
            6 => Refusal::NeedsRoom { room: second },
            7 => Refusal::NotACell { place: second },
            8 => Refusal::NoText,
            // Never reached: the library is proved to show no other number.
            _ => unreachable!("the desk showed {number}"),
        }
    }

    /// The number that the desk shows for it, 1 to 8.
    ///
    /// ```
    /// assert_eq!(omdurgash::Refusal::NoText.number(), 8);
    /// ```
    #[inline]
    pub fn number(self) -> u8 {
        match self {
            Refusal::TooLong { .. } => 1,
            Refusal::NoSign { .. } => 2,
            Refusal::PairBroken { .. } => 3,
            Refusal::OutsideForm { .. } => 4,
            Refusal::SharesCells { .. } => 5,
            Refusal::NeedsRoom { .. } => 6,
            Refusal::NotACell { .. } => 7,
            Refusal::NoText => 8,
        }
    }

    /// The second number that the desk shows: the length, the place or the room; 0 for `NoText`.
    ///
    /// ```
    /// assert_eq!(omdurgash::Refusal::NeedsRoom { room: 4 }.second(), 4);
    /// ```
    #[inline]
    pub fn second(self) -> usize {
        match self {
            Refusal::TooLong { length } => length,
            Refusal::NeedsRoom { room } => room,
            _ => self.place().unwrap_or(0),
        }
    }

    /// The place that it is about; none for `TooLong`, `NeedsRoom` and `NoText`.
    ///
    /// ```
    /// use omdurgash::Refusal;
    ///
    /// assert_eq!(Refusal::NotACell { place: 3 }.place(), Some(3));
    /// assert_eq!(Refusal::NeedsRoom { room: 4 }.place(), None);
    /// ```
    #[inline]
    pub fn place(self) -> Option<usize> {
        match self {
            Refusal::NoSign { place }
            | Refusal::PairBroken { place }
            | Refusal::OutsideForm { place }
            | Refusal::SharesCells { place }
            | Refusal::NotACell { place } => Some(place),
            Refusal::TooLong { .. } | Refusal::NeedsRoom { .. } | Refusal::NoText => None,
        }
    }
}

impl fmt::Display for Refusal {
    fn fmt(&self, f: &mut fmt::Formatter) -> fmt::Result {
        match self {
            Refusal::TooLong { length } => {
                write!(f, "a length of {length} is too great: a text has {LONGEST_TEXT} code points at most, and a row {LONGEST_ROW} cells")
            }
            Refusal::NoSign { place } => write!(f, "the code point at place {place} has no braille sign"),
            Refusal::PairBroken { place } => {
                write!(
                    f,
                    "a pair such as ¿? is broken at place {place}: the mark there may not stand, or the text ends there with one open"
                )
            }
            Refusal::OutsideForm { place } => {
                write!(f, "the º, ª or fraction slash at place {place} is not part of an ordinal or a fraction")
            }
            Refusal::SharesCells { place } => write!(f, "the code point at place {place} would share its braille cells with other print"),
            Refusal::NeedsRoom { room } => write!(f, "the answer needs room for {room}, and less was lent"),
            Refusal::NotACell { place } => write!(f, "the byte at place {place} is above 63, so it is not a cell of six dots"),
            Refusal::NoText => write!(f, "no text has this row of cells"),
        }
    }
}

impl Error for Refusal {}

#[cfg(test)]
mod tests {
    use super::*;

    #[test]
    fn the_two_numbers_are_those_that_were_shown() {
        for number in 1..=8 {
            let second = if number == 8 { 0 } else { 40 + number };
            let refusal = Refusal::of(number, second);
            assert_eq!((usize::from(refusal.number()), refusal.second()), (number, second), "{refusal:?}");
        }
    }
}
