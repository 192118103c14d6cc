//! Why print or a row is refused (paper 01, "Numbers the desk shows").

/// A greater length is reported as this.
const LONGEST_REPORTED: usize = 4_294_967_295;

/// Why a row is refused, or print. The first five are a row's, in the order in which they are looked for. Print is refused for the length
/// of its text before all else; then for the fault at the least place, one of the last four, and no place has two; then for the room.
#[derive(Clone, Copy, Debug, PartialEq, Eq)]
pub enum Refusal {
    /// The row has more than 12,288 cells: so many.
    RowTooLong(usize),
    /// The byte at this place of the row is the first above 63.
    NotACell(usize),
    /// No text of any length has the row.
    NoText,
    /// The row's text, or the normalised print, has more than 4,096 code points: so many.
    TextTooLong(usize),
    /// What is written needs this room.
    NeedsRoom(usize),
    /// The code point at this place of the normalised print has no sign.
    NoSign(usize),
    /// The pair mark at this place of the normalised print is an opener where its kind is open, or a closer where it is closed. If the
    /// place is the text's length, a kind is open at the end.
    PairBroken(usize),
    /// The º, ª or U+2044 at this place of the normalised print is outside ordinals and fractions, as it is after a number with a point or
    /// comma inside.
    OutsideForm(usize),
    /// With the code point at this place, the normalised print would share its cells: a small letter a to j directly after a point or comma
    /// that directly follows a digit of an ordinary number; the later of a hyphen and a hyphen or U+2014; the 1 of a denominator that is 1;
    /// a small letter a to j directly after ª.
    SharesCells(usize),
}

impl Refusal {
    /// The two numbers that the desk shows.
    pub fn shown(self) -> (u8, usize) {
        match self {
            Refusal::RowTooLong(length) | Refusal::TextTooLong(length) => (1, length),
            Refusal::NoSign(place) => (2, place),
            Refusal::PairBroken(place) => (3, place),
            Refusal::OutsideForm(place) => (4, place),
            Refusal::SharesCells(place) => (5, place),
            Refusal::NeedsRoom(room) => (6, room),
            Refusal::NotACell(place) => (7, place),
            Refusal::NoText => (8, 0),
        }
    }
}

/// A length as it is reported.
#[inline(always)]
pub fn reported(len: usize) -> usize {
    len.min(LONGEST_REPORTED)
}

#[cfg(test)]
mod tests {
    use super::*;

    #[test]
    fn greatest_length() {
        assert_eq!(reported(4_294_967_294), 4_294_967_294);
        assert_eq!(reported(4_294_967_295), 4_294_967_295);
        assert_eq!(reported(4_294_967_295_usize.saturating_add(1)), 4_294_967_295);
    }
}
