//! Where the signs of a row stand, worked out from its text: what stepping through the row must visit.
use crate::normal::is_digit;

/// A sign: its place in the row, the place after it, and the print that a step over it gives.
#[derive(Clone, Debug, PartialEq, Eq)]
pub struct Sign {
    /// Its first place.
    pub at: usize,
    /// The place after it.
    pub next: usize,
    /// One code point, or two.
    pub points: Vec<u32>,
}

const DOT_5: u8 = 16;
const DOTS_46: u8 = 40;
const DOTS_3456: u8 = 60;

/// The signs of an accepted text's row. Panics where the two do not go together.
pub fn signs(text: &[u32], row: &[u8]) -> Vec<Sign> {
    let mut signs = Vec::new();
    let (mut at, mut silent) = (0, Vec::new());
    for (i, &point) in text.iter().enumerate() {
        if is_silent(text, i) {
            silent.push(point);
            continue;
        }
        let next = at + before(point, &row[at..]) + cells(point);
        let mut points = std::mem::take(&mut silent);
        points.push(point);
        signs.push(Sign { at, next, points });
        at = next;
    }
    assert_eq!((at, silent.len()), (row.len(), 0), "{text:?} and {row:?} do not go together");
    signs
}

/// The full stop of an ordinal, and U+2044.
fn is_silent(text: &[u32], i: usize) -> bool {
    let is_ordinal = |point: &u32| [u32::from('º'), u32::from('ª')].contains(point);
    text[i] == 0x2044 || text[i] == u32::from('.') && text.get(i + 1).is_some_and(is_ordinal)
}

/// How many cells stand before those of the code point itself.
fn before(point: u32, row: &[u8]) -> usize {
    let is_letter = char::from_u32(point).is_some_and(char::is_alphabetic) && ![u32::from('º'), u32::from('ª')].contains(&point);
    match row {
        [DOTS_46, DOTS_46, ..] if is_letter => 2,
        [DOTS_46 | DOT_5, ..] if is_letter => 1,
        [DOTS_3456, ..] if is_digit(point) => 1,
        _ => 0,
    }
}

/// How many cells the code point itself has.
fn cells(point: u32) -> usize {
    const OF_TWO: &str = "‘’{}<>—/\\&%€$¢£¥₿†";
    match char::from_u32(point) {
        Some('‰') => 3,
        Some(sign) if OF_TWO.contains(sign) => 2,
        _ => 1,
    }
}

#[cfg(test)]
mod tests {
    use super::*;

    fn places(text: &str, row: &[u8]) -> Vec<(usize, usize, String)> {
        let points: Vec<u32> = text.chars().map(u32::from).collect();
        let chars = |points: &[u32]| points.iter().filter_map(|&point| char::from_u32(point)).collect();
        signs(&points, row).iter().map(|sign| (sign.at, sign.next, chars(&sign.points))).collect()
    }

    #[test]
    fn what_stands_before_belongs_to_the_sign() {
        let sign = |at, next, points: &str| (at, next, points.to_string());
        assert_eq!(places("8b", &[60, 19, 16, 3]), [sign(0, 2, "8"), sign(2, 4, "b")]);
        assert_eq!(places("ABc", &[40, 1, 40, 3, 9]), [sign(0, 2, "A"), sign(2, 4, "B"), sign(4, 5, "c")]);
        assert_eq!(places("AB‰", &[40, 40, 1, 3, 56, 52, 52]), [sign(0, 3, "A"), sign(3, 4, "B"), sign(4, 7, "‰")]);
        assert_eq!(places("2.ª", &[60, 6, 1]), [sign(0, 2, "2"), sign(2, 3, ".ª")]);
        assert_eq!(places("3\u{2044}45", &[60, 18, 25, 17]), [sign(0, 2, "3"), sign(2, 3, "\u{2044}4"), sign(3, 4, "5")]);
        assert_eq!(places("", &[]), []);
    }
}
