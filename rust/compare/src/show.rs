//! How elements and answers are told: in the words of the vector files, so that a difference can be turned into a vector.
use crate::functions::Sign;
use crate::{Answer, No};
use std::fmt::Write;

/// An element of print, or of a row.
pub trait Element: Copy + PartialEq {
    /// What stands where nobody has written: no code point, and no cell.
    const UNTOUCHED: Self;

    /// The elements, as a line of a vector.
    fn shown(elements: &[Self]) -> String;
}

impl Element for u32 {
    const UNTOUCHED: u32 = 0xA5A5_A5A5;

    fn shown(points: &[u32]) -> String {
        points.iter().fold("points".to_string(), |mut line, point| {
            write!(line, " {point:X}").expect("a string takes all");
            line
        })
    }
}

impl Element for u8 {
    const UNTOUCHED: u8 = 0xA5;

    /// The dots; and the same in Unicode's braille, as the vectors of print have it. Where a byte is no cell, the bytes.
    fn shown(cells: &[u8]) -> String {
        if cells.iter().any(|&cell| cell > 63) {
            let bytes: Vec<String> = cells.iter().map(|byte| format!("{byte:X}")).collect();
            return format!("bytes {}", bytes.join(" "));
        }
        let dots: Vec<String> = cells.iter().map(|&cell| dots(cell)).collect();
        let braille: String = cells.iter().filter_map(|&cell| char::from_u32(0x2800 + u32::from(cell))).collect();
        format!("dots {}\n        cells {braille}", dots.join("-"))
    }
}

/// As paper 01 writes a cell.
fn dots(cell: u8) -> String {
    match cell {
        0 => "0".to_string(),
        _ => (1..=6).filter(|dot| cell >> (dot - 1) & 1 == 1).map(|dot| dot.to_string()).collect(),
    }
}

/// An answer with what was written.
pub fn answered<T: Element>(answer: Answer, written: &[T]) -> String {
    match answer {
        Ok(_) => T::shown(written),
        Err((number, second)) => format!("no {number} {second}"),
    }
}

/// What a step gives, with the place after the sign.
pub fn stepped(answer: Result<Sign, No>) -> String {
    match answer {
        Ok(Sign { points, count, next }) => format!("{}, then place {next}", u32::shown(&points[..count])),
        Err((number, second)) => format!("no {number} {second}"),
    }
}

#[cfg(test)]
mod tests {
    use super::*;

    #[test]
    fn as_the_vectors_have_it() {
        assert_eq!(Element::shown(&[0x38_u32, 0x62]), "points 38 62");
        assert_eq!(Element::shown(&[60_u8, 19, 0, 16, 3]), "dots 3456-125-0-5-12\n        cells ⠼⠓⠀⠐⠃");
        assert_eq!(Element::shown(&[64_u8, 0]), "bytes 40 0");
        assert_eq!(answered::<u8>(Err((5, 2)), &[]), "no 5 2");
        assert_eq!(stepped(Ok(Sign { points: [0x2044, 0x34], count: 2, next: 12 })), "points 2044 34, then place 12");
    }
}
