//! The sign list of paper 01 by its classes: code points that may stand in the same places of a text.

/// Small letters with the cells of digits: no one may stand where it would be taken for a digit.
pub const A_TO_J: [char; 10] = ['a', 'b', 'c', 'd', 'e', 'f', 'g', 'h', 'i', 'j'];

/// The other small letters.
#[rustfmt::skip]
pub const OTHER_SMALL: [char; 23] = [
    'k', 'l', 'm', 'n', 'ñ', 'o', 'p', 'q', 'r', 's', 't', 'u', 'v', 'w', 'x', 'y', 'z', 'á', 'é', 'í', 'ó', 'ú', 'ü',
];

/// Digits.
pub const DIGITS: [char; 10] = ['0', '1', '2', '3', '4', '5', '6', '7', '8', '9'];

/// What may stand between two digits of a number.
pub const POINTS: [char; 2] = ['.', ','];

/// What ends an ordinal.
pub const ORDINALS: [char; 2] = ['º', 'ª'];

/// What stands between the two numbers of a fraction.
pub const FRACTION: char = '\u{2044}';

/// Becomes three full stops.
pub const ELLIPSIS: char = '\u{2026}';

/// The hyphen, and the dash beside which it may not stand.
pub const HYPHEN: char = '-';
/// The dash.
pub const DASH: char = '\u{2014}';

/// The kinds of pairs: what opens one and what closes it. Of two that open it, the second is normalised to the first; so with the closers.
pub const PAIRS: [(&[char], &[char]); 5] =
    [(&['¿'], &['?']), (&['¡'], &['!']), (&['«', '“'], &['»', '”']), (&['‘', '‹'], &['’', '›']), (&['\u{E000}'], &['\u{E001}'])];

/// Signs that may stand anywhere.
#[rustfmt::skip]
pub const ANYWHERE: [char; 22] = [
    ' ', ';', ':', '(', ')', '{', '}', '<', '>', '/', '\\', '&', '=', '%', '‰', '€', '$', '¢', '£', '¥', '₿', '†',
];

/// Those without a sign that a hurried hand might take for one: paper 01 names the first; then letters and marks that are not Spanish, the
/// neighbours of what has a sign, surrogates, and numbers that are a sign's but for what stands above their last 8, 16 or 31 bits.
#[rustfmt::skip]
pub const WITHOUT_SIGN: [u32; 46] = [
    0x40, 0x5B, 0x5D, 0x2A, 0x2B, 0xD7, 0xF7, 0x7C, 0xB0, 0x22, 0x27, 0xBD, 0x0A, 0x0D, 0x09, 0x00,
    0xE0, 0xE8, 0xE7, 0xC7, 0xFF, 0x130, 0x2B0, 0x23, 0x5E, 0x5F, 0x60, 0x7E, 0xA0, 0xAD, 0x2010, 0x2013, 0x2015, 0x201A, 0x2043, 0x2045,
    0x2025, 0x2027, 0xE002, 0xDFFF, 0xD800, 0x10_FFFF, 0x161, 0x1_0061, 0x8000_0061, u32::MAX,
];

/// The capital of a small letter.
pub fn capital(small: char) -> char {
    // Each of them has one, and it is 32 before it.
    char::from_u32(u32::from(small) - 32).unwrap_or(small)
}

/// Every code point that has a sign, and those that normalising replaces.
pub fn alphabet() -> Vec<u32> {
    let small = || A_TO_J.into_iter().chain(OTHER_SMALL);
    let marks = PAIRS.iter().flat_map(|(openers, closers)| openers.iter().chain(*closers)).copied();
    let others = [FRACTION, ELLIPSIS, HYPHEN, DASH];
    let points = small().chain(small().map(capital)).chain(DIGITS).chain(POINTS).chain(ORDINALS).chain(marks).chain(ANYWHERE).chain(others);
    points.map(u32::from).collect()
}

#[cfg(test)]
mod tests {
    use super::*;
    use std::collections::HashSet;

    #[test]
    fn alphabet_is_that_of_the_paper() {
        let points: HashSet<u32> = alphabet().into_iter().collect();
        assert_eq!(
            (points.len(), alphabet().len()),
            (120, 120),
            "66 letters, 10 digits, 36 signs, º ª and U+2044, and five that are replaced"
        );
        assert!(points.contains(&u32::from('Ü')) && points.contains(&u32::from('Ñ')));
        assert!(WITHOUT_SIGN.iter().all(|point| !points.contains(point)));
    }
}
