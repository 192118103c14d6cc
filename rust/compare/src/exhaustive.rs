//! All short texts and all short rows.
use std::ops::Range;

/// Hands every sequence of up to so many of the elements, from the empty one on, to `take`, up to the first error. Gives their count.
pub fn all_up_to<T: Copy, E>(length: usize, elements: &[T], mut take: impl FnMut(&[T]) -> Result<(), E>) -> Result<u64, E> {
    let mut taken = 0;
    for length in 0..=length {
        let mut places = vec![0; length];
        let mut sequence = vec![elements[0]; length];
        loop {
            take(&sequence)?;
            taken += 1;
            // The next one, as a counter goes on: from the last place that is not at its end.
            let Some(at) = places.iter().rposition(|&place| place + 1 < elements.len()) else { break };
            places[at] += 1;
            places[at + 1..].fill(0);
            sequence[at] = elements[places[at]];
            sequence[at + 1..].fill(elements[0]);
        }
    }
    Ok(taken)
}

/// Every number from 0 on that is a code point or a surrogate, and as many above them.
pub fn code_points() -> Range<u32> {
    const BEHIND_UNICODE: u32 = 0x11_0000;
    0..2 * BEHIND_UNICODE
}

/// Every cell.
pub fn cells() -> Vec<u8> {
    (0..64).collect()
}

/// A code point for each class of the rules, and both members of each kind of pairs.
#[rustfmt::skip]
pub const REPRESENTATIVES: [(char, &str); 45] = [
    ('a', "a to j, the cell of 1 and of ª"), ('b', "a to j"), ('k', "another small letter"), ('o', "the cell of º"),
    ('é', "with an accent"), ('B', "the capital of a to j"), ('Z', "another capital"), ('Ü', "a capital with marks"),
    ('1', "the digit that is no denominator"), ('0', "the last digit"), ('2', "another digit"),
    ('.', "a point in a number, the full stop of an ordinal"), (',', "a comma in a number; the lower 1"),
    (';', "the lower 2"), (':', "the lower 3"), ('=', "the lower 7"),
    ('¿', "opens, the lower 5"), ('?', "closes"), ('¡', "opens, the lower 6"), ('!', "closes"),
    ('«', "opens, the lower 8"), ('»', "closes"), ('‘', "opens, two cells"), ('’', "closes"),
    ('\u{E000}', "opens emphasis, the lower 9"), ('\u{E001}', "closes it"),
    ('“', "becomes «"), ('”', "becomes »"), ('‹', "becomes ‘"), ('›', "becomes ’"), ('…', "becomes three full stops"),
    ('º', "ends an ordinal"), ('ª', "ends an ordinal, and shares its cell with a"), ('\u{2044}', "a fraction"),
    ('-', "the hyphen"), ('—', "the dash"),
    ('/', "two cells, the second a comma's"), ('>', "46 first, as a capital"), ('{', "5 first, as a letter after a digit"),
    ('&', "6 first"), ('%', "the first cells of ‰"), ('‰', "three cells"),
    ('(', "one cell of its own"), (' ', "the blank"),
    ('@', "without a sign"),
];

/// Those, and a surrogate, which is no character.
pub fn representatives() -> Vec<u32> {
    const SURROGATE: u32 = 0xD800;
    REPRESENTATIVES.iter().map(|&(point, _)| point.into()).chain([SURROGATE]).collect()
}

#[cfg(test)]
mod tests {
    use super::*;

    #[test]
    fn each_sequence_once() {
        let mut seen = Vec::new();
        let taken = all_up_to(2, &['a', 'b'], |sequence| {
            seen.push(sequence.iter().collect::<String>());
            Ok::<(), ()>(())
        });
        assert_eq!(seen, ["", "a", "b", "aa", "ab", "ba", "bb"]);
        assert_eq!(taken, Ok(7));
    }
}
