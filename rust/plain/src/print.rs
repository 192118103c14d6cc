//! The sign list of paper 01, as tables over print.
use crate::cells::{cell, DIGITS, LETTERS, LOWER_DIGITS, PUNCTUATION, TO_SMALL};
use crate::normal::{normal, ELLIPSIS, STOPS_OF_ELLIPSIS};

/// What stands past the end of print: no sign.
pub const END: u32 = u32::MAX;

/// A full stop.
pub const STOP: u32 = '.' as u32;

/// The bar of a fraction, which has no cell.
pub const BAR: u32 = '\u{2044}' as u32;

/// U+002D.
pub const HYPHEN: u32 = '-' as u32;

/// U+2014.
pub const DASH: u32 = '—' as u32;

/// A full stop or a comma.
#[inline(always)]
pub fn is_point(point: u32) -> bool {
    point == STOP || point == u32::from(',')
}

/// The small letters that have the cells of digits.
#[inline(always)]
pub fn is_a_to_j(point: u32) -> bool {
    point.wrapping_sub(u32::from('a')) < 10
}

/// From a code point to a cell; to `NONE` where there is none. A byte's number of places, so that no look-up has a bound to test.
pub type Table = [u8; 256];

/// No cell: greater than every one.
const NONE: u8 = 0x80;

/// The place in a table of every code point from here on. The first of them is ÿ: none has an entry.
const ABOVE: u32 = 255;

/// What a table has for a code point.
#[inline(always)]
pub fn entry(table: &Table, point: u32) -> Option<u8> {
    let cell = table[point.min(ABOVE) as usize];
    (cell != NONE).then_some(cell)
}

/// Whether a table has a code point.
#[inline(always)]
pub fn has(table: &Table, point: u32) -> bool {
    entry(table, point).is_some()
}

/// Small letters.
pub static SMALL: Table = with([NONE; 256], &LETTERS, 0);

/// Capitals: the cells of their small letters.
pub static CAPITALS: Table = with([NONE; 256], &LETTERS, TO_SMALL);

/// The digits of a number and of a denominator.
pub static UPPER: Table = with([NONE; 256], &DIGITS, 0);

/// The digits of an ordinal and of a numerator.
pub static LOWER: Table = with([NONE; 256], &LOWER_DIGITS, 0);

/// Small letters, and signs of one cell that may stand everywhere: most of print. Directly after a number, some of them are the number's.
pub static ALONE: Table = with(SMALL, &PUNCTUATION, 0);

/// A table and a list: for each of its code points, less `less`, its cell.
const fn with(mut table: Table, list: &[(char, &str)], less: u32) -> Table {
    let mut i = 0;
    while i < list.len() {
        table[(list[i].0 as u32 - less) as usize] = cell(list[i].1) as u8;
        i += 1;
    }
    table
}

/// A sign that has the same cells wherever it may stand. In eight bytes, so that its place in a table is a shift away.
#[derive(Clone, Copy)]
#[repr(align(8))]
pub struct Sign {
    /// The cells, then blanks.
    pub cells: [u8; 3],
    /// How many cells: 0 where there is no sign.
    pub count: u8,
    /// Normalising adds so many code points to it.
    pub added: u8,
    /// The bit of a pair mark's kind; 0 for every other sign.
    pub kind: u8,
    /// What is to be open of that kind where it stands: nothing for an opener, the bit for a closer.
    pub open: u8,
}

/// No sign.
const NO_SIGN: Sign = Sign { cells: [0; 3], count: 0, added: 0, kind: 0, open: 0 };

/// Signs of two cells or three, and the hyphen, which may not stand everywhere.
#[rustfmt::skip]
const SIGNS: [(char, &str); 19] = [
    ('{', "5-123"), ('}', "456-2"), ('<', "5-13"), ('>', "46-2"), ('-', "36"), ('—', "36-36"), ('/', "6-2"), ('\\', "5-3"),
    ('&', "6-12346"), ('%', "456-356"), ('‰', "456-356-356"), ('€', "456-15"), ('$', "456-234"), ('¢', "45-14"), ('£', "5-2346"),
    ('¥', "456-13456"), ('₿', "456-12"), ('†', "5-1235"), (ELLIPSIS, "3-3-3"),
];

/// The five kinds of pairs: the opener, the closer, and the cells of each.
const PAIRS: [(char, char, &str); 5] =
    [('¿', '?', "26"), ('¡', '!', "235"), ('«', '»', "236"), ('‘', '’', "6-236"), ('\u{E000}', '\u{E001}', "35")];

/// The sign of a code point; its count is 0 if neither list has one.
#[inline(always)]
pub fn sign_of(point: u32) -> &'static Sign {
    if let Some(sign) = BELOW_256.get(point as usize) {
        return sign;
    }
    if let Some(sign) = FROM_2010_ON.get(point.wrapping_sub(0x2010) as usize) {
        return sign;
    }
    ELSEWHERE.iter().find(|entry| entry.0 == point).map_or(&NO_SIGN, |entry| &entry.1)
}

static BELOW_256: [Sign; 256] = signs_from(0);

/// U+2010 to U+204F: dashes, quotation marks, † … ‰.
static FROM_2010_ON: [Sign; 64] = signs_from(0x2010);

/// Those that are in neither.
static ELSEWHERE: [(u32, Sign); 4] = [elsewhere('€'), elsewhere('₿'), elsewhere('\u{E000}'), elsewhere('\u{E001}')];

const fn elsewhere(print: char) -> (u32, Sign) {
    (print as u32, listed(print as u32))
}

const fn signs_from<const LEN: usize>(first: u32) -> [Sign; LEN] {
    let mut signs = [NO_SIGN; LEN];
    let mut i = 0;
    while i < LEN {
        signs[i] = listed(first + i as u32);
        i += 1;
    }
    signs
}

/// What the lists have for a code point.
const fn listed(point: u32) -> Sign {
    let point = normal(point);
    let mut i = 0;
    while i < SIGNS.len() {
        if SIGNS[i].0 as u32 == point {
            let added = if point == ELLIPSIS as u32 { STOPS_OF_ELLIPSIS - 1 } else { 0 };
            return Sign { added, ..sign(SIGNS[i].1) };
        }
        i += 1;
    }
    let mut i = 0;
    while i < PAIRS.len() {
        let (opener, closer, dots) = PAIRS[i];
        let kind = 1 << i;
        if opener as u32 == point {
            return Sign { kind, open: 0, ..sign(dots) };
        }
        if closer as u32 == point {
            return Sign { kind, open: kind, ..sign(dots) };
        }
        i += 1;
    }
    NO_SIGN
}

/// A sign from its dots, as the paper writes it: `sign("456-356")`.
const fn sign(dots: &str) -> Sign {
    let dots = dots.as_bytes();
    let mut sign = Sign { count: 1, ..NO_SIGN };
    let mut i = 0;
    while i < dots.len() {
        match dots[i] {
            b'-' => sign.count += 1,
            dot => sign.cells[sign.count as usize - 1] |= 1 << (dot - b'1'),
        }
        i += 1;
    }
    sign
}
