//! The sign list of paper 01: its lists, and tables of them over the cells.

/// A cell from its dots, as the paper writes it: `cell("46")`. The blank cell is 0.
pub const fn cell(dots: &str) -> usize {
    let dots = dots.as_bytes();
    let (mut cell, mut i) = (0, 0);
    while i < dots.len() {
        if dots[i] != b'0' {
            cell |= 1 << (dots[i] - b'1');
        }
        i += 1;
    }
    cell
}

pub const D1: usize = cell("1");
pub const D2: usize = cell("2");
pub const D3: usize = cell("3");
pub const D5: usize = cell("5");
pub const D6: usize = cell("6");
pub const D36: usize = cell("36");
pub const D45: usize = cell("45");
pub const D46: usize = cell("46");
pub const D135: usize = cell("135");
pub const D236: usize = cell("236");
pub const D356: usize = cell("356");
pub const D456: usize = cell("456");
pub const D3456: usize = cell("3456");

/// What stands past a row's end: no cell.
pub const END: usize = 64;

/// A capital's code point is that of its small letter less this.
pub const TO_SMALL: u32 = 32;

/// Small letters.
#[rustfmt::skip]
pub const LETTERS: [(char, &str); 33] = [
    ('a', "1"), ('b', "12"), ('c', "14"), ('d', "145"), ('e', "15"), ('f', "124"), ('g', "1245"), ('h', "125"), ('i', "24"), ('j', "245"),
    ('k', "13"), ('l', "123"), ('m', "134"), ('n', "1345"), ('ñ', "12456"), ('o', "135"), ('p', "1234"), ('q', "12345"), ('r', "1235"),
    ('s', "234"), ('t', "2345"), ('u', "136"), ('v', "1236"), ('w', "2456"), ('x', "1346"), ('y', "13456"), ('z', "1356"),
    ('á', "12356"), ('é', "2346"), ('í', "34"), ('ó', "346"), ('ú', "23456"), ('ü', "1256"),
];

/// The digits of a number and of a denominator: the cells of a to j.
#[rustfmt::skip]
pub const DIGITS: [(char, &str); 10] = [
    ('1', "1"), ('2', "12"), ('3', "14"), ('4', "145"), ('5', "15"), ('6', "124"), ('7', "1245"), ('8', "125"), ('9', "24"), ('0', "245"),
];

/// The digits of an ordinal and of a numerator.
#[rustfmt::skip]
pub const LOWER_DIGITS: [(char, &str); 10] = [
    ('1', "2"), ('2', "23"), ('3', "25"), ('4', "256"), ('5', "26"), ('6', "235"), ('7', "2356"), ('8', "236"), ('9', "35"), ('0', "356"),
];

/// Signs of one cell that mean the same wherever a sign may start.
pub const PUNCTUATION: [(char, &str); 8] =
    [(' ', "0"), ('.', "3"), (',', "2"), (';', "23"), (':', "25"), ('(', "126"), (')', "345"), ('=', "2356")];

/// The marks of one cell that open a pair, and, in the same order, those that close it.
const OPENERS: [(char, &str); 4] = [('¿', "26"), ('¡', "235"), ('«', "236"), ('\u{E000}', "35")];
const CLOSERS: [(char, &str); 4] = [('?', "26"), ('!', "235"), ('»', "236"), ('\u{E001}', "35")];

/// From a byte, or `END`, to a code point: 0 where there is none. A byte's number of places, so that no look-up has a bound to test.
pub type Table = [u32; 256];

const fn with(mut table: Table, list: &[(char, &str)]) -> Table {
    let mut i = 0;
    while i < list.len() {
        table[cell(list[i].1)] = list[i].0 as u32;
        i += 1;
    }
    table
}

/// Small letters.
pub static SMALL: Table = with([0; 256], &LETTERS);

/// The digits of a number and of a denominator: the cells of a to j.
pub static DIGIT: Table = with([0; 256], &DIGITS);

/// The digits of an ordinal and of a numerator.
pub static LOWER: Table = with([0; 256], &LOWER_DIGITS);

/// Small letters, and signs of one cell that mean the same wherever a sign may start.
pub static ALONE: Table = with(with([0; 256], &LETTERS), &PUNCTUATION);

/// Capitals, over the cells of their letters.
pub static CAPITAL: Table = capitals();

const fn capitals() -> Table {
    let mut table = with([0; 256], &LETTERS);
    let mut i = 0;
    while i < LETTERS.len() {
        table[cell(LETTERS[i].1)] -= TO_SMALL;
        i += 1;
    }
    table
}

/// The marks of one cell that open a pair.
pub static OPENER: Table = with([0; 256], &OPENERS);

/// Those that close it.
pub static CLOSER: Table = with([0; 256], &CLOSERS);

/// Their kinds: a bit for each.
pub static KIND: Table = kinds();

/// The kind of ‘ and ’, which have two cells.
pub const QUOTES: u32 = 1 << OPENERS.len();

const fn kinds() -> Table {
    let mut table = [0; 256];
    let mut i = 0;
    while i < OPENERS.len() {
        table[cell(OPENERS[i].1)] = 1 << i;
        i += 1;
    }
    table
}

// The second cell of a sign of two cells, but not of ‘ or ’, nor of `>`: a table for each first cell.
static AFTER_5: Table = with([0; 256], &[('{', "123"), ('<', "13"), ('\\', "3"), ('£', "2346"), ('†', "1235")]);
static AFTER_6: Table = with([0; 256], &[('/', "2"), ('&', "12346")]);
static AFTER_45: Table = with([0; 256], &[('¢', "14")]);
static AFTER_456: Table = with([0; 256], &[('}', "2"), ('%', "356"), ('€', "15"), ('$', "234"), ('¥', "13456"), ('₿', "12")]);

/// A sign of two cells that one of these tables has.
#[inline(always)]
pub fn two_cells(first: usize, then: usize) -> Option<u32> {
    let after = match first {
        D5 => &AFTER_5,
        D6 => &AFTER_6,
        D45 => &AFTER_45,
        D456 => &AFTER_456,
        _ => return None,
    };
    known(after[then])
}

/// What a table gives, if it is a code point.
#[inline(always)]
pub fn known(point: u32) -> Option<u32> {
    (point != 0).then_some(point)
}
