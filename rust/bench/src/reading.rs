//! Reading: nanoseconds for each cell of a row. `plain::read` goes about it as the library does: one pass into a text of its own, and a
//! copy. `plain::read_lent` makes two passes and copies nothing.
use crate::cases::{lines, normal, LONG_LINES, SHORT_LINES};
use crate::duel::{self, Duel, Ratio, Rivals, Words};
use crate::prose::{prose, Random};
use crate::text::Text;
use omdurgash::LONGEST_TEXT;

type Line = duel::Line<u8, u32>;
type Case = duel::Case<u8, u32>;

const WORDS: Words = Words { name: "read", doing: "Reading", input: "row", element: "cell", elements: "cells", written: "points" };

const RIVALS: Rivals<u8, u32> = [
    ("library", |row, text| omdurgash::read(row, text).map_err(|refusal| (refusal.number(), refusal.second()))),
    ("plain, copying", |row, text| plain::read(row, text).map_err(plain::Refusal::shown)),
    ("plain, lent", |row, text| plain::read_lent(row, text).map_err(plain::Refusal::shown)),
];

/// It is no code point.
const UNTOUCHED: u32 = 0xA5A5_A5A5;

/// A byte that is no cell.
const NO_CELL: u8 = 64;

/// A cell that starts no sign.
const NO_SIGN: u8 = 63;

/// Times every case and prints the table.
pub fn run() -> Vec<Ratio> {
    Duel { words: WORDS, rivals: RIVALS, cases: cases(), untouched: UNTOUCHED, room: LONGEST_TEXT }.run()
}

fn accepted(text: Text) -> Line {
    Line::accepted(text.cells, text.print)
}

/// The row of a text with a cell behind it that starts no sign.
fn without_sign_at_end(text: Text) -> Line {
    Line::refused([text.cells, vec![NO_SIGN]].concat(), 8, 0)
}

/// The row of a text with a byte behind it that is no cell.
fn without_cell_at_end(text: Text) -> Line {
    let place = text.cells.len();
    Line::refused([text.cells, vec![NO_CELL]].concat(), 7, place)
}

fn cases() -> Vec<Case> {
    let of_data =
        normal().into_iter().map(|data| Case { name: data.name, title: data.title, lines: data.texts.into_iter().map(accepted).collect() });
    of_data.chain(refused()).collect()
}

/// Rows that are refused: where they end, or for the length of their text.
fn refused() -> Vec<Case> {
    let random = &mut Random::new();
    let refused = |times, cells, number, second| vec![Line::refused(Text::repeated(times, "", "", cells).cells, number, second)];
    let case = |name, title, lines| Case { name, title, lines };
    let begun = |cells: &[u8]| Line::refused(cells.to_vec(), 8, 0);
    // 46, 3456, ¿, « and 63; and these behind an a
    let one = [40, 60, 34, 38, NO_SIGN];
    vec![
        case("no-sign-1", "1 cell: no sign", one.map(|cell| begun(&[cell])).into()),
        case("no-sign-2", "2 cells: a, and no sign", one.map(|cell| begun(&[1, cell])).into()),
        case("no-sign-at-end-40", "40: prose, no sign at the end", lines(SHORT_LINES, || without_sign_at_end(prose(random, 39)))),
        case("no-sign-at-end", "prose, no sign at the end", lines(LONG_LINES, || without_sign_at_end(prose(random, 3999)))),
        case("no-cell-at-end", "prose, no cell at the end", lines(LONG_LINES, || without_cell_at_end(prose(random, 3999)))),
        case("blanks-too-long", "blanks, text too long", refused(12_288, "⠀", 1, 12_288)),
        case("dashes-too-long", "dashes, text too long", refused(12_288, "⠤", 1, 6144)),
        case("dashes-odd", "dashes, odd", refused(12_287, "⠤", 8, 0)),
        case("capitals-none-small", "capitals with 46, no letter small", refused(6144, "⠨⠁", 8, 0)),
        case("open-at-end", "pairs, one left open", refused(12_287, "⠢", 8, 0)),
    ]
}
