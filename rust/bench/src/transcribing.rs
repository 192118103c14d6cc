//! Transcribing: nanoseconds for each code point of print. `plain::transcribe_lent` goes about it as the library does: to the lent row, and
//! nowhere else. `plain::transcribe` has a row of its own and copies that.
use crate::cases::{lines, normal, LONG_LINES, SHORT_LINES};
use crate::duel::{self, Duel, Ratio, Rivals, Words};
use crate::prose::{curly_quotes_then_prose, prose, prose_then_curly_quotes, Random};
use crate::text::Text;
use omdurgash::LONGEST_ROW;

type Line = duel::Line<u32, u8>;
type Case = duel::Case<u32, u8>;

const WORDS: Words =
    Words { name: "transcribe", doing: "Transcribing", input: "print", element: "code point", elements: "code points", written: "cells" };

const RIVALS: Rivals<u32, u8> = [
    ("library", |print, row| omdurgash::transcribe(print, row).map_err(|refusal| (refusal.number(), refusal.second()))),
    ("plain, lent", |print, row| plain::transcribe_lent(print, row).map_err(plain::Refusal::shown)),
    ("plain, copying", |print, row| plain::transcribe(print, row).map_err(plain::Refusal::shown)),
];

/// It is no cell.
const UNTOUCHED: u8 = 0xA5;

/// Times every case and prints the table.
pub fn run() -> Vec<Ratio> {
    Duel { words: WORDS, rivals: RIVALS, cases: cases(), untouched: UNTOUCHED, room: LONGEST_ROW }.run()
}

fn accepted(text: Text) -> Line {
    Line::accepted(text.print, text.cells)
}

/// The text with a code point behind it that has no sign.
fn without_sign_at_end(text: Text) -> Line {
    let place = text.len();
    Line::refused([text.print, vec![u32::from('@')]].concat(), 2, place)
}

fn cases() -> Vec<Case> {
    let of_data =
        normal().into_iter().map(|data| Case { name: data.name, title: data.title, lines: data.texts.into_iter().map(accepted).collect() });
    of_data.chain(not_normal()).chain(refused()).collect()
}

/// Print that is to be normalised.
fn not_normal() -> Vec<Case> {
    let random = &mut Random::new();
    let again = |times, print, cells| vec![accepted(Text::repeated(times, print, "", cells))];
    let case = |name, title, lines| Case { name, title, lines };
    vec![
        case("curly-front-40", "“ ” in front, lines of 40", lines(SHORT_LINES, || accepted(curly_quotes_then_prose(random, 40)))),
        case("curly-front-4000", "“ ” in front, lines of 4,000", lines(LONG_LINES, || accepted(curly_quotes_then_prose(random, 4000)))),
        case("curly-end-40", "“ ” at the end, lines of 40", lines(SHORT_LINES, || accepted(prose_then_curly_quotes(random, 40)))),
        case("curly-end-4000", "“ ” at the end, lines of 4,000", lines(LONG_LINES, || accepted(prose_then_curly_quotes(random, 4000)))),
        case("curly-40", "40: “a” “a”", again(10, "“a” ", "⠦⠁⠦⠀")),
        case("curly", "“a” “a”", again(1024, "“a” ", "⠦⠁⠦⠀")),
        case("ellipses", "…", again(1365, "…", "⠄⠄⠄")),
        case("ordinals-without-stop", "ordinals without a stop: 3º 3º", again(1024, "3º ", "⠼⠒⠕⠀")),
    ]
}

/// Print that is refused: where it ends, or for its length.
fn refused() -> Vec<Case> {
    let random = &mut Random::new();
    let print = |times, print| Text::repeated(times, print, "", "").print;
    let refused = |print, number, second| vec![Line::refused(print, number, second)];
    let case = |name, title, lines| Case { name, title, lines };
    vec![
        case("no-sign-at-end-40", "40: prose, no sign at the end", lines(SHORT_LINES, || without_sign_at_end(prose(random, 39)))),
        case("no-sign-at-end", "prose, no sign at the end", lines(LONG_LINES, || without_sign_at_end(prose(random, 3999)))),
        case("open-at-end", "pair open at the end: ¿aaa", refused([print(1, "¿"), print(4095, "a")].concat(), 3, 4096)),
        case("too-long", "blanks, text too long", refused(print(4097, " "), 1, 4097)),
        case("ellipses-too-long", "…, text too long", refused(print(1366, "…"), 1, 4098)),
    ]
}
