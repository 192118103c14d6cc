//! Texts whose pieces are drawn by lot. What repeats itself the processor soon knows by heart, and then it runs ahead of the code; of these
//! it cannot tell how long the next number is, or which letter is a capital. The same at each run.
use crate::cases::{lines, Data, LONG_LINES, SHORT_LINES};
use crate::prose::Random;
use crate::text::Text;

const LETTERS: [char; 33] = [
    'a', 'b', 'c', 'd', 'e', 'f', 'g', 'h', 'i', 'j', 'k', 'l', 'm', 'n', 'ñ', 'o', 'p', 'q', 'r', 's', 't', 'u', 'v', 'w', 'x', 'y', 'z',
    'á', 'é', 'í', 'ó', 'ú', 'ü',
];

/// Opener, closer, and the cells of both.
const PAIRS: [(&str, &str, &str); 5] = [("¿", "?", "⠢"), ("¡", "!", "⠖"), ("«", "»", "⠦"), ("‘", "’", "⠠⠦"), ("\u{E000}", "\u{E001}", "⠔")];

/// Signs that may stand side by side.
#[rustfmt::skip]
const SIGNS: [(&str, &str); 25] = [
    (" ", "⠀"), (".", "⠄"), (",", "⠂"), (";", "⠆"), (":", "⠒"), ("(", "⠣"), (")", "⠜"), ("=", "⠶"), ("—", "⠤⠤"), ("{", "⠐⠇"), ("}", "⠸⠂"), ("<", "⠐⠅"),
    (">", "⠨⠂"), ("/", "⠠⠂"), ("\\", "⠐⠄"), ("&", "⠠⠯"), ("%", "⠸⠴"), ("‰", "⠸⠴⠴"), ("€", "⠸⠑"), ("$", "⠸⠎"), ("¢", "⠘⠉"), ("£", "⠐⠮"), ("¥", "⠸⠽"),
    ("₿", "⠸⠃"), ("†", "⠐⠗"),
];

/// How long the longer ones are, at most; and the shorter ones.
const LONG: usize = 4000;
const SHORT: usize = 40;

/// One to so many digits.
fn digits(random: &mut Random, most: usize) -> String {
    (0..=random.below(most)).map(|_| random.one_of(&["1", "2", "3", "4", "5", "6", "7", "8", "9", "0"])).collect()
}

/// A word of one to eight letters.
fn word(random: &mut Random) -> String {
    (0..=random.below(8)).map(|_| LETTERS[random.below(LETTERS.len())]).collect()
}

fn number(random: &mut Random, text: &mut Text) {
    text.number(&digits(random, 4));
}

/// A number with up to two points or commas.
fn number_with_points(random: &mut Random, text: &mut Text) {
    let mut number = digits(random, 3);
    for _ in 0..random.below(3) {
        number += random.one_of(&[".", ","]);
        number += &digits(random, 3);
    }
    text.number(&number);
}

fn fraction(random: &mut Random, text: &mut Text) {
    text.fraction(&digits(random, 2), &format!("2{}", digits(random, 1)));
}

fn ordinal(random: &mut Random, text: &mut Text) {
    text.ordinal(&digits(random, 2), if random.below(2) == 0 { 'º' } else { 'ª' });
}

fn number_and_letter(random: &mut Random, text: &mut Text) {
    text.number_and_letter(&digits(random, 2), LETTERS[random.below(LETTERS.len())]);
}

fn sign(random: &mut Random, text: &mut Text) {
    let (print, cells) = SIGNS[random.below(SIGNS.len())];
    text.put(print, cells);
}

/// A word: of small letters, with a capital in front, or of capitals only.
fn usual_word(random: &mut Random, text: &mut Text) {
    let word = word(random);
    match random.below(4) {
        0 => text.word_with_capitals(&word, &vec![true; word.chars().count()]),
        1 => text.word(&word, true),
        _ => text.word(&word, false),
    }
}

/// A word with capitals anywhere.
fn odd_word(random: &mut Random, text: &mut Text) {
    let word = word(random);
    let is_capital: Vec<bool> = word.chars().map(|_| random.below(2) == 0).collect();
    text.word_with_capitals(&word, &is_capital);
}

/// Any of these.
fn anything(random: &mut Random, text: &mut Text) {
    match random.below(8) {
        0 => number_with_points(random, text),
        1 => fraction(random, text),
        2 => ordinal(random, text),
        3 => sign(random, text),
        4 => {
            let (opener, closer, cells) = PAIRS[random.below(PAIRS.len())];
            text.put(opener, cells);
            usual_word(random, text);
            text.put(closer, cells);
        }
        _ => usual_word(random, text),
    }
}

/// As many pieces as there is room for, each with a blank behind it, or without.
fn pieces(random: &mut Random, length: usize, blank: &str, piece: fn(&mut Random, &mut Text)) -> Text {
    let mut text = Text::default();
    loop {
        let mut next = Text::default();
        piece(random, &mut next);
        next.put(blank, if blank.is_empty() { "" } else { "⠀" });
        if length < text.len() + next.len() {
            return text;
        }
        text.append(next);
    }
}

/// Marks of pairs that cross. At the end each that is open is closed.
fn pairs(random: &mut Random, length: usize) -> Text {
    let mut text = Text::default();
    let mut open = [false; PAIRS.len()];
    while text.len() < length || open.contains(&true) {
        let kind = random.below(PAIRS.len());
        if text.len() < length || open[kind] {
            let (opener, closer, cells) = PAIRS[kind];
            text.put(if open[kind] { closer } else { opener }, cells);
            open[kind] = !open[kind];
        }
    }
    text
}

/// The texts of both directions.
pub fn drawn() -> Vec<Data> {
    let random = &mut Random::new();
    let mut long = |name, title, blank, piece| Data { name, title, texts: lines(LONG_LINES, || pieces(random, LONG, blank, piece)) };
    let mut all = vec![
        long("drawn-numbers", "drawn: numbers", " ", number),
        long("drawn-numbers-with-points", "drawn: numbers with points", " ", number_with_points),
        long("drawn-fractions", "drawn: fractions", " ", fraction),
        long("drawn-ordinals", "drawn: ordinals", " ", ordinal),
        long("drawn-letters-after-digits", "drawn: letters after digits", "", number_and_letter),
        long("drawn-signs", "drawn: signs", "", sign),
        long("drawn-words", "drawn: words, capitals in front or all", " ", usual_word),
        long("drawn-capitals", "drawn: words, capitals anywhere", " ", odd_word),
        long("drawn-anything", "drawn: anything", " ", anything),
    ];
    let mut short = |name, title, piece| Data { name, title, texts: lines(SHORT_LINES, || pieces(random, SHORT, " ", piece)) };
    all.push(short("drawn-numbers-40", "40: drawn: numbers", number));
    all.push(short("drawn-fractions-40", "40: drawn: fractions", fraction));
    all.push(short("drawn-anything-40", "40: drawn: anything", anything));
    all.push(Data { name: "drawn-pairs", title: "drawn: pairs", texts: lines(LONG_LINES, || pairs(random, LONG)) });
    all
}
