//! The refusals of print once more, place by place in the sentences of paper 01; and accepted texts, there and back: by both readers, and
//! by steps.
mod common;

use common::*;
use std::collections::HashMap;

/// What matters to the rules: a small letter that has a digit's cell and one that has not, capitals, digits, points, the marks of the
/// forms, dashes, a pair, a blank.
const SHORT_ALPHABET: &str = "akAB12.,ºª⁄-—¿? ";

/// Those, and some of everything else; `@` has no sign.
const LONG_ALPHABET: &str = "akAB12.,ºª⁄-—¿? bjñzÑÜ0938;:¡!«»‘’“”‹›…\u{E000}\u{E001}(){}<>/\\&=%‰€$¢£¥₿†@";

/// "Normalised print".
fn normalised(print: &[char]) -> Vec<char> {
    let mut text = vec![];
    for (i, &point) in print.iter().enumerate() {
        match point {
            '…' => text.extend(['.'; 3]),
            '“' => text.push('«'),
            '”' => text.push('»'),
            '‹' => text.push('‘'),
            '›' => text.push('’'),
            'º' | 'ª' if i > 0 && print[i - 1].is_ascii_digit() => text.extend(['.', point]),
            _ => text.push(point),
        }
    }
    text
}

/// What a place of a text belongs to.
#[derive(Clone, Copy, PartialEq)]
enum Part {
    Number,
    Ordinal,
    Fraction,
    Nothing,
}

/// "Numbers", "Ordinals and fractions": taken from the left, and a digit belongs to one only.
fn parts(text: &[char]) -> Vec<Part> {
    let is_digit = |i: usize| text.get(i).is_some_and(char::is_ascii_digit);
    let behind_digits = |from: usize| (from..).find(|&i| !is_digit(i)).expect("a text ends");
    let mut parts = vec![Part::Nothing; text.len()];
    let mut i = 0;
    while i < text.len() {
        let mut end = behind_digits(i);
        if end == i {
            i += 1;
            continue;
        }
        let part = match text[end..] {
            ['.', 'º' | 'ª', ..] => {
                end += 2;
                Part::Ordinal
            }
            ['⁄', '0'..='9', ..] => {
                end = behind_digits(end + 1);
                Part::Fraction
            }
            _ => {
                while let ['.' | ',', '0'..='9', ..] = text[end..] {
                    end = behind_digits(end + 1);
                }
                Part::Number
            }
        };
        parts[i..end].fill(part);
        i = end;
    }
    parts
}

/// "Pairs": the openers and the closers.
const PAIRS: [(char, char); 5] = [('¿', '?'), ('¡', '!'), ('«', '»'), ('‘', '’'), ('\u{E000}', '\u{E001}')];

/// Whether a kind is open behind a text in which no mark is at fault.
fn is_open((opener, closer): (char, char), text: &[char]) -> bool {
    text.iter().filter(|&&mark| mark == opener || mark == closer).count() % 2 == 1
}

/// The number of the fault at a place, if there is one and none before.
fn fault_at(i: usize, text: &[char], parts: &[Part]) -> Option<u8> {
    let (before, point, after) = (&text[..i], text[i], text.get(i + 1));
    let against_pairs = |&pair: &(char, char)| point == if is_open(pair, before) { pair.0 } else { pair.1 };
    match (before, point) {
        (_, '@') => Some(2),
        _ if PAIRS.iter().any(against_pairs) => Some(3),
        (_, 'º' | 'ª' | '⁄') if parts[i] == Part::Nothing => Some(4),
        ([.., '0'..='9', '.' | ','], 'a'..='j') if parts[i - 2] == Part::Number => Some(5),
        ([.., '-'], '-' | '—') | ([.., '—'], '-') => Some(5),
        ([.., '⁄'], '1') if !after.is_some_and(char::is_ascii_digit) => Some(5),
        ([.., 'ª'], 'a'..='j') => Some(5),
        _ => None,
    }
}

/// The refusal of a text that is not too long, the room aside.
fn refusal(text: &[char]) -> Option<Shown> {
    let parts = parts(text);
    let fault = (0..text.len()).find_map(|i| fault_at(i, text, &parts).map(|number| (number, i)));
    fault.or(PAIRS.iter().any(|&pair| is_open(pair, text)).then_some((3, text.len())))
}

/// Print is refused as the rules above say; or it has a row, which has its normalised text.
fn check(print: &[char], text_of_row: &mut HashMap<Vec<u8>, Vec<char>>) {
    let points = |text: &[char]| text.iter().map(|&point| u32::from(point)).collect::<Vec<_>>();
    let text = normalised(print);
    let row = row_of(&points(print));
    assert_eq!(row.as_ref().err(), refusal(&text).as_ref(), "{print:?}");
    if let Ok(row) = row {
        assert!(row.len() <= 3 * text.len(), "{print:?}");
        assert_eq!(text_within(text.len(), &row), Ok(points(&text)), "{print:?}");
        assert_eq!(joined_steps(&row), points(&text), "{print:?}");
        assert_eq!(text_of_row.entry(row).or_insert_with(|| text.clone()), &text, "two texts with one row");
    }
}

#[test]
fn every_text_of_up_to_four() {
    let alphabet: Vec<char> = SHORT_ALPHABET.chars().collect();
    let mut text_of_row = HashMap::new();
    for len in 0..=4 {
        for number in 0..alphabet.len().pow(len) {
            let print: Vec<char> = (0..len).map(|i| alphabet[number / alphabet.len().pow(i) % alphabet.len()]).collect();
            check(&print, &mut text_of_row);
        }
    }
    assert!(text_of_row.len() > 10_000);
}

/// Short texts; and those that are accepted, many with blanks between as a long one.
#[test]
fn texts_at_random() {
    let alphabets: [Vec<char>; 2] = [SHORT_ALPHABET.chars().collect(), LONG_ALPHABET.chars().collect()];
    let mut text_of_row = HashMap::new();
    let mut state = 1_u64;
    let mut below = |count: usize| {
        state = state.wrapping_mul(6_364_136_223_846_793_005).wrapping_add(1_442_695_040_888_963_407);
        (state >> 33) as usize % count
    };
    let mut long = vec![];
    for round in 0..100_000 {
        let alphabet = &alphabets[round % 2];
        let print: Vec<char> = (0..below(13)).map(|_| alphabet[below(alphabet.len())]).collect();
        check(&print, &mut text_of_row);
        if refusal(&normalised(&print)).is_none() {
            long.extend(print.into_iter().chain([' ']));
        }
    }
    assert!(text_of_row.len() > 10_000);
    let mut rest = &long[..20_000];
    while let Some(cut) = rest[..rest.len().min(30 + below(1_000))].iter().rposition(|&point| point == ' ') {
        check(&rest[..cut], &mut text_of_row);
        rest = &rest[cut + 1..];
    }
}
