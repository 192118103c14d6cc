//! Text that has the letters, words and signs of Spanish prose about as often, and means nothing. The same at each run.
use crate::text::Text;

#[rustfmt::skip]
const WORDS: [&str; 72] = [
    "de", "la", "que", "el", "en", "y", "a", "los", "se", "del", "las", "un", "por", "con", "no", "una", "su", "para", "es", "al", "lo",
    "como", "más", "o", "pero", "sus", "le", "ha", "me", "si", "sin", "sobre", "este", "ya", "entre", "cuando", "todo", "esta", "ser",
    "son", "dos", "también", "fue", "había", "era", "muy", "años", "hasta", "desde", "está", "mi", "porque", "qué", "sólo", "yo", "hay",
    "vez", "puede", "todos", "así", "niño", "señora", "lugar", "nombre", "tiempo", "ciudad", "página", "lección", "pingüino", "escuela",
    "biblioteca", "corazón",
];

const NUMBERS: [&str; 8] = ["7", "12", "48", "365", "1938", "2.500", "3,5", "1.720,25"];

/// xorshift, from a fixed seed.
pub struct Random(u64);

impl Random {
    /// At the seed.
    pub fn new() -> Random {
        Random(0x9E37_79B9_7F4A_7C15)
    }

    /// A number below `bound`.
    pub fn below(&mut self, bound: usize) -> usize {
        self.0 ^= self.0 << 13;
        self.0 ^= self.0 >> 7;
        self.0 ^= self.0 << 17;
        (self.0 % bound as u64) as usize
    }

    /// One of these.
    pub fn one_of(&mut self, list: &[&'static str]) -> &'static str {
        list[self.below(list.len())]
    }
}

/// One to four words between two marks.
fn marked(random: &mut Random, opener: char, closer: char, with_capital: bool) -> Text {
    let mut text = Text::default();
    text.sign(opener);
    text.word(random.one_of(&WORDS), with_capital);
    for _ in 0..random.below(4) {
        text.sign(' ');
        text.word(random.one_of(&WORDS), false);
    }
    text.sign(closer);
    text
}

/// A word between “ and ”, which normalising replaces.
fn in_curly_quotes(random: &mut Random) -> Text {
    let mut text = Text::default();
    text.sign('“');
    text.word(random.one_of(&WORDS), false);
    text.sign('”');
    text
}

/// Prose of so many code points, which is normal already.
pub fn prose(random: &mut Random, length: usize) -> Text {
    let mut text = Text::default();
    let mut sentence_starts = true;
    while text.len() < length {
        let mut piece = Text::default();
        let mut ends_sentence = false;
        match random.below(100) {
            0..=2 => piece = marked(random, '«', '»', sentence_starts),
            3..=5 => piece.number(random.one_of(&NUMBERS)),
            // A question or a call is a sentence of its own.
            6..=15 if sentence_starts => (piece, ends_sentence) = (marked(random, '¿', '?', true), true),
            16..=25 if sentence_starts => (piece, ends_sentence) = (marked(random, '¡', '!', true), true),
            _ => piece.word(random.one_of(&WORDS), sentence_starts),
        }
        let rest = length - text.len();
        if rest < piece.len() {
            // A word, cut where the text ends.
            let word: String = random.one_of(&WORDS).chars().take(rest).collect();
            piece = Text::default();
            piece.word(&word, sentence_starts);
            ends_sentence = false;
        }
        text.append(piece);
        let behind = match random.below(100) {
            _ if ends_sentence => " ",
            0..=9 => ", ",
            10..=19 => {
                ends_sentence = true;
                ". "
            }
            _ => " ",
        };
        for sign in behind.chars().take(length - text.len()) {
            text.sign(sign);
        }
        sentence_starts = ends_sentence;
    }
    text
}

/// Prose of so many code points that begins with a word between “ and ”.
pub fn curly_quotes_then_prose(random: &mut Random, length: usize) -> Text {
    let mut text = in_curly_quotes(random);
    text.sign(' ');
    let rest = length - text.len();
    text.append(prose(random, rest));
    text
}

/// Prose of so many code points that ends with a word between “ and ”: only there is it found that the print has to be normalised.
pub fn prose_then_curly_quotes(random: &mut Random, length: usize) -> Text {
    let quoted = in_curly_quotes(random);
    let mut text = prose(random, length - quoted.len() - 1);
    text.sign(' ');
    text.append(quoted);
    text
}
