//! What both directions are timed on: texts in normal print, each with its row. A new one is a line here, or in `drawn` if its pieces are drawn
//! by lot; what only one direction has is in `transcribing` or in `reading`.
use crate::drawn::drawn;
use crate::prose::{prose, Random};
use crate::text::{capitals_then_small, Text, DIGITS, LETTERS};

/// So many different lines, so that the processor cannot learn them by heart.
pub const SHORT_LINES: usize = 256;

/// As many where they are longer.
pub const MIDDLE_LINES: usize = 64;

/// As many where they are long.
pub const LONG_LINES: usize = 8;

/// Texts that are timed together.
pub struct Data {
    /// In a single word.
    pub name: &'static str,
    /// What the tables say.
    pub title: &'static str,
    /// The texts, one at least.
    pub texts: Vec<Text>,
}

/// So many lines, each made anew.
pub fn lines<L>(count: usize, mut line: impl FnMut() -> L) -> Vec<L> {
    (0..count).map(|_| line()).collect()
}

/// The texts of both directions.
pub fn normal() -> Vec<Data> {
    [of_prose(), drawn(), long(), short(), few()].into_iter().flatten().collect()
}

/// Prose, in lines of three lengths.
pub fn of_prose() -> Vec<Data> {
    let random = &mut Random::new();
    vec![
        Data { name: "prose-40", title: "prose, lines of 40", texts: lines(SHORT_LINES, || prose(random, 40)) },
        Data { name: "prose-400", title: "prose, lines of 400", texts: lines(MIDDLE_LINES, || prose(random, 400)) },
        Data { name: "prose-4000", title: "prose, lines of 4,000", texts: lines(LONG_LINES, || prose(random, 4000)) },
    ]
}

fn one(name: &'static str, title: &'static str, text: Text) -> Data {
    Data { name, title, texts: vec![text] }
}

/// What is hard in one way, about as long as it may be.
fn long() -> Vec<Data> {
    let again = |name, title, times, print, before, cells| one(name, title, Text::repeated(times, print, before, cells));
    let mixed = "«¿Sí?» ONCE, ABc: 8b 1.720 3⁄4k 2.ª — (10 %) ‰ a-b; ";
    let mixed_cells = "⠦⠢⠨⠎⠌⠢⠦⠀⠨⠨⠕⠝⠉⠑⠂⠀⠨⠁⠨⠃⠉⠒⠀⠼⠓⠐⠃⠀⠼⠁⠄⠛⠃⠚⠀⠼⠒⠙⠅⠀⠼⠆⠁⠀⠤⠤⠀⠣⠼⠁⠚⠀⠸⠴⠜⠀⠸⠴⠴⠀⠁⠤⠃⠆⠀";
    let letters = "⠁⠃⠉⠙⠑⠻⠕⠏⠟⠗⠎⠞⠥⠷⠮⠳";
    vec![
        again("mixed", "mixed", 78, mixed, "", mixed_cells),
        again("blanks", "blanks", 4096, " ", "", "⠀"),
        again("full-stops", "full stops", 4096, ".", "", "⠄"),
        again("small-letters", "small letters", 256, "abcdeñopqrstuáéü", "", letters),
        again("dashes", "dashes", 4096, "—", "", "⠤⠤"),
        again("hyphens-apart", "hyphens apart: a-a-", 2048, "a-", "", "⠁⠤"),
        again("capitals-one-run", "capitals, one run", 256, "ABCDEÑOPQRSTUÁÉÜ", "⠨⠨", letters),
        again("capitals-short-runs", "capitals, short runs: AB AB", 1365, "AB ", "", "⠨⠨⠁⠃⠀"),
        again("capitals-and-small", "capitals and small: AbAb", 2048, "Ab", "", "⠨⠁⠃"),
        one("capitals-last-small", "capitals, the last letter small", capitals_then_small(4096)),
        again("capitals-apart", "capitals apart: A A A", 2048, "A ", "", "⠨⠁⠀"),
        again("digits-one-number", "digits, one number", 512, "12345670", "⠼", "⠁⠃⠉⠙⠑⠋⠛⠚"),
        again("digits-and-points", "digits and points: 1.1.1.", 2048, "1.", "⠼", "⠁⠄"),
        again("numbers-apart", "numbers apart: 1.5 1.5", 1024, "1.5 ", "", "⠼⠁⠄⠑⠀"),
        again("letters-after-digits", "letters after digits: 8b8b", 2048, "8b", "", "⠼⠓⠐⠃"),
        again("fractions", "fractions: 3⁄4 3⁄4", 1024, "3⁄4 ", "", "⠼⠒⠙⠀"),
        again("fractions-two-digits", "fractions: 12⁄16 12⁄16", 682, "12⁄16 ", "", "⠼⠂⠆⠁⠋⠀"),
        again("ordinals", "ordinals: 3.º 3.º", 1024, "3.º ", "", "⠼⠒⠕⠀"),
        again("ordinals-joined", "ordinals: 2.ª2.ª", 1365, "2.ª", "", "⠼⠆⠁"),
        again("pairs", "pairs: ¿?¿?", 2048, "¿?", "", "⠢⠢"),
        again("pairs-crossing", "crossing pairs: ¿¡«‘?!»’", 512, "¿¡«‘?!»’", "", "⠢⠖⠦⠠⠦⠢⠖⠦⠠⠦"),
        again("two-cells-each", "two cells each: {}<>/&", 682, "{}<>/&", "", "⠐⠇⠸⠂⠐⠅⠨⠂⠠⠂⠠⠯"),
        again("three-cells-each", "three cells each: ‰", 4096, "‰", "", "⠸⠴⠴"),
    ]
}

/// Some of these once more in lines of 40, and none at all: a call by itself.
fn short() -> Vec<Data> {
    let again = |name, title, times, print, before, cells| one(name, title, Text::repeated(times, print, before, cells));
    vec![
        again("capitals-one-run-40", "40: capitals, one run", 5, "ABCDEÑOP", "⠨⠨", "⠁⠃⠉⠙⠑⠻⠕⠏"),
        again("capitals-short-runs-40", "40: capitals, short runs: ABC ABC", 10, "ABC ", "", "⠨⠨⠁⠃⠉⠀"),
        again("capitals-and-small-40", "40: capitals and small: AbAb", 20, "Ab", "", "⠨⠁⠃"),
        one("capitals-last-small-40", "40: capitals, the last letter small", capitals_then_small(40)),
        again("capitals-apart-40", "40: capitals apart: A A A", 20, "A ", "", "⠨⠁⠀"),
        again("digits-one-number-40", "40: digits, one number", 5, "12345670", "⠼", "⠁⠃⠉⠙⠑⠋⠛⠚"),
        again("digits-and-points-40", "40: digits and points: 1.1.1.", 20, "1.", "⠼", "⠁⠄"),
        again("numbers-apart-40", "40: numbers apart: 1.5 1.5", 10, "1.5 ", "", "⠼⠁⠄⠑⠀"),
        again("letters-after-digits-40", "40: letters after digits: 8b8b", 20, "8b", "", "⠼⠓⠐⠃"),
        again("fractions-40", "40: fractions: 3⁄4 3⁄4", 10, "3⁄4 ", "", "⠼⠒⠙⠀"),
        again("ordinals-40", "40: ordinals: 3.º 3.º", 10, "3.º ", "", "⠼⠒⠕⠀"),
        again("pairs-40", "40: pairs: ¿?¿?", 20, "¿?", "", "⠢⠢"),
        again("quotes-40", "40: quotes: «a» «a»", 10, "«a» ", "", "⠦⠁⠦⠀"),
        again("empty", "empty: a call", 0, "", "", ""),
    ]
}

/// A text of each letter, small or a capital.
fn each_letter(with_capital: bool) -> Vec<Text> {
    let text = |letter: char| {
        let mut text = Text::default();
        text.word(&letter.to_string(), with_capital);
        text
    };
    LETTERS.chars().map(text).collect()
}

/// Prose of a few code points, letters and digits alone: where the call takes more than the text.
fn few() -> Vec<Data> {
    let random = &mut Random::new();
    let digit = |digit: char| {
        let mut text = Text::default();
        text.number(&digit.to_string());
        text
    };
    let again = |print, cells| Text::repeated(1, print, "", cells);
    let signs = [("—", "⠤⠤"), ("/", "⠠⠂"), ("&", "⠠⠯"), ("{", "⠐⠇"), ("<", "⠐⠅"), (">", "⠨⠂"), ("}", "⠸⠂"), ("%", "⠸⠴")];
    vec![
        Data { name: "letters-1", title: "1: a small letter", texts: each_letter(false) },
        Data { name: "capitals-1", title: "1: a capital", texts: each_letter(true) },
        Data { name: "digits-1", title: "1: a digit", texts: DIGITS.chars().map(digit).collect() },
        Data { name: "two-cells-1", title: "1: a sign of two cells", texts: signs.map(|(print, cells)| again(print, cells)).to_vec() },
        Data { name: "prose-8", title: "prose, lines of 8", texts: lines(SHORT_LINES, || prose(random, 8)) },
        Data { name: "prose-3", title: "prose, lines of 3", texts: lines(SHORT_LINES, || prose(random, 3)) },
        Data { name: "prose-1", title: "prose, lines of 1", texts: lines(SHORT_LINES, || prose(random, 1)) },
    ]
}
