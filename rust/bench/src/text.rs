//! Print with the cells that it must give, put together piece by piece. Only what the bench needs: words, numbers, ordinals, fractions,
//! and signs. It is no transcriber: whoever calls says what each piece is. Where the print is normal, it is the text that its cells must
//! give.

/// Print and its cells.
#[derive(Clone, Default)]
pub struct Text {
    /// Code points.
    pub print: Vec<u32>,
    /// Cells.
    pub cells: Vec<u8>,
}

/// Dots 46: a capital follows.
const CAPITAL: char = '⠨';

/// Dots 3456: a number follows.
const NUMBER: char = '⠼';

/// The small letters.
pub const LETTERS: &str = "abcdefghijklmnñopqrstuvwxyzáéíóúü";

const LETTER_CELLS: &str = "⠁⠃⠉⠙⠑⠋⠛⠓⠊⠚⠅⠇⠍⠝⠻⠕⠏⠟⠗⠎⠞⠥⠧⠺⠭⠽⠵⠷⠮⠌⠬⠾⠳";

/// Dot 5: a letter a to j follows a number.
const SEPARATOR: char = '⠐';

const NUMBER_SIGNS: &str = "1234567890.,";

const NUMBER_CELLS: &str = "⠁⠃⠉⠙⠑⠋⠛⠓⠊⠚⠄⠂";

/// The digits.
pub const DIGITS: &str = "1234567890";

const LOWER_CELLS: &str = "⠂⠆⠒⠲⠢⠖⠶⠦⠔⠴";

const SIGNS: &str = " .,¿?¡!«»“”";

const SIGN_CELLS: &str = "⠀⠄⠂⠢⠢⠖⠖⠦⠦⠦⠦";

/// The cell that stands in `cells` where the code point stands in `signs`.
fn cell_of(point: char, signs: &str, cells: &str) -> char {
    let found = signs.chars().zip(cells.chars()).find(|(sign, _)| *sign == point);
    found.unwrap_or_else(|| panic!("{point} is not among {signs}")).1
}

impl Text {
    /// The print, repeated, with the cells as Unicode braille patterns, repeated; `before` stands once before them.
    pub fn repeated(times: usize, print: &str, before: &str, cells: &str) -> Text {
        let mut text = Text::default();
        text.put(&print.repeat(times), before);
        text.put("", &cells.repeat(times));
        text
    }

    /// How many code points there are.
    pub fn len(&self) -> usize {
        self.print.len()
    }

    /// Adds another text at the end. The two must not change each other's cells.
    pub fn append(&mut self, other: Text) {
        self.print.extend(other.print);
        self.cells.extend(other.cells);
    }

    /// Adds a sign of one cell.
    pub fn sign(&mut self, sign: char) {
        self.put(&sign.to_string(), &cell_of(sign, SIGNS, SIGN_CELLS).to_string());
    }

    /// Adds a word of small letters, or with a capital for the first of them.
    pub fn word(&mut self, word: &str, with_capital: bool) {
        for (i, letter) in word.chars().enumerate() {
            let cell = cell_of(letter, LETTERS, LETTER_CELLS);
            if with_capital && i == 0 {
                self.put(&letter.to_uppercase().to_string(), &format!("{CAPITAL}{cell}"));
            } else {
                self.put(&letter.to_string(), &cell.to_string());
            }
        }
    }

    /// Adds a word with capitals where `is_capital` says so of its letters, one by one.
    pub fn word_with_capitals(&mut self, word: &str, is_capital: &[bool]) {
        let alone = word.chars().count() == 1;
        if !alone && is_capital.iter().all(|&big| big) {
            self.put(&word.to_uppercase(), &format!("{CAPITAL}{CAPITAL}"));
            word.chars().for_each(|letter| self.put("", &cell_of(letter, LETTERS, LETTER_CELLS).to_string()));
        } else {
            word.chars().zip(is_capital).for_each(|(letter, &big)| self.word(&letter.to_string(), big));
        }
    }

    /// Adds a number and a small letter directly behind it.
    pub fn number_and_letter(&mut self, number: &str, letter: char) {
        self.number(number);
        if ('a'..='j').contains(&letter) {
            self.put("", &SEPARATOR.to_string());
        }
        self.word(&letter.to_string(), false);
    }

    /// Adds an ordinal; `mark` is º or ª.
    pub fn ordinal(&mut self, digits: &str, mark: char) {
        self.lower(digits);
        self.put(&format!(".{mark}"), if mark == 'º' { "⠕" } else { "⠁" });
    }

    /// Adds a fraction. The denominator is not 1.
    pub fn fraction(&mut self, above: &str, below: &str) {
        self.lower(above);
        self.put(&format!("\u{2044}{below}"), "");
        below.chars().for_each(|digit| self.put("", &cell_of(digit, NUMBER_SIGNS, NUMBER_CELLS).to_string()));
    }

    /// Adds digits that are written as lower ones.
    fn lower(&mut self, digits: &str) {
        self.put(digits, &NUMBER.to_string());
        digits.chars().for_each(|digit| self.put("", &cell_of(digit, DIGITS, LOWER_CELLS).to_string()));
    }

    /// Adds a number, which may have points or commas between its digits.
    pub fn number(&mut self, number: &str) {
        self.put(number, &NUMBER.to_string());
        for digit in number.chars() {
            self.put("", &cell_of(digit, NUMBER_SIGNS, NUMBER_CELLS).to_string());
        }
    }

    /// Adds print, and cells as Unicode braille patterns.
    pub fn put(&mut self, print: &str, cells: &str) {
        self.print.extend(print.chars().map(u32::from));
        self.cells.extend(cells.chars().map(|pattern| (u32::from(pattern) - 0x2800) as u8));
    }
}

/// One run of letters, of which the last alone is small: what stands before the first is settled only there.
pub fn capitals_then_small(length: usize) -> Text {
    let mut text = Text::repeated(length - 1, "A", "", "⠨⠁");
    text.word("a", false);
    text
}
