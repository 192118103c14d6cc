//! The cases of a run: accepted texts and their rows, these with one fault, and what is drawn element by element. Most are short.
use crate::classes::{alphabet, WITHOUT_SIGN};
use crate::damage::damage;
use crate::generate;
use crate::random::Random;
use omdurgash::{LONGEST_ROW, LONGEST_TEXT};

/// No text has more code points.
pub const MOST_POINTS: usize = LONGEST_TEXT + 64;

/// No row has more cells.
pub const MOST_CELLS: usize = LONGEST_ROW + 64;

/// Code points that decide what may stand beside them.
const TELLING_POINTS: [char; 13] = ['.', ',', '-', '—', 'º', 'ª', '\u{2044}', '1', '1', '2', 'a', 'b', 'j'];

/// The number behind the last code point of Unicode.
const BEHIND_UNICODE: usize = 0x11_0000;

/// Cells that change what stands behind them, or that stand for several signs: 46, 3456, 5, 36, 456, 6, 3, 2, 1, 135, 23, 236, 26.
const TELLING_CELLS: [u8; 13] = [40, 60, 16, 36, 56, 32, 4, 2, 1, 21, 6, 38, 34];

const BLANK: u8 = 0;

/// One row of an accepted text in so many is made as long as rows may be.
const ONE_LONG_ROW_IN: usize = 1_024;

/// Makes texts and rows. What it keeps from case to case is only memory.
pub struct Cases {
    alphabet: Vec<u32>,
    text: Vec<u32>,
    cells: Vec<u8>,
}

/// What is known of a case before any call.
#[derive(Clone, Copy, Debug, PartialEq, Eq)]
pub enum Known {
    /// Nothing.
    Nothing,
    /// Only its length can be against it: that of the text.
    Length(usize),
}

impl Default for Cases {
    fn default() -> Cases {
        Cases { alphabet: alphabet(), text: Vec::new(), cells: vec![0; LONGEST_ROW] }
    }
}

impl Cases {
    /// Writes the text of a case into `print`. Of ten, four can only be too long, three have one fault, two are of the alphabet, and one is
    /// of any numbers.
    pub fn text(&mut self, random: &mut Random, print: &mut Vec<u32>) -> Known {
        let length = length(random);
        match random.below(10) {
            0..=3 => {
                generate::text(random, length, print);
                return Known::Length(length);
            }
            4..=6 => {
                generate::text(random, length, print);
                damage(print, random, |random| self.point(random));
            }
            7 | 8 => {
                print.clear();
                print.extend((0..length).map(|_| random.one_of(&self.alphabet)));
            }
            _ => {
                print.clear();
                print.extend((0..length).map(|_| self.point(random)));
            }
        }
        Known::Nothing
    }

    /// Any code point: mostly one with a sign; else one that might be taken for one, or any number.
    fn point(&self, random: &mut Random) -> u32 {
        match random.below(16) {
            0 => random.one_of(&WITHOUT_SIGN),
            1 if random.once_in(2) => random.number() as u32,
            1 => random.below(BEHIND_UNICODE) as u32,
            2..=7 => random.one_of(&TELLING_POINTS).into(),
            _ => random.one_of(&self.alphabet),
        }
    }

    /// Writes the row of a case into `row`. Of ten, four can only be too long, three have one fault, and one each is of any cells, of
    /// telling ones, and of any bytes.
    pub fn row(&mut self, random: &mut Random, row: &mut Vec<u8>) -> Known {
        row.clear();
        match random.below(10) {
            0..=3 => return self.accepted_row(random, row),
            4..=6 => {
                self.accepted_row(random, row);
                damage(row, random, any_byte);
            }
            7 => row.extend((0..length(random)).map(|_| random.below(64) as u8)),
            8 => row.extend((0..length(random)).map(|_| telling_cell(random))),
            _ => row.extend((0..length(random)).map(|_| any_byte(random))),
        }
        Known::Nothing
    }

    /// The row of an accepted text; seldom several of them with blanks between, around the greatest length.
    fn accepted_row(&mut self, random: &mut Random, row: &mut Vec<u8>) -> Known {
        let mut points = self.add_row(random, usize::MAX, row);
        if random.once_in(ONE_LONG_ROW_IN) {
            let cells = around(LONGEST_ROW, random);
            while row.len() < cells {
                row.push(BLANK);
                points += 1 + self.add_row(random, cells - row.len(), row);
            }
        }
        Known::Length(points)
    }

    /// Adds the row of an accepted text, if it has at most so many cells, and gives the length of that text.
    fn add_row(&mut self, random: &mut Random, most: usize, row: &mut Vec<u8>) -> usize {
        let length = length(random).min(LONGEST_TEXT);
        generate::text(random, length, &mut self.text);
        match plain::transcribe(&self.text, &mut self.cells) {
            Ok(cells) if cells <= most => row.extend_from_slice(&self.cells[..cells]),
            Ok(_) => return 0,
            Err(refusal) => panic!("{:X?} is refused: {refusal:?}", self.text),
        }
        length
    }
}

/// A length from six below a limit to nine above it.
fn around(limit: usize, random: &mut Random) -> usize {
    limit - 6 + random.below(16)
}

/// A length: mostly short, seldom up to the limit, and seldom around it.
fn length(random: &mut Random) -> usize {
    match random.below(2_048) {
        0 => around(LONGEST_TEXT, random),
        1 | 2 => random.below(LONGEST_TEXT),
        3..=34 => random.below(300),
        _ => random.below(20),
    }
}

fn telling_cell(random: &mut Random) -> u8 {
    match random.below(2) {
        0 => random.one_of(&TELLING_CELLS),
        _ => random.below(64) as u8,
    }
}

/// Any cell, and now and then a byte that is none.
fn any_byte(random: &mut Random) -> u8 {
    match random.below(16) {
        0 => random.below(256) as u8,
        _ => telling_cell(random),
    }
}
