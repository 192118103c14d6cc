//! Rows, and the print that they must give or the refusal: the form that the head of `vectors/cells-to-print.txt` tells, taken strictly.
//!
//! A new sort of line is an arm of `Reading::take` and a field of `Begun`.
use crate::{decimal, each_line, points, times, BadLine, Names};

/// A row vector, repeated as often as it says.
#[derive(Clone, Debug, PartialEq, Eq)]
pub struct RowVector {
    /// What it shows.
    pub name: String,
    /// The row. A byte above 63 is no cell.
    pub row: Vec<u8>,
    /// What the row must give.
    pub answer: Answer,
}

/// What a row must give where there is room enough.
#[derive(Clone, Debug, PartialEq, Eq)]
pub enum Answer {
    /// The text, in code points.
    Text(Vec<u32>),
    /// A refusal: its number, 1, 7 or 8, and its second number.
    No(u8, usize),
}

/// All row vectors of a file's text.
pub fn parse(text: &str) -> Result<Vec<RowVector>, BadLine> {
    let mut reading = Reading::default();
    let last = each_line(text, |word, rest| reading.take(word, rest))?;
    match reading.begun {
        Some(_) => Err(BadLine { line: last, why: "the file ends within a vector" }),
        None => Ok(reading.vectors),
    }
}

/// What was read so far.
#[derive(Default)]
struct Reading {
    vectors: Vec<RowVector>,
    names: Names,
    begun: Option<Begun>,
}

/// The lines of the vector that is not whole yet.
#[derive(Default)]
struct Begun {
    name: String,
    row: Option<Vec<u8>>,
    times: Option<usize>,
    before: Option<Vec<u8>>,
    after: Option<Vec<u8>>,
}

impl Reading {
    fn take(&mut self, word: &str, rest: &str) -> Result<(), &'static str> {
        match word {
            "name" => self.begin(rest),
            "dots" => self.begun()?.set_row(dots(rest)?),
            "bytes" => self.begun()?.set_row(bytes(rest)?),
            "times" => self.begun()?.set_times(rest),
            "before" => self.begun()?.set_before(rest),
            "after" => self.begun()?.set_after(rest),
            "print" => self.end(|times| Ok(Answer::Text(rest.chars().map(u32::from).collect::<Vec<_>>().repeat(times)))),
            "points" => self.end(|times| Ok(Answer::Text(points(rest)?.repeat(times)))),
            "no" => self.end(|_| no(rest)),
            _ => Err("the first word is none of a vector's"),
        }
    }

    fn begun(&mut self) -> Result<&mut Begun, &'static str> {
        self.begun.as_mut().ok_or("there is no name before it")
    }

    fn begin(&mut self, name: &str) -> Result<(), &'static str> {
        if self.begun.is_some() {
            return Err("the vector before it is not whole");
        }
        self.begun = Some(Begun { name: self.names.take(name)?, ..Begun::default() });
        Ok(())
    }

    fn end(&mut self, answer: impl Fn(usize) -> Result<Answer, &'static str>) -> Result<(), &'static str> {
        let begun = self.begun()?;
        let times = begun.times.unwrap_or(1);
        let mut row = begun.before.clone().unwrap_or_default();
        row.extend(begun.row()?.repeat(times));
        row.extend(begun.after.iter().flatten());
        let answer = answer(times)?;
        let name = std::mem::take(&mut begun.name);
        self.vectors.push(RowVector { name, row, answer });
        self.begun = None;
        Ok(())
    }
}

impl Begun {
    fn row(&self) -> Result<&[u8], &'static str> {
        self.row.as_deref().ok_or("there is no row before it")
    }

    fn set_row(&mut self, row: Vec<u8>) -> Result<(), &'static str> {
        if self.row.is_some() {
            return Err("the vector has its row already");
        }
        self.row = Some(row);
        Ok(())
    }

    fn set_times(&mut self, rest: &str) -> Result<(), &'static str> {
        self.row()?;
        if self.times.is_some() || self.before.is_some() || self.after.is_some() {
            return Err("times stands once, directly after the row");
        }
        self.times = Some(times(rest)?);
        Ok(())
    }

    fn set_before(&mut self, rest: &str) -> Result<(), &'static str> {
        self.row()?;
        if self.before.is_some() || self.after.is_some() {
            return Err("before stands once, and before after");
        }
        self.before = Some(dots(rest)?);
        Ok(())
    }

    fn set_after(&mut self, rest: &str) -> Result<(), &'static str> {
        self.row()?;
        if self.after.is_some() {
            return Err("after stands once");
        }
        self.after = Some(dots(rest)?);
        Ok(())
    }
}

fn no(rest: &str) -> Result<Answer, &'static str> {
    let (number, second) = rest.split_once(' ').ok_or("a refusal has two numbers")?;
    // 6 depends on the room, which a vector does not say.
    match decimal(number)? {
        number @ (1 | 7 | 8) => Ok(Answer::No(number as u8, decimal(second)?)),
        _ => Err("a refusal's number is 1, 7 or 8"),
    }
}

/// Cells by their dots, as paper 01 writes them: `46-1`, the blank cell 0, and nothing at all for no cell.
fn dots(rest: &str) -> Result<Vec<u8>, &'static str> {
    let cells = rest.split('-').map(dots_of_cell).collect::<Option<_>>();
    match rest {
        "" => Ok(Vec::new()),
        _ => cells.ok_or("a cell is its dots from the least on, or 0, and - stands between two cells"),
    }
}

fn dots_of_cell(word: &str) -> Option<u8> {
    let rises = word.as_bytes().windows(2).all(|two| two[0] < two[1]);
    match word {
        "" => None,
        "0" => Some(0),
        _ if rises && word.bytes().all(|dot| matches!(dot, b'1'..=b'6')) => Some(word.bytes().map(|dot| 1 << (dot - b'1')).sum()),
        _ => None,
    }
}

/// Bytes in hexadecimal, one blank between two.
fn bytes(rest: &str) -> Result<Vec<u8>, &'static str> {
    points(rest)?.into_iter().map(|byte| byte.try_into().map_err(|_| "a byte is 0 to FF")).collect()
}

#[cfg(test)]
mod tests {
    use super::*;

    fn vector(name: &str, row: &[u8], answer: Answer) -> RowVector {
        RowVector { name: name.to_string(), row: row.to_vec(), answer }
    }

    #[test]
    fn every_sort_of_line_is_read() {
        let text = "# a comment\n\nname a_1\ndots 12-0\nprint b \n\nname b\nbytes 40 FF 0\ntimes 2\nno 7 0\n\
                    name c\ndots 123456\ntimes 2\nbefore 46-46\nafter 36\npoints E000\nname d\ndots\nprint\n";
        let wanted = [
            vector("a_1", &[3, 0], Answer::Text(vec![0x62, 0x20])),
            vector("b", &[64, 255, 0, 64, 255, 0], Answer::No(7, 0)),
            vector("c", &[40, 40, 63, 63, 36], Answer::Text(vec![0xE000, 0xE000])),
            vector("d", &[], Answer::Text(vec![])),
        ];
        assert_eq!(parse(text).unwrap(), wanted);
    }

    #[test]
    fn a_bad_line_is_told_with_its_number() {
        let bad = [
            // words and names
            ("name a\ndot 1\nprint a", 2),
            (" name a\ndots 1\nprint a", 1),
            ("name\ndots 1\nprint a", 1),
            ("name A\ndots 1\nprint a", 1),
            ("name a\ndots 1\nprint a\nname a\ndots 1\nprint a", 4),
            // order
            ("dots 1\nprint a", 1),
            ("name a\nprint a", 2),
            ("name a\npoints 61", 2),
            ("name a\nno 8 0", 2),
            ("name a\ntimes 2\ndots 1\nprint a", 2),
            ("name a\nbefore 1\ndots 1\nprint a", 2),
            ("name a\nafter 1\ndots 1\nprint a", 2),
            ("name a\ndots 1\ndots 1\nprint a", 3),
            ("name a\ndots 1\nbytes 1\nprint a", 3),
            ("name a\ndots 1\ntimes 2\ntimes 2\nprint a", 4),
            ("name a\ndots 1\nbefore 1\ntimes 2\nprint a", 4),
            ("name a\ndots 1\nafter 1\ntimes 2\nprint a", 4),
            ("name a\ndots 1\nafter 1\nbefore 1\nprint a", 4),
            ("name a\ndots 1\nbefore 1\nbefore 1\nprint a", 4),
            ("name a\ndots 1\nafter 1\nafter 1\nprint a", 4),
            ("name a\ndots 1\nprint a\nprint a", 4),
            ("name a\ndots 1\nname b\ndots 1\nprint a", 3),
            ("name a\ndots 1\nprint a\nname b\ndots 1\n", 6),
            // cells and bytes
            ("name a\ndots 1 2\nprint a", 2),
            ("name a\ndots 21\nprint a", 2),
            ("name a\ndots 11\nprint a", 2),
            ("name a\ndots 7\nprint a", 2),
            ("name a\ndots 01\nprint a", 2),
            ("name a\ndots 1-\nprint a", 2),
            ("name a\ndots 1--2\nprint a", 2),
            ("name a\ndots ⠁\nprint a", 2),
            ("name a\ndots 1\nbefore 21\nprint a", 3),
            ("name a\ndots 1\nafter 21\nprint a", 3),
            ("name a\nbytes\nprint", 2),
            ("name a\nbytes 100\nno 7 0", 2),
            ("name a\nbytes 1  2\nno 7 0", 2),
            ("name a\nbytes +1\nno 7 0", 2),
            // answers
            ("name a\ndots 1\ntimes 0\nprint a", 3),
            ("name a\ndots 1\ntimes 100001\nprint a", 3),
            ("name a\ndots 1\npoints\n", 3),
            ("name a\ndots 1\npoints 61 \n", 3),
            ("name a\ndots 1\nno 8", 3),
            ("name a\ndots 1\nno 6 1", 3),
            ("name a\ndots 1\nno 2 0", 3),
            ("name a\ndots 1\nno 8 0 0", 3),
        ];
        for (text, line) in bad {
            match parse(text) {
                Ok(_) => panic!("taken: {text:?}"),
                Err(bad) => assert_eq!(bad.line, line, "{text:?}: {bad}"),
            }
        }
    }
}
