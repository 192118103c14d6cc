//! The vectors: print, and the cells that it must give or the refusal, here; rows, and the print that they must give or the refusal, in [`rows`].
//! The head of `vectors/print-to-cells.txt` and that of `vectors/cells-to-print.txt` tell the form. With them, what the tests need to know of
//! paper 01 besides: [`normal`] and [`signs`].
//!
//! The form is taken strictly: a line that may not stand where it stands is an error with its number, so that no vector is passed over.
//! A new sort of line is an arm of `Reading::take` and a field of `Begun`; `crates/run_vectors` reads the same file and changes with it.
pub mod normal;
pub mod rows;
pub mod signs;

use std::collections::HashSet;
use std::fmt;
use std::io::Write;
use std::path::PathBuf;

/// A vector, repeated as often as it says.
#[derive(Clone, Debug, PartialEq, Eq)]
pub struct Vector {
    /// What it shows.
    pub name: String,
    /// The print, in code points.
    pub print: Vec<u32>,
    /// What the print must give.
    pub answer: Answer,
}

/// What print must give where there is room enough.
#[derive(Clone, Debug, PartialEq, Eq)]
pub enum Answer {
    /// The cells, each 0 to 63.
    Cells(Vec<u8>),
    /// A refusal: its number, 1 to 5, and its second number.
    No(u8, usize),
}

/// A line that may not stand where it stands.
#[derive(Clone, Debug, PartialEq, Eq)]
pub struct BadLine {
    /// Its number, from 1 on.
    pub line: usize,
    /// What is wrong with it.
    pub why: &'static str,
}

impl fmt::Display for BadLine {
    fn fmt(&self, f: &mut fmt::Formatter) -> fmt::Result {
        write!(f, "line {}: {}", self.line, self.why)
    }
}

/// A file or folder of the repository, by its path from the top: for a test of a package of `rust/`, which cargo runs in that package's folder.
pub fn of_repository(path: &str) -> PathBuf {
    PathBuf::from("../..").join(path)
}

/// Says something that is to be seen also of a test that passes: `println!` would be kept by the test harness.
pub fn say(what: &str) {
    // Where standard error is closed there is nobody to tell.
    let _ = writeln!(std::io::stderr(), "{what}");
}

/// All vectors of a file's text.
pub fn parse(text: &str) -> Result<Vec<Vector>, BadLine> {
    let mut reading = Reading::default();
    let last = each_line(text, |word, rest| reading.take(word, rest))?;
    match reading.begun {
        Some(_) => Err(BadLine { line: last, why: "the file ends within a vector" }),
        None => Ok(reading.vectors),
    }
}

/// Hands out each line that is neither empty nor a comment, as its first word and what stands behind the blank after it, and gives the number
/// of the last line.
fn each_line(text: &str, mut take: impl FnMut(&str, &str) -> Result<(), &'static str>) -> Result<usize, BadLine> {
    let mut last = 0;
    for (before, line) in text.split('\n').enumerate() {
        last = before + 1;
        if line.is_empty() || line.starts_with('#') {
            continue;
        }
        // The word alone is the word with nothing behind it.
        let (word, rest) = line.split_once(' ').unwrap_or((line, ""));
        take(word, rest).map_err(|why| BadLine { line: last, why })?;
    }
    Ok(last)
}

/// The names that were given.
#[derive(Default)]
struct Names(HashSet<String>);

impl Names {
    fn take(&mut self, name: &str) -> Result<String, &'static str> {
        if name.is_empty() || !name.bytes().all(|b| matches!(b, b'a'..=b'z' | b'0'..=b'9' | b'_')) {
            return Err("a name is of small letters, digits and _");
        }
        if !self.0.insert(name.to_string()) {
            return Err("another vector has this name");
        }
        Ok(name.to_string())
    }
}

/// What was read so far.
#[derive(Default)]
struct Reading {
    vectors: Vec<Vector>,
    names: Names,
    begun: Option<Begun>,
}

/// The lines of the vector that is not whole yet.
#[derive(Default)]
struct Begun {
    name: String,
    print: Option<Vec<u32>>,
    times: Option<usize>,
    before: Option<Vec<u8>>,
}

impl Reading {
    fn take(&mut self, word: &str, rest: &str) -> Result<(), &'static str> {
        match word {
            "name" => self.begin(rest),
            "print" => self.begun()?.set_print(rest.chars().map(u32::from).collect()),
            "points" => self.begun()?.set_print(points(rest)?),
            "times" => self.begun()?.set_times(rest),
            "before" => self.begun()?.set_before(rest),
            "cells" => self.end(|begun| begun.cells(rest)),
            "no" => self.end(|begun| begun.no(rest)),
            _ => Err("the first word is none of a vector's"),
        }
    }

    fn begun(&mut self) -> Result<&mut Begun, &'static str> {
        self.begun.as_mut().ok_or("there is no name before it")
    }

    fn begin(&mut self, name: &str) -> Result<(), &'static str> {
        if self.begun.is_some() {
            return Err("the vector before it is not whole");
        }
        self.begun = Some(Begun { name: self.names.take(name)?, ..Begun::default() });
        Ok(())
    }

    fn end(&mut self, answer: impl Fn(&Begun) -> Result<Answer, &'static str>) -> Result<(), &'static str> {
        let begun = self.begun()?;
        let print = begun.print()?.repeat(begun.times());
        let answer = answer(begun)?;
        let name = std::mem::take(&mut begun.name);
        self.vectors.push(Vector { name, print, answer });
        self.begun = None;
        Ok(())
    }
}

impl Begun {
    fn print(&self) -> Result<&[u32], &'static str> {
        self.print.as_deref().ok_or("there is no print before it")
    }

    fn times(&self) -> usize {
        self.times.unwrap_or(1)
    }

    fn set_print(&mut self, print: Vec<u32>) -> Result<(), &'static str> {
        if self.print.is_some() {
            return Err("the vector has its print already");
        }
        self.print = Some(print);
        Ok(())
    }

    fn set_times(&mut self, rest: &str) -> Result<(), &'static str> {
        self.print()?;
        if self.times.is_some() || self.before.is_some() {
            return Err("times stands once, directly after the print");
        }
        self.times = Some(times(rest)?);
        Ok(())
    }

    fn set_before(&mut self, rest: &str) -> Result<(), &'static str> {
        self.print()?;
        if self.before.is_some() {
            return Err("before stands once");
        }
        self.before = Some(cells(rest)?);
        Ok(())
    }

    fn cells(&self, rest: &str) -> Result<Answer, &'static str> {
        let mut all = self.before.clone().unwrap_or_default();
        all.extend(cells(rest)?.repeat(self.times()));
        Ok(Answer::Cells(all))
    }

    fn no(&self, rest: &str) -> Result<Answer, &'static str> {
        if self.before.is_some() {
            return Err("print that is refused has no cells before");
        }
        let (number, second) = rest.split_once(' ').ok_or("a refusal has two numbers")?;
        // 6 depends on the room, which a vector does not say.
        match decimal(number)? {
            number @ 1..=5 => Ok(Answer::No(number as u8, decimal(second)?)),
            _ => Err("a refusal's number is 1 to 5"),
        }
    }
}

/// How often something is repeated. The bound keeps a slip of the hand from filling the memory.
fn times(rest: &str) -> Result<usize, &'static str> {
    match decimal(rest)? {
        times @ 1..=100_000 => Ok(times),
        _ => Err("times is 1 to 100000"),
    }
}

/// Code points in hexadecimal, one blank between two.
fn points(rest: &str) -> Result<Vec<u32>, &'static str> {
    let point = |word: &str| match word.bytes().all(|b| b.is_ascii_hexdigit()) {
        true => u32::from_str_radix(word, 16).ok(),
        false => None,
    };
    rest.split(' ').map(point).collect::<Option<_>>().ok_or("points are numbers of 32 bits in hexadecimal, one blank between two")
}

/// Unicode braille patterns of six dots: U+2800 to U+283F, in the order of the cells.
fn cells(rest: &str) -> Result<Vec<u8>, &'static str> {
    let cell = |c: char| match c {
        '\u{2800}'..='\u{283F}' => Some((u32::from(c) - 0x2800) as u8),
        _ => None,
    };
    rest.chars().map(cell).collect::<Option<_>>().ok_or("cells are braille patterns of six dots, with nothing between them")
}

/// Digits and nothing else: `parse` would also take a + in front.
fn decimal(word: &str) -> Result<usize, &'static str> {
    match word.bytes().all(|b| b.is_ascii_digit()) {
        true => word.parse().map_err(|_| "this is no number, or too large a one"),
        false => Err("a number is of digits only"),
    }
}

#[cfg(test)]
mod tests {
    use super::*;

    fn vector(name: &str, print: &[u32], answer: Answer) -> Vector {
        Vector { name: name.to_string(), print: print.to_vec(), answer }
    }

    #[test]
    fn every_sort_of_line_is_read() {
        let text = "# a comment\n\nname a_1\nprint b \ncells ⠃⠀\n\nname b\npoints 2D FFFFFFFF\ntimes 2\nno 2 1\n\
                    name c\nprint\ntimes 3\nbefore ⠨⠨\ncells ⠿\nname d\nprint\ncells\n";
        let wanted = [
            vector("a_1", &[0x62, 0x20], Answer::Cells(vec![3, 0])),
            vector("b", &[0x2D, u32::MAX, 0x2D, u32::MAX], Answer::No(2, 1)),
            vector("c", &[], Answer::Cells(vec![40, 40, 63, 63, 63])),
            vector("d", &[], Answer::Cells(vec![])),
        ];
        assert_eq!(parse(text).unwrap(), wanted);
    }

    #[test]
    fn a_bad_line_is_told_with_its_number() {
        let bad = [
            // words
            ("name a\nprint b\ncell ⠃", 3),
            (" name a\nprint b\ncells ⠃", 1),
            ("name\ta\nprint b\ncells ⠃", 1),
            // names
            ("name\nprint b\ncells ⠃", 1),
            ("name A\nprint b\ncells ⠃", 1),
            ("name a b\nprint b\ncells ⠃", 1),
            ("name a\r\nprint b\ncells ⠃", 1),
            ("name a\nprint b\ncells ⠃\n\nname a\nprint b\ncells ⠃", 5),
            // order
            ("print b\ncells ⠃", 1),
            ("name a\ncells ⠃", 2),
            ("name a\nno 2 0", 2),
            ("name a\ntimes 2\nprint b\ncells ⠃", 2),
            ("name a\nprint b\nprint b\ncells ⠃", 3),
            ("name a\nprint b\npoints 62\ncells ⠃", 3),
            ("name a\nprint b\ntimes 2\ntimes 2\ncells ⠃", 4),
            ("name a\nprint b\nbefore ⠃\ntimes 2\ncells ⠃", 4),
            ("name a\nprint b\nbefore ⠃\nbefore ⠃\ncells ⠃", 4),
            ("name a\nprint b\nbefore ⠃\nno 2 0", 4),
            ("name a\nprint b\ncells ⠃\ncells ⠃", 4),
            ("name a\nprint b\nname c\nprint b\ncells ⠃", 3),
            ("name a\nprint b\ncells ⠃\nname c\nprint b\n", 6),
            // points
            ("name a\npoints\ncells", 2),
            ("name a\npoints 62  62\ncells ⠃⠃", 2),
            ("name a\npoints 62 \ncells ⠃", 2),
            ("name a\npoints +62\ncells ⠃", 2),
            ("name a\npoints 100000000\nno 2 0", 2),
            // numbers
            ("name a\nprint b\ntimes 0\ncells ⠃", 3),
            ("name a\nprint b\ntimes\ncells ⠃", 3),
            ("name a\nprint b\ntimes +2\ncells ⠃", 3),
            ("name a\nprint b\ntimes 1000000\ncells ⠃", 3),
            ("name a\nprint b\nno 0 0", 3),
            ("name a\nprint b\nno 6 0", 3),
            ("name a\nprint b\nno 2", 3),
            ("name a\nprint b\nno 2 0 0", 3),
            ("name a\nprint b\nno 2  0", 3),
            // cells
            ("name a\nprint b\ncells b", 3),
            ("name a\nprint b\ncells ⠃ ⠃", 3),
            ("name a\nprint b\ncells ⡀", 3),
            ("name a\nprint b\nbefore b\ncells ⠃", 3),
        ];
        for (text, line) in bad {
            match parse(text) {
                Ok(_) => panic!("taken: {text:?}"),
                Err(bad) => assert_eq!(bad.line, line, "{text:?}: {bad}"),
            }
        }
    }
}
