//! The rules of reading, once for whatever becomes of the text: it is counted, kept, or written.
//!
//! Every function is inlined, so that a pass has its places in registers. What it costs is code: a pass has all of it.
use crate::cells::*;

/// What the code points of a text come to, in their order.
pub trait Sink {
    /// Takes the next one, and the place in the row after its cells.
    fn put(&mut self, point: u32, end: usize);
}

/// Counts them.
#[derive(Default)]
pub struct Count {
    /// So many came.
    pub len: usize,
}

impl Sink for Count {
    #[inline(always)]
    fn put(&mut self, _: u32, _: usize) {
        self.len += 1;
    }
}

/// Writes them to lent elements, from the first on. There must be one for each.
pub struct Lent<'a> {
    /// The elements.
    pub text: &'a mut [u32],
    /// So many came.
    pub len: usize,
}

impl Sink for Lent<'_> {
    #[inline(always)]
    fn put(&mut self, point: u32, _: usize) {
        self.text[self.len] = point;
        self.len += 1;
    }
}

/// Keeps the last `N`; all of them, if there are no more. The place of each is its place in the text, rest by `N`.
pub struct Latest<'a, const N: usize> {
    /// What is kept.
    pub text: &'a mut [u32; N],
    /// So many came.
    pub len: usize,
}

impl<const N: usize> Sink for Latest<'_, N> {
    #[inline(always)]
    fn put(&mut self, point: u32, _: usize) {
        self.text[self.len % N] = point;
        self.len += 1;
    }
}

/// One pass over a row that has cells only: its text comes to the sink, which is given back. `None` where no text has the row.
#[inline(always)]
pub fn pass<S: Sink>(row: &[u8], sink: S) -> Option<S> {
    let mut reader = Reader { row, at: 0, sink };
    reader.signs()?;
    Some(reader.sink)
}

/// A row, and the sink of its text. Every method that may give `None` gives it where no text has the row.
struct Reader<'a, S> {
    row: &'a [u8],
    /// What stands before was read.
    at: usize,
    sink: S,
}

impl<S: Sink> Reader<'_, S> {
    /// The cell so far ahead; `END` past the row's end.
    #[inline(always)]
    fn ahead(&self, by: usize) -> usize {
        self.row.get(self.at + by).map_or(END, |&cell| usize::from(cell))
    }

    /// A code point that is read with so many cells.
    #[inline(always)]
    fn put(&mut self, point: u32, cells: usize) {
        self.at += cells;
        self.sink.put(point, self.at);
    }

    /// The cells that a table has, up to the first that it has not.
    #[inline(always)]
    fn run(&mut self, table: &Table) {
        while table[self.ahead(0)] != 0 {
            self.put(table[self.ahead(0)], 1);
        }
    }

    /// The whole row.
    #[inline(always)]
    fn signs(&mut self) -> Option<()> {
        // The kinds that are open.
        let mut open = 0;
        // Whether a letter stands directly before, in a run that has a small letter.
        let mut within_run = false;
        loop {
            // Most of a row: small letters and signs of one cell. Of these, only the marks of pairs do not mean the same everywhere.
            let start = self.at;
            let first = loop {
                self.run(&ALONE);
                let cell = self.ahead(0);
                if KIND[cell] == 0 {
                    break cell;
                }
                self.mark(&mut open, KIND[cell], OPENER[cell], CLOSER[cell], 1);
            };
            if self.at == self.row.len() {
                return (open == 0).then_some(());
            }
            if self.at > start {
                within_run = SMALL[usize::from(self.row[self.at - 1])] != 0;
            }
            within_run = match first {
                D46 => self.capitals(within_run)?,
                D3456 => self.number()?,
                D36 => {
                    self.dashes()?;
                    false
                }
                _ => {
                    self.two_or_three_cells(&mut open, first)?;
                    false
                }
            };
        }
    }

    /// A pair mark: the opener where its kind is closed, the closer where it is open.
    #[inline(always)]
    fn mark(&mut self, open: &mut u32, kind: u32, opener: u32, closer: u32, cells: usize) {
        self.put(if *open & kind == 0 { opener } else { closer }, cells);
        *open ^= kind;
    }

    /// A sign of two cells or three that starts with this one.
    #[inline(always)]
    fn two_or_three_cells(&mut self, open: &mut u32, first: usize) -> Option<()> {
        match (first, self.ahead(1)) {
            (D6, D236) => self.mark(open, QUOTES, '‘'.into(), '’'.into(), 2),
            (D456, D356) if self.ahead(2) == D356 => self.put('‰'.into(), 3),
            (_, then) => self.put(two_cells(first, then)?, 2),
        }
        Some(())
    }

    /// From a 36 on: one is a hyphen, and two are a dash. A hyphen stands next to neither, so any more of them are dashes.
    #[inline(always)]
    fn dashes(&mut self) -> Option<()> {
        if self.ahead(1) != D36 {
            self.put('-'.into(), 1);
            return Some(());
        }
        while self.ahead(0) == D36 {
            if self.ahead(1) != D36 {
                return None;
            }
            self.put('—'.into(), 2);
        }
        Some(())
    }

    /// From a 46 on: a capital, capitals, or `>`. Gives whether a letter of a run with a small letter was the last.
    #[inline(always)]
    fn capitals(&mut self, within_run: bool) -> Option<bool> {
        if self.ahead(1) == D2 {
            self.put('>'.into(), 2);
            return Some(false);
        }
        if within_run {
            self.put(known(CAPITAL[self.ahead(1)])?, 2);
            return Some(true);
        }
        if self.ahead(1) == D46 {
            self.run_of_capitals()?;
            return Some(false);
        }
        let first = self.at;
        while self.ahead(0) == D46 && CAPITAL[self.ahead(1)] != 0 {
            self.put(CAPITAL[self.ahead(1)], 2);
        }
        if SMALL[self.ahead(0)] != 0 {
            // A run with a small letter, which is read next.
            return Some(true);
        }
        // The run ends here, and its letters are capitals: it is one. More have 46-46 in front, and that cannot stand within a run either.
        (self.at - first == 2 && !(self.ahead(0) == D46 && self.ahead(1) == D46)).then_some(false)
    }

    /// From a 46-46 on: a run of two letters or more. It is the longest, so no capital stands behind it.
    #[inline(always)]
    fn run_of_capitals(&mut self) -> Option<()> {
        self.at += 2;
        let first = self.at;
        self.run(&CAPITAL);
        let longest = self.ahead(0) != D46 || self.ahead(1) == D2;
        (self.at - first >= 2 && longest).then_some(())
    }

    /// From a 3456 on: a number, an ordinal or a fraction, and a letter that has a 5 before it. Gives whether that letter was the last.
    #[inline(always)]
    fn number(&mut self) -> Option<bool> {
        self.at += 1;
        if LOWER[self.ahead(0)] != 0 {
            return self.form();
        }
        if DIGIT[self.ahead(0)] == 0 {
            return None;
        }
        self.run(&DIGIT);
        while matches!(self.ahead(0), D2 | D3) && DIGIT[self.ahead(1)] != 0 {
            self.put(ALONE[self.ahead(0)], 1);
            self.run(&DIGIT);
        }
        // Digits directly behind, or behind one point or comma, belong to this number and have no 3456 of their own.
        let behind = usize::from(matches!(self.ahead(0), D2 | D3));
        (self.ahead(behind) != D3456).then(|| self.letter_after_digit())
    }

    /// An ordinal or a fraction, from its first lower digit on.
    #[inline(always)]
    fn form(&mut self) -> Option<bool> {
        self.run(&LOWER);
        let mark = match self.ahead(0) {
            D135 => 'º',
            // A denominator is never 1 alone, and no letter a to j stands directly after ª.
            D1 if DIGIT[self.ahead(1)] == 0 => 'ª',
            cell if DIGIT[cell] != 0 => {
                self.put('\u{2044}'.into(), 0);
                self.run(&DIGIT);
                return (self.ahead(0) != D3456).then(|| self.letter_after_digit());
            }
            _ => return None,
        };
        self.put('.'.into(), 0);
        self.put(mark.into(), 1);
        Some(false)
    }

    /// A small letter a to j with its 5, if it is there.
    #[inline(always)]
    fn letter_after_digit(&mut self) -> bool {
        let is_there = self.ahead(0) == D5 && DIGIT[self.ahead(1)] != 0;
        if is_there {
            self.put(SMALL[self.ahead(1)], 2);
        }
        is_there
    }
}
