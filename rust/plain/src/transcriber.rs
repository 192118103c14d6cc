//! The rules of transcribing, in one pass over print, once for whatever becomes of the cells (`row`). Print is normalised on the way.
//!
//! Every function is inlined, so that a pass has its places in registers. What it costs is code: a pass has all of it.
use crate::cells::{D1, D135, D2, D3, D3456, D46, D5};
use crate::normal::{is_digit, is_ordinal_mark};
use crate::print::*;
use crate::row::Row;
use crate::Refusal;

/// What a pass comes to.
#[derive(Clone, Copy)]
pub struct Passed {
    /// The normalised text has so many code points.
    pub text_len: usize,
    /// The row has so many cells.
    pub row_len: usize,
}

/// One pass over print: its cells come to the row.
///
/// # Errors
///
/// The fault at the least place of the normalised text.
#[inline(always)]
pub fn pass(print: &[u32], row: impl Row) -> Result<Passed, Refusal> {
    let mut transcriber = Transcriber { print, at: 0, added: 0, open: 0, row };
    transcriber.signs()?;
    Ok(Passed { text_len: transcriber.place(), row_len: transcriber.row.len() })
}

/// Print, and its row.
struct Transcriber<'a, R> {
    print: &'a [u32],
    /// What stands before was transcribed.
    at: usize,
    /// Normalising added so many code points to that.
    added: usize,
    /// The bits of the pair kinds that are open: 0 where no fault is looked for.
    open: u8,
    /// Never more than three cells for each code point up to the one at `at`.
    row: R,
}

impl<R: Row> Transcriber<'_, R> {
    /// The place in the normalised text.
    #[inline(always)]
    fn place(&self) -> usize {
        self.at + self.added
    }

    /// The code point so far ahead; `END` past the end of print.
    #[inline(always)]
    fn ahead(&self, by: usize) -> u32 {
        self.print.get(self.at + by).map_or(END, |&point| point)
    }

    /// The code points that a table has, up to the first that it has not.
    #[inline(always)]
    fn run(&mut self, table: &Table) {
        self.at += self.row.run(&self.print[self.at..], table);
    }

    /// The whole print.
    #[inline(always)]
    fn signs(&mut self) -> Result<(), Refusal> {
        while let Some(&first) = self.print.get(self.at) {
            let mut point = first;
            if has(&ALONE, first) {
                self.run(&ALONE);
                // Not one of those: what it is, is asked at once.
                let Some(&next) = self.print.get(self.at) else { break };
                point = next;
            }
            if has(&CAPITALS, point) {
                self.capitals();
            } else if is_digit(point) {
                self.number()?;
            } else {
                self.sign(point)?;
            }
        }
        if self.open != 0 {
            return Err(Refusal::PairBroken(self.place()));
        }
        Ok(())
    }

    /// A sign that has the same cells wherever it may stand.
    #[inline(always)]
    fn sign(&mut self, point: u32) -> Result<(), Refusal> {
        let sign = sign_of(point);
        if !R::SETTLED {
            self.may_stand(point, sign)?;
        }
        self.row.sign(sign);
        self.at += 1;
        self.added += usize::from(sign.added);
        Ok(())
    }

    /// Whether this sign of a code point may stand here; the pairs that are open behind it.
    #[inline(always)]
    fn may_stand(&mut self, point: u32, sign: &Sign) -> Result<(), Refusal> {
        if sign.count == 0 {
            let of_a_form = is_ordinal_mark(point) || point == BAR;
            return Err(if of_a_form { Refusal::OutsideForm(self.place()) } else { Refusal::NoSign(self.place()) });
        }
        // An opener stands only where its kind is closed, a closer only where it is open.
        if self.open & sign.kind != sign.open {
            return Err(Refusal::PairBroken(self.place()));
        }
        // A hyphen next to a hyphen or to a dash: the later of the two is at fault.
        if let (HYPHEN, HYPHEN | DASH) | (DASH, HYPHEN) = (point, self.ahead(1)) {
            return Err(Refusal::SharesCells(self.place() + 1));
        }
        self.open ^= sign.kind;
        Ok(())
    }

    /// The longest stretch of capitals. It is a whole run if no small letter stands at either end of it.
    #[inline(always)]
    fn capitals(&mut self) {
        if !has(&CAPITALS, self.ahead(1)) {
            // A single one has a 46 before it, whatever its run is.
            self.row.capital(self.print[self.at]);
            self.at += 1;
            return;
        }
        let (first, start) = (self.at, self.row.len());
        self.row.put(D46);
        self.row.put(D46);
        self.run(&CAPITALS);
        let after_small = first > 0 && has(&SMALL, self.print[first - 1]);
        if after_small || has(&SMALL, self.ahead(0)) {
            self.row.back_to(start);
            self.print[first..self.at].iter().for_each(|&point| self.row.capital(point));
        }
    }

    /// From a digit on that belongs to nothing yet: a number, an ordinal or a fraction.
    #[inline(always)]
    fn number(&mut self) -> Result<(), Refusal> {
        self.row.put(D3456);
        let first = self.at;
        self.run(&UPPER);
        match (self.ahead(0), self.ahead(1)) {
            (STOP, mark) if is_ordinal_mark(mark) => {
                self.lower_from(first);
                self.at += 1;
                self.ordinal_mark(mark)
            }
            (mark, _) if is_ordinal_mark(mark) => {
                self.lower_from(first);
                self.added += 1;
                self.ordinal_mark(mark)
            }
            (BAR, digit) if is_digit(digit) => {
                self.lower_from(first);
                self.at += 1;
                self.denominator()
            }
            _ => self.rest_of_number(),
        }
    }

    /// The digits from this place of print on, which were written as a number's, are lower ones.
    #[inline(always)]
    fn lower_from(&mut self, first: usize) {
        self.row.back_to(self.row.len() - (self.at - first));
        self.at = first;
        self.run(&LOWER);
    }

    /// The º or ª of an ordinal. No letter a to j stands directly after ª.
    #[inline(always)]
    fn ordinal_mark(&mut self, mark: u32) -> Result<(), Refusal> {
        let feminine = mark == u32::from('ª');
        self.row.put(if feminine { D1 } else { D135 });
        self.at += 1;
        if !R::SETTLED && feminine && is_a_to_j(self.ahead(0)) {
            return Err(Refusal::SharesCells(self.place()));
        }
        Ok(())
    }

    /// The denominator of a fraction, from its first digit on. It is never 1 alone.
    #[inline(always)]
    fn denominator(&mut self) -> Result<(), Refusal> {
        if !R::SETTLED && self.ahead(0) == u32::from('1') && !is_digit(self.ahead(1)) {
            return Err(Refusal::SharesCells(self.place()));
        }
        self.run(&UPPER);
        self.after_digit();
        Ok(())
    }

    /// A number, from behind its first digits on. No letter a to j stands directly after a point or comma that directly follows it.
    #[inline(always)]
    fn rest_of_number(&mut self) -> Result<(), Refusal> {
        while is_point(self.ahead(0)) && is_digit(self.ahead(1)) {
            self.row.put(if self.ahead(0) == STOP { D3 } else { D2 });
            self.at += 1;
            self.run(&UPPER);
        }
        if !R::SETTLED && is_point(self.ahead(0)) && is_a_to_j(self.ahead(1)) {
            return Err(Refusal::SharesCells(self.place() + 1));
        }
        self.after_digit();
        Ok(())
    }

    /// Directly after the last digit of a number or of a denominator: a letter a to j has a 5 before it. An º or ª there is outside the
    /// forms; but normalising puts a full stop before it, which its place counts.
    #[inline(always)]
    fn after_digit(&mut self) {
        let point = self.ahead(0);
        if is_a_to_j(point) {
            // The letter itself is the start of the next stretch of small letters and punctuation.
            self.row.put(D5);
        } else if is_ordinal_mark(point) {
            self.added += 1;
        }
    }
}
