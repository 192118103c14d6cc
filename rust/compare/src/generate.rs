//! Texts that must be accepted, put together piece by piece from what paper 01 lets stand behind each other. A third opinion besides those
//! of the library and of the plain functions: what is made here and is refused is a difference.
use crate::classes::{capital, ANYWHERE, A_TO_J, DASH, DIGITS, ELLIPSIS, FRACTION, HYPHEN, ORDINALS, OTHER_SMALL, PAIRS, POINTS};
use crate::mix::{Weights, MIXES};
use crate::random::Random;

/// What stands directly before, as far as it matters for what may follow.
#[derive(Clone, Copy, PartialEq, Eq)]
enum Before {
    /// Anything else: all may follow.
    Other,
    /// A digit of an ordinary number: another would belong to it.
    Number,
    /// A point or comma that directly follows such a digit: a digit would belong to the number, and a to j would share the cells of one.
    PointOfNumber,
    /// A digit of a denominator: another would belong to it.
    Denominator,
    /// ª: a to j would share their cells with a denominator.
    Feminine,
    /// A hyphen: no hyphen and no dash may follow.
    Hyphen,
    /// A dash: no hyphen may follow.
    Dash,
}

/// Writes into `print` a text that must be accepted but for its length: its normalised length is exactly `length`.
pub fn text(random: &mut Random, length: usize, print: &mut Vec<u32>) {
    print.clear();
    let weights = random.one_of(&MIXES).weights();
    let mut state = State { normal: 0, before: Before::Other, open: [false; PAIRS.len()] };
    while state.normal + state.still_open() < length {
        let (so_far, saved) = (print.len(), state);
        Writer { print, random, state: &mut state }.piece(&weights);
        if state.normal + state.still_open() > length {
            // It does not fit any more: a sign that always may stand there does.
            print.truncate(so_far);
            state = saved;
            Writer { print, random, state: &mut state }.sign();
        }
    }
    Writer { print, random, state: &mut state }.close_all();
}

/// What was written.
#[derive(Clone, Copy)]
struct State {
    /// Its normalised length.
    normal: usize,
    before: Before,
    /// Of each kind of pairs, whether it is open.
    open: [bool; PAIRS.len()],
}

impl State {
    fn still_open(&self) -> usize {
        self.open.iter().filter(|&&open| open).count()
    }
}

struct Writer<'a> {
    print: &'a mut Vec<u32>,
    random: &'a mut Random,
    state: &'a mut State,
}

impl Writer<'_> {
    /// A code point that stands in the normalised text as so many.
    fn put_as(&mut self, point: char, normal: usize, before: Before) {
        self.print.push(point.into());
        self.state.normal += normal;
        self.state.before = before;
    }

    fn put(&mut self, point: char, before: Before) {
        self.put_as(point, 1, before);
    }

    /// A piece of some kind, or nothing where one of that kind may not stand.
    fn piece(&mut self, weights: &Weights) {
        let mut drawn = self.random.below(100);
        let mut is = |weight: usize| {
            let is = drawn < weight;
            drawn = drawn.wrapping_sub(weight);
            is
        };
        if is(weights.word) {
            self.word();
        } else if is(weights.number) {
            self.number();
        } else if is(weights.ordinal) {
            self.ordinal();
        } else if is(weights.fraction) {
            self.fraction();
        } else if is(weights.point) {
            self.point();
        } else if is(weights.line) {
            self.line();
        } else if is(weights.mark) {
            self.mark();
        } else if is(weights.per_mille) {
            self.put('‰', Before::Other);
        } else {
            self.sign();
        }
    }

    /// A run of letters, or a part of one: small, with a capital first, capitals, or mixed.
    fn word(&mut self) {
        let style = self.random.below(4);
        for i in 0..=self.random.below(6) {
            let is_capital = match style {
                0 => false,
                1 => i == 0,
                2 => true,
                _ => self.random.once_in(2),
            };
            let taken_for_digit = matches!(self.state.before, Before::PointOfNumber | Before::Feminine);
            let small = match self.random.below(2) {
                0 if is_capital || !taken_for_digit => self.random.one_of(&A_TO_J),
                _ => self.random.one_of(&OTHER_SMALL),
            };
            self.put(if is_capital { capital(small) } else { small }, Before::Other);
        }
    }

    /// Whether digits would begin a number.
    fn number_may_begin(&self) -> bool {
        !matches!(self.state.before, Before::Number | Before::PointOfNumber | Before::Denominator)
    }

    fn digits(&mut self, before: Before) {
        for _ in 0..=self.random.below(3) {
            let digit = self.random.one_of(&DIGITS);
            self.put(digit, before);
        }
    }

    fn number(&mut self) {
        if !self.number_may_begin() {
            return;
        }
        self.digits(Before::Number);
        while self.random.once_in(3) {
            let point = self.random.one_of(&POINTS);
            self.put(point, Before::PointOfNumber);
            self.digits(Before::Number);
        }
    }

    /// With its full stop, or without.
    fn ordinal(&mut self) {
        if !self.number_may_begin() {
            return;
        }
        self.digits(Before::Number);
        let mark = self.random.one_of(&ORDINALS);
        let before = if mark == 'ª' { Before::Feminine } else { Before::Other };
        match self.random.below(2) {
            0 => self.put_as(mark, 2, before),
            _ => {
                self.put('.', Before::Other);
                self.put(mark, before);
            }
        }
    }

    fn fraction(&mut self) {
        if !self.number_may_begin() {
            return;
        }
        self.digits(Before::Number);
        self.put(FRACTION, Before::Other);
        let start = self.print.len();
        self.digits(Before::Denominator);
        if self.print[start..] == ['1'.into()] {
            let digit = self.random.one_of(&DIGITS);
            self.put(digit, Before::Denominator);
        }
    }

    fn point(&mut self) {
        if self.random.once_in(5) {
            return self.put_as(ELLIPSIS, 3, Before::Other);
        }
        let before = if self.state.before == Before::Number { Before::PointOfNumber } else { Before::Other };
        let point = self.random.one_of(&POINTS);
        self.put(point, before);
    }

    /// A hyphen or a dash.
    fn line(&mut self) {
        match (self.state.before, self.random.below(2)) {
            (Before::Hyphen, _) | (Before::Dash, 0) => {}
            (_, 0) => self.put(HYPHEN, Before::Hyphen),
            _ => self.put(DASH, Before::Dash),
        }
    }

    /// Opens a pair, or closes it where it is open. Kinds nest and cross.
    fn mark(&mut self) {
        let kind = self.random.below(PAIRS.len());
        self.turn(kind);
    }

    fn turn(&mut self, kind: usize) {
        let (openers, closers) = PAIRS[kind];
        let mark = self.random.one_of(if self.state.open[kind] { closers } else { openers });
        self.put(mark, Before::Other);
        self.state.open[kind] ^= true;
    }

    fn sign(&mut self) {
        // A blank as often as all others.
        let sign = if self.random.once_in(2) { ' ' } else { self.random.one_of(&ANYWHERE) };
        self.put(sign, Before::Other);
    }

    fn close_all(&mut self) {
        let first = self.random.below(PAIRS.len());
        for kind in (first..PAIRS.len()).chain(0..first) {
            if self.state.open[kind] {
                self.turn(kind);
            }
        }
    }
}

#[cfg(test)]
mod tests {
    use super::*;
    use vectors::normal::normalised;

    #[test]
    fn length_is_that_of_the_normalised_text() {
        let print = &mut Vec::new();
        for case in 0..2_000 {
            let length = (case % 67) as usize;
            text(&mut Random::of_case(1, case), length, print);
            assert_eq!(normalised(print).len(), length, "{print:X?}");
        }
    }
}
