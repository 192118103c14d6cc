//! One direction, transcribing or reading: the library and the plain functions on the same lines, with the same buffer to write to.
//!
//! Before a case is timed, every answer, every element that is written and every one behind them is asserted, of every rival on every line;
//! after each timed round, the last answer. The buffer is not cleared between calls.
use crate::timing::{Times, VISITS};
use std::fmt::Debug;
use std::hint::black_box;

/// The count of what is written, or the two numbers of a refusal.
pub type Shown = Result<usize, (u8, usize)>;

/// A transcriber or a reader.
pub type Function<I, O> = fn(&[I], &mut [O]) -> Shown;

/// What is timed: the library's first, then the plain one that goes about it in the same way, then the other one. Each has a name.
pub type Rivals<I, O> = [(&'static str, Function<I, O>); 3];

const LIBRARY: usize = 0;
const LIKE: usize = 1;
const OTHER: usize = 2;

/// One input, and what must come of it.
pub struct Line<I, O> {
    /// Print or a row.
    pub input: Vec<I>,
    /// What is answered.
    pub answer: Shown,
    /// What is written: nothing if the input is refused.
    pub output: Vec<O>,
}

impl<I, O> Line<I, O> {
    /// An input that is accepted.
    pub fn accepted(input: Vec<I>, output: Vec<O>) -> Self {
        Line { input, answer: Ok(output.len()), output }
    }

    /// An input that is refused with these numbers.
    pub fn refused(input: Vec<I>, number: u8, second: usize) -> Self {
        Line { input, answer: Err((number, second)), output: Vec::new() }
    }
}

/// Lines that are timed together.
pub struct Case<I, O> {
    /// In a single word.
    pub name: &'static str,
    /// What the table says.
    pub title: &'static str,
    /// The lines, one at least.
    pub lines: Vec<Line<I, O>>,
}

/// How the library's time compares on one case.
pub struct Ratio {
    /// The direction and the case, in a single word.
    pub name: String,
    /// The library's time to that of the plain function that goes about it in the same way.
    pub ratio: f64,
    /// How much longer that plain function took in the median round than in its best.
    pub unrest: f64,
}

/// What a direction is called.
pub struct Words {
    /// In a single word.
    pub name: &'static str,
    /// What is done.
    pub doing: &'static str,
    /// The input.
    pub input: &'static str,
    /// An element of the input.
    pub element: &'static str,
    /// More of them.
    pub elements: &'static str,
    /// The elements of the output.
    pub written: &'static str,
}

/// A direction.
pub struct Duel<I, O> {
    /// What it is called.
    pub words: Words,
    /// What is timed.
    pub rivals: Rivals<I, O>,
    /// On what.
    pub cases: Vec<Case<I, O>>,
    /// What an element of the buffer holds before: nothing that is ever written.
    pub untouched: O,
    /// The buffer has so many elements: room enough.
    pub room: usize,
}

impl<I, O: Copy + PartialEq + Debug> Duel<I, O> {
    /// Asserts and times every case, and prints the table.
    pub fn run(&self) -> Vec<Ratio> {
        let buffer = &mut vec![self.untouched; self.room][..];
        self.cases.iter().for_each(|case| self.check(case, buffer));
        let mut times: Vec<Times> = self
            .cases
            .iter()
            .map(|case| Times::new(self.rivals.len(), |rival, passes| _ = self.pass(rival, passes, case, buffer)))
            .collect();
        for _ in 0..VISITS {
            for (case, times) in self.cases.iter().zip(&mut times) {
                let last = case.lines.last().map(|line| line.answer);
                times.visit(
                    |rival, passes| self.pass(rival, passes, case, buffer),
                    |rival, answer| assert_eq!(answer, last, "{}: another answer of {}", case.title, self.rivals[rival].0),
                );
            }
        }
        self.print_head();
        self.cases.iter().zip(&times).for_each(|(case, times)| self.print_line(case, times));
        self.print_worst(&times);
        println!("Of each call {:.1} ns are the bench's: so long takes a function that does nothing, at best.", self.own_price(buffer));
        let ratio = |(case, times): (&Case<I, O>, &Times)| Ratio {
            name: format!("{}-{}", self.words.name, case.name),
            ratio: times.ratio(LIBRARY, LIKE),
            unrest: times.median(LIKE) / times.best(LIKE),
        };
        self.cases.iter().zip(&times).map(ratio).collect()
    }

    /// Every line of a case, by every rival.
    fn check(&self, case: &Case<I, O>, buffer: &mut [O]) {
        for (name, function) in self.rivals {
            for line in &case.lines {
                buffer.fill(self.untouched);
                assert_eq!(function(&line.input, buffer), line.answer, "{}: another answer of {name}", case.title);
                let (written, rest) = buffer.split_at(line.output.len());
                assert!(written == line.output, "{}: {name} writes something else", case.title);
                assert!(rest.iter().all(|&element| element == self.untouched), "{}: {name} writes behind the end", case.title);
            }
        }
    }

    /// So many times over the lines of a case. Gives the last answer.
    fn pass(&self, rival: usize, passes: usize, case: &Case<I, O>, buffer: &mut [O]) -> Option<Shown> {
        calls(self.rivals[rival].1, passes, &case.lines, buffer)
    }

    /// What of a call is the bench's: how long a function takes that does nothing, on the lines of all cases; in nanoseconds for one call.
    fn own_price(&self, buffer: &mut [O]) -> f64 {
        let mut run = |_, passes| {
            for case in &self.cases {
                calls(|_, _| Ok(0), passes, &case.lines, buffer);
            }
        };
        let mut times = Times::new(1, &mut run);
        times.visit(&mut run, |_, ()| ());
        times.best(0) / self.cases.iter().map(|case| case.lines.len()).sum::<usize>() as f64
    }

    fn print_head(&self) {
        let [library, like, other] = self.rivals.map(|(name, _)| name);
        println!("{}, in nanoseconds a {}", self.words.doing, self.words.element);
        print!("{:<36}{:>12}{:>13}{:>11}", self.words.input, self.words.elements, "answer", "ns a call");
        println!("{library:>10}{1:>9}{like:>16}{0:>8}{1:>9}{other:>16}{0:>8}", "ratio", "at best");
    }

    fn print_line(&self, case: &Case<I, O>, times: &Times) {
        let lines = case.lines.len() as f64;
        let length = case.lines.iter().map(|line| line.input.len()).sum::<usize>() as f64 / lines;
        let [library, like, other] = [LIBRARY, LIKE, OTHER].map(|rival| times.median(rival) / lines);
        // For the empty input there is but the call.
        let each = |call| if length == 0.0 { call } else { call / length };
        print!("{:<36}{length:>12.1}{:>13}{library:>11.1}{:>10.2}", case.title, self.answer(case), each(library));
        print!("{:>9.2}", each(times.best(LIBRARY) / lines));
        print!("{:>16.2}{:>8.2}{:>9.2}", each(like), times.ratio(LIBRARY, LIKE), times.best(LIBRARY) / times.best(LIKE));
        println!("{:>16.2}{:>8.2}", each(other), times.ratio(LIBRARY, OTHER));
    }

    /// The worst beside each of the plain functions.
    fn print_worst(&self, times: &[Times]) {
        for rival in [LIKE, OTHER] {
            let ratios = self.cases.iter().zip(times).map(|(case, times)| (times.ratio(LIBRARY, rival), case.title));
            let (worst, title) = ratios.max_by(|one, another| one.0.total_cmp(&another.0)).expect("something was timed");
            println!("At most {worst:.2} times as long as {} ({title}).", self.rivals[rival].0);
        }
    }

    /// What is written, on the average; or the refusal.
    fn answer(&self, case: &Case<I, O>) -> String {
        match case.lines[0].answer {
            Ok(_) => {
                let written: usize = case.lines.iter().map(|line| line.output.len()).sum();
                format!("{} {}", written / case.lines.len(), self.words.written)
            }
            Err((number, second)) => format!("no {number} {second}"),
        }
    }
}

/// So many times over some lines. Gives the last answer. (Which function it is, the compiler is not to know; so it makes every call.)
fn calls<I, O>(function: Function<I, O>, passes: usize, lines: &[Line<I, O>], buffer: &mut [O]) -> Option<Shown> {
    let function = black_box(function);
    let (last, others) = lines.split_last()?;
    let mut answer = Ok(0);
    for _ in 0..passes {
        for line in others {
            _ = function(&line.input, buffer);
        }
        answer = function(&last.input, buffer);
    }
    Some(answer)
}
