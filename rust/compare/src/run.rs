//! A run: so many cases of a seed, and what they came to.
use crate::cases::{Cases, Known, MOST_CELLS, MOST_POINTS};
use crate::check::{Check, PLENTY_OF_CELLS, PLENTY_OF_POINTS};
use crate::difference::{holds, Difference};
use crate::memory::{Guarded, Memory};
use crate::random::Random;
use crate::show::Element;
use crate::trials::Trials;
use crate::Answer;
use omdurgash::{LONGEST_ROW, LONGEST_TEXT};
use std::fmt;
use std::ops::Range;

/// How many cases were accepted, in the first place, and how many refused, each in the place of its number.
#[derive(Clone, Copy, Debug, Default, PartialEq, Eq)]
pub struct Tally(pub [u64; 9]);

impl Tally {
    /// Counts an answer.
    pub fn count(&mut self, answer: Answer) {
        let number = answer.map_or_else(|(number, _)| number, |_| 0);
        self.0[usize::from(number)] += 1;
    }

    /// All cases.
    pub fn cases(&self) -> u64 {
        self.0.iter().sum()
    }
}

impl fmt::Display for Tally {
    fn fmt(&self, f: &mut fmt::Formatter) -> fmt::Result {
        write!(f, "{} accepted", self.0[0])?;
        (1..).zip(&self.0[1..]).filter(|(_, &count)| count > 0).try_for_each(|(number, count)| write!(f, ", {count} no {number}"))
    }
}

/// A check with guarded memory for the longest case.
pub fn guarded() -> Check<Guarded<u32>, Guarded<u8>> {
    Check::new(Guarded::new(MOST_POINTS.max(PLENTY_OF_POINTS)), Guarded::new(MOST_CELLS.max(PLENTY_OF_CELLS)))
}

/// The texts with these numbers of a seed.
pub fn texts<P: Memory<u32>, C: Memory<u8>>(
    check: &mut Check<P, C>,
    seed: u64,
    numbers: Range<u64>,
    tally: &mut Tally,
) -> Result<(), Difference> {
    let (cases, mut print) = (&mut Cases::default(), Vec::new());
    each("text", seed, numbers, tally, |random| {
        let known = cases.text(random, &mut print);
        let answer = check.text(&print, &Trials::drawn(random))?;
        is_known(known, 0, answer, &print)
    })
}

/// The rows with these numbers of a seed.
pub fn rows<P: Memory<u32>, C: Memory<u8>>(
    check: &mut Check<P, C>,
    seed: u64,
    numbers: Range<u64>,
    tally: &mut Tally,
) -> Result<(), Difference> {
    let (cases, mut row) = (&mut Cases::default(), Vec::new());
    each("row", seed, numbers, tally, |random| {
        let known = cases.row(random, &mut row);
        let answer = check.row(&row, &Trials::drawn(random))?;
        is_known(known, row.len(), answer, &row)
    })
}

fn each(
    sort: &'static str,
    seed: u64,
    numbers: Range<u64>,
    tally: &mut Tally,
    mut case: impl FnMut(&mut Random) -> Result<Answer, Difference>,
) -> Result<(), Difference> {
    for number in numbers {
        let running = Running { sort, seed, number };
        let answer = case(&mut Random::of_case(seed, number)).map_err(|Difference(what)| Difference(format!("{running}:\n{what}")))?;
        tally.count(answer);
    }
    Ok(())
}

/// Holds an answer to what was known of the case before; `cells` is the length of a row.
fn is_known<T: Element>(known: Known, cells: usize, answer: Answer, input: &[T]) -> Result<Answer, Difference> {
    let is_so = match known {
        Known::Nothing => true,
        _ if cells > LONGEST_ROW => answer == Err((1, cells)),
        Known::Length(points) if points > LONGEST_TEXT => answer == Err((1, points)),
        Known::Length(_) => answer.is_ok(),
    };
    holds(is_so, input, || format!("it was made as {known:?}, and the answer is {answer:?}"))?;
    Ok(answer)
}

/// A case that is being run. It tells which, also where a function panics.
struct Running {
    sort: &'static str,
    seed: u64,
    number: u64,
}

impl fmt::Display for Running {
    fn fmt(&self, f: &mut fmt::Formatter) -> fmt::Result {
        write!(f, "DIFFERENCE in {} {} of seed {}", self.sort, self.number, self.seed)
    }
}

impl Drop for Running {
    fn drop(&mut self) {
        if std::thread::panicking() {
            eprintln!("{self}: it panics");
        }
    }
}
