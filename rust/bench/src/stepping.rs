//! Steps: nanoseconds for a step over the first sign of a row and over the last, beside one reading of the row. A step works out from the
//! whole row what its sign is, so it is not to cost more than a reading does, by much.
use crate::cases::{lines, LONG_LINES, SHORT_LINES};
use crate::prose::{prose, Random};
use crate::text::Text;
use crate::timing::{Times, VISITS};
use omdurgash::{read, step, LONGEST_TEXT};
use std::hint::black_box;

/// A row, its text, and the place of its last sign.
struct Line {
    row: Vec<u8>,
    text: Vec<u32>,
    last: usize,
}

/// What is timed.
const CALLS: [&str; 3] = ["reading", "first sign", "last sign"];

/// The prose ends with a small letter behind a blank: a sign of one cell.
fn line(mut text: Text) -> Line {
    text.sign(' ');
    text.word("a", false);
    Line { last: text.cells.len() - 1, row: text.cells, text: text.print }
}

/// One of the calls, with its answer asserted.
fn call(which: usize, line: &Line, text: &mut [u32]) {
    let row = black_box(&line.row);
    let sign = |place| step(row, black_box(place)).expect("the row is accepted");
    match which {
        0 => assert!(read(row, black_box(text)) == Ok(line.text.len()), "another answer"),
        1 => assert!(sign(0).points() == &line.text[..1], "another first sign"),
        _ => assert!(sign(line.last).next() == line.row.len(), "another last sign"),
    }
}

/// The median time of each call.
fn time(lines: &[Line]) -> [f64; 3] {
    let text = &mut vec![0; LONGEST_TEXT][..];
    for line in lines {
        let last = step(&line.row, line.last).expect("the row is accepted");
        assert_eq!((last.points(), last.next()), (&[u32::from('a')][..], line.row.len()));
        call(0, line, text);
        assert!(text.starts_with(&line.text), "another text");
    }
    let mut run = |which, passes| (0..passes).for_each(|_| lines.iter().for_each(|line| call(which, line, text)));
    let mut times = Times::new(CALLS.len(), &mut run);
    (0..VISITS).for_each(|_| times.visit(&mut run, |_, ()| ()));
    [0, 1, 2].map(|which| times.median(which) / lines.len() as f64)
}

/// Times the steps and prints the table.
pub fn run() {
    let random = &mut Random::new();
    let short = lines(SHORT_LINES, || line(prose(random, 38)));
    let long = lines(LONG_LINES, || line(prose(random, 3998)));
    println!("{:<36}{:>16}{:>16}{:>16}", "one call of the library, in ns", CALLS[0], CALLS[1], CALLS[2]);
    for (name, lines) in [("prose, texts of 40", short), ("prose, texts of 4,000", long)] {
        let [reading, first, last] = time(&lines);
        println!("{name:<36}{reading:>16.1}{first:>16.1}{last:>16.1}");
    }
}
