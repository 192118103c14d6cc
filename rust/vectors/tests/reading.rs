//! Reading and stepping through the library: every vector at several rooms and places, every byte that is no cell, and the greatest
//! lengths. The plain readers and the plain step go through the same.
use omdurgash::{read, step, Refusal, LONGEST_ROW, LONGEST_TEXT};
use std::collections::HashMap;
use std::fs::read_to_string;
use vectors::normal::normalised;
use vectors::rows::{self, RowVector};
use vectors::signs::{signs, Sign};
use vectors::{of_repository, parse, say, Answer};

const PRINT_VECTORS: &str = "vectors/print-to-cells.txt";

const ROW_VECTORS: &str = "vectors/cells-to-print.txt";

/// A file with fewer was cut short.
const FEWEST: usize = 120;

/// More than the code points of any text.
const MOST_ROOM: usize = LONGEST_TEXT + 4;

/// What every element holds before a call: it is no code point.
const UNTOUCHED: u32 = 0xA5A5_A5A5;

/// So many elements stand before the lent text, and as many after it. A reader must not touch them.
const GUARD: usize = 16;

/// The two numbers of a refusal.
type No = (u8, usize);

/// What a row must give where there is room enough.
type Due = Result<Vec<u32>, No>;

/// A reader: the library's, or a plain one.
type Reader = fn(&[u8], &mut [u32]) -> Result<usize, No>;

const READERS: [(&str, Reader); 3] =
    [("the library", by_library), ("the plain reader, lent", by_plain_lent), ("the plain reader, copying", by_plain_copying)];

/// Paper 01's number for an answer that needs more room than lent.
const NEEDS_ROOM: u8 = 6;

fn no(refusal: Refusal) -> No {
    (refusal.number(), refusal.second())
}

fn by_library(row: &[u8], text: &mut [u32]) -> Result<usize, No> {
    read(row, text).map_err(no)
}

fn by_plain_lent(row: &[u8], text: &mut [u32]) -> Result<usize, No> {
    plain::read_lent(row, text).map_err(plain::Refusal::shown)
}

fn by_plain_copying(row: &[u8], text: &mut [u32]) -> Result<usize, No> {
    plain::read(row, text).map_err(plain::Refusal::shown)
}

/// Nothing, one short of the text, just the text, one over, and plenty. A row that is refused has no text.
fn rooms(due: &Due) -> Vec<usize> {
    let length = due.as_ref().map_or(0, Vec::len);
    let mut rooms = vec![0, length.saturating_sub(1), length, length + 1, MOST_ROOM];
    rooms.dedup();
    rooms
}

/// One reading at a room. The error tells what went wrong.
fn trial(reader: Reader, row: &[u8], due: &Due, room: usize) -> Result<(), String> {
    let (answer, text) = match due {
        Ok(text) if text.len() <= room => (Ok(text.len()), &text[..]),
        Ok(text) => (Err((NEEDS_ROOM, text.len())), &[][..]),
        Err(no) => (Err(*no), &[][..]),
    };
    let mut memory = vec![UNTOUCHED; GUARD + room + GUARD];
    let mut wanted = memory.clone();
    wanted[GUARD..GUARD + text.len()].copy_from_slice(text);

    let got = reader(row, &mut memory[GUARD..GUARD + room]);
    if got != answer {
        return Err(format!("room {room}: the answer is {got:?} and should be {answer:?}"));
    }
    match memory.iter().zip(&wanted).position(|(is, should)| is != should) {
        None => Ok(()),
        Some(at) => {
            let place = at as isize - GUARD as isize;
            Err(format!("room {room}: element {place} of the text is {:X} and should be {:X}", memory[at], wanted[at]))
        }
    }
}

/// One reading at a room by each reader. Gives what went wrong.
fn trials(row: &[u8], due: &Due, room: usize) -> Vec<String> {
    let wrong = |(name, reader)| trial(reader, row, due, room).err().map(|what| format!("{name}, {what}"));
    READERS.into_iter().filter_map(wrong).collect()
}

/// Places to step at: all of a short row and two past its end; of a long one the first and the last, and some between. And the greatest.
fn places(row: &[u8]) -> Vec<usize> {
    let end = row.len() + 2;
    let mut places: Vec<usize> = match row.len() {
        0..=300 => (0..=end).collect(),
        _ => (0..60).chain((60..end - 60).step_by(997)).chain(end - 60..=end).collect(),
    };
    places.push(usize::MAX);
    places
}

/// What a step gives: the code points and the next place, or the refusal.
type Stepped = Result<(Vec<u32>, usize), No>;

/// A step: the library's, or the plain one.
type Stepper = fn(&[u8], usize) -> Stepped;

const STEPPERS: [(&str, Stepper); 2] = [("the library", step_by_library), ("the plain step", step_plainly)];

fn step_by_library(row: &[u8], place: usize) -> Stepped {
    step(row, place).map(|sign| (sign.points().to_vec(), sign.next())).map_err(no)
}

fn step_plainly(row: &[u8], place: usize) -> Stepped {
    plain::step(row, place).map(|sign| (sign.points[..sign.count].to_vec(), sign.next)).map_err(plain::Refusal::shown)
}

/// Steps at the places. The error tells what went wrong.
fn steps(row: &[u8], due: &Due, places: &[usize]) -> Result<(), String> {
    let signs: Result<HashMap<usize, Sign>, No> = match due {
        Ok(text) => Ok(signs(text, row).into_iter().map(|sign| (sign.at, sign)).collect()),
        Err(no) => Err(*no),
    };
    for &place in places {
        let wanted = match &signs {
            Ok(signs) => Ok(signs.get(&place).map_or((Vec::new(), place), |sign| (sign.points.clone(), sign.next))),
            Err(no) => Err(*no),
        };
        for (name, step) in STEPPERS {
            let got = step(row, place);
            if got != wanted {
                return Err(format!("{name}, place {place}: the step gives {got:?} and should give {wanted:?}"));
            }
        }
    }
    Ok(())
}

/// Steps from 0 on until the end, and asks that the code points are the text.
fn steps_join(row: &[u8], text: &[u32]) -> Result<(), String> {
    let (mut place, mut joined) = (0, Vec::new());
    while place < row.len() {
        let sign = step(row, place).map_err(|refusal| format!("place {place}: {refusal}"))?;
        if sign.next() <= place {
            return Err(format!("place {place}: the steps come no further"));
        }
        joined.extend_from_slice(sign.points());
        place = sign.next();
    }
    match place == row.len() && joined == text {
        true => Ok(()),
        false => Err(format!("the steps end at {place} and give {joined:X?}")),
    }
}

/// A row with a name: every room, through every reader, and every place. Gives what went wrong.
fn hold(name: &str, row: &[u8], due: &Due) -> Vec<String> {
    let mut wrong = Vec::new();
    for room in rooms(due) {
        wrong.extend(trials(row, due, room));
    }
    wrong.extend(steps(row, due, &places(row)).err());
    if let Ok(text) = due {
        // A step costs the row's length: of a long row, every step would take too long.
        if row.len() <= 300 {
            wrong.extend(steps_join(row, text).err());
        }
    }
    wrong.into_iter().map(|what| format!("FAILED {name}: {what}")).collect()
}

fn file(path: &str) -> String {
    read_to_string(of_repository(path)).unwrap_or_else(|error| panic!("{path}: {error}"))
}

#[test]
fn print_vectors_are_read_back() {
    let vectors = parse(&file(PRINT_VECTORS)).unwrap_or_else(|bad| panic!("{PRINT_VECTORS}: {bad}"));
    let (mut rows, mut wrong) = (0, Vec::new());
    for vector in &vectors {
        if let Answer::Cells(cells) = &vector.answer {
            wrong.extend(hold(&vector.name, cells, &Ok(normalised(&vector.print))));
            rows += 1;
        }
    }
    assert!(wrong.is_empty(), "\n{}\n", wrong.join("\n"));
    assert!(rows >= FEWEST, "{PRINT_VECTORS} has {rows} vectors that are accepted, fewer than {FEWEST}");
    say(&format!("{rows} rows of print vectors read back, 0 failed"));
}

#[test]
fn every_row_vector() {
    let vectors = rows::parse(&file(ROW_VECTORS)).unwrap_or_else(|bad| panic!("{ROW_VECTORS}: {bad}"));
    assert!(vectors.len() >= FEWEST, "{ROW_VECTORS} has {} vectors, fewer than {FEWEST}", vectors.len());
    let due = |vector: &RowVector| match &vector.answer {
        rows::Answer::Text(text) => Ok(text.clone()),
        rows::Answer::No(number, second) => Err((*number, *second)),
    };
    let wrong: Vec<String> = vectors.iter().flat_map(|vector| hold(&vector.name, &vector.row, &due(vector))).collect();
    assert!(wrong.is_empty(), "\n{}\n", wrong.join("\n"));
    say(&format!("{} row vectors, 0 failed", vectors.len()));
}

/// Asks for a refusal at several rooms and places, through every reader.
fn refused(what: &str, row: &[u8], no: No) {
    let wrong = hold(what, row, &Err(no));
    assert!(wrong.is_empty(), "\n{}\n", wrong.join("\n"));
}

#[test]
fn every_byte_that_is_no_cell() {
    for byte in 64..=255 {
        for row in [&[byte][..], &[byte, 0], &[1, byte], &[36, 36, 36, byte, 63], &[63, byte, byte]] {
            let first = row.iter().position(|&cell| cell == byte);
            refused("a byte that is no cell", row, (7, first.expect("it is there")));
        }
    }
    for cell in 0..64 {
        assert!(!matches!(read(&[cell], &mut [0; 1]), Err(Refusal::NotACell { .. })), "{cell}");
    }
}

#[test]
fn byte_that_is_no_cell_in_a_long_row() {
    // What the row would give without that byte does not matter: a text, one too long, or none.
    for filling in [0, 1, 63] {
        for length in [LONGEST_TEXT, LONGEST_ROW] {
            for place in [0, 1, length / 2, length - 2, length - 1] {
                for byte in [64, 255] {
                    let mut row = vec![filling; length];
                    row[place] = byte;
                    refused("a byte that is no cell", &row, (7, place));
                }
            }
        }
        // Above 12,288 cells nothing but the length is looked at.
        let mut row = vec![filling; LONGEST_ROW + 1];
        row[0] = 255;
        refused("a row too long with a byte that is no cell", &row, (1, LONGEST_ROW + 1));
    }
}

#[test]
fn lengths_around_the_limits() {
    for length in [LONGEST_TEXT - 1, LONGEST_TEXT, LONGEST_TEXT + 1, LONGEST_ROW - 1, LONGEST_ROW, LONGEST_ROW + 1, 65_536] {
        let due = match length {
            0..=LONGEST_TEXT => Ok(vec![u32::from('a'); length]),
            _ => Err((1, length)),
        };
        let wrong = hold("small letters", &vec![1; length], &due);
        assert!(wrong.is_empty(), "\n{}\n", wrong.join("\n"));
        // No text at all comes before a text too long, but not before a row too long.
        let mut row = vec![1; length];
        row[length - 1] = 63;
        refused("a last cell that starts no sign", &row, if length > LONGEST_ROW { (1, length) } else { (8, 0) });
    }
}

/// Signs of every width, apart from each other: cells, and their print.
const APART: [(&[u8], &str); 9] = [
    (&[0], " "),
    (&[1, 0], "a "),
    (&[40, 1, 0], "A "),
    (&[34, 34], "¿?"),
    (&[36, 36], "—"),
    (&[56, 52, 52], "‰"),
    (&[60, 19, 16, 3, 0], "8b "),
    (&[60, 6, 1, 0], "2.ª "),
    (&[60, 2, 6, 1, 11, 0], "12⁄16 "),
];

/// Blanks up to where so many cells are left, and then these signs, as often as they go in: a row of just so many cells, and its text.
fn filled(cells: usize, (unit, print): (&[u8], &str)) -> (Vec<u8>, Vec<u32>) {
    let blanks = cells % unit.len();
    let print: Vec<u32> = print.chars().map(u32::from).collect();
    ([vec![0; blanks], unit.repeat(cells / unit.len())].concat(), [vec![32; blanks], print.repeat(cells / unit.len())].concat())
}

/// What a row of cells is due, whose text this is, whatever its length.
fn due(text: &[u32]) -> Due {
    if text.len() > LONGEST_TEXT {
        return Err((1, text.len()));
    }
    Ok(text.to_vec())
}

// A reader may have room for so many cells, or walk by so many: lengths on either side of any such, with every sort of sign there.
#[test]
fn lengths_between_the_limits() {
    let (mut rows, mut wrong) = (0, Vec::new());
    let mut try_row = |name: &str, row: &[u8], due: &Due| {
        wrong.extend(hold(name, row, due));
        rows += 1;
    };
    for unit in APART {
        let text_full = LONGEST_TEXT * unit.0.len() / unit.1.chars().count();
        for about in [16, 32, 64, 128, 256, 512, 1024, LONGEST_TEXT, LONGEST_TEXT + 1024, 2 * LONGEST_TEXT, text_full, LONGEST_ROW] {
            for cells in (about - 2..=about + 2).filter(|&cells| cells <= LONGEST_ROW) {
                let (mut row, text) = filled(cells, unit);
                try_row(unit.1, &row, &due(&text));
                row[cells - 1] = 63;
                try_row("a last cell that starts no sign", &row, &Err((8, 0)));
                row[cells - 1] = 64;
                try_row("a last byte that is no cell", &row, &Err((7, cells - 1)));
                row[cells / 2] = 64;
                try_row("a byte in the middle that is no cell", &row, &Err((7, cells / 2)));
            }
        }
        // The text is full of letters, and then the signs come, with letters between them.
        for letters in [LONGEST_TEXT - 1, LONGEST_TEXT, LONGEST_TEXT + 1] {
            let (cells, print) = ([&[0][..], unit.0, &[1; 50], &[0]].concat(), format!(" {}{} ", unit.1, "a".repeat(50)));
            let (row, text) = filled(LONGEST_ROW - letters - 1, (&cells, &print));
            let (mut row, text) = ([vec![1; letters], row, vec![0]].concat(), [vec![97; letters], text, vec![32]].concat());
            try_row("signs behind a full text", &row, &due(&text));
            row[LONGEST_ROW - 1] = 34;
            try_row("a pair open behind a full text", &row, &Err((8, 0)));
        }
    }
    assert!(wrong.is_empty(), "\n{}\n", wrong.join("\n"));
    say(&format!("{rows} rows of lengths between the limits, 0 failed"));
}

/// Forms in which a cell gives two code points: the cells behind a lower 1, and their print.
const TWO_IN_A_CELL: [(&[u8], &str); 3] = [(&[21], ".º"), (&[1, 0], ".ª "), (&[3, 0], "⁄2 ")];

// As many cells as the longest text has code points, but half of its code points, up to the inside of such a form; and behind it letters up to where the text is
// full, one short of it and some past it. A reader that looks how much room is left where the cells are as many looks there, and then a cell takes the room of two.
#[test]
fn text_full_behind_two_code_points_in_a_cell() {
    let mut wrong = Vec::new();
    for (cells, print) in TWO_IN_A_CELL {
        for length in LONGEST_TEXT - 1..=LONGEST_TEXT + 3 {
            let slashes = LONGEST_TEXT / 2 - 1;
            let head = format!("{}1{print}", "/".repeat(slashes));
            let letters = length - head.chars().count();
            let text: Vec<u32> = head.chars().chain("k".repeat(letters).chars()).map(u32::from).collect();
            let row = [&[32, 2].repeat(slashes), &[60, 2][..], cells, &vec![5; letters]].concat();
            wrong.extend(hold(&format!("{length} code points with {print}"), &row, &due(&text)));
        }
    }
    assert!(wrong.is_empty(), "\n{}\n", wrong.join("\n"));
}

// A step for each sign, of a row as long as they come.
#[test]
fn steps_through_a_long_row() {
    let row = [56, 52, 52].repeat(LONGEST_TEXT);
    steps_join(&row, &[u32::from('‰'); LONGEST_TEXT]).unwrap_or_else(|what| panic!("{what}"));
}
