//! Every vector through the library, and through the plain transcribers, at several rooms.
use std::fs::read_to_string;
use vectors::{of_repository, parse, say, Answer, Vector};

const FILE: &str = "vectors/print-to-cells.txt";

/// A file with fewer was cut short.
const FEWEST: usize = 100;

/// More than the cells of any row.
const MOST_ROOM: usize = 12_300;

/// What every byte holds before a call: it is no cell.
const UNTOUCHED: u8 = 0xA5;

/// So many bytes stand before the lent row, and as many after it. A transcriber must not touch them.
const GUARD: usize = 64;

/// An answer as the desk shows it: 0 and the count of cells, or a refusal's two numbers.
type Shown = (u8, usize);

/// Paper 01's number for an answer that needs more room than lent.
const NEEDS_ROOM: u8 = 6;

/// A transcriber: the library's, or a plain one.
type Transcriber = fn(&[u32], &mut [u8]) -> Shown;

const TRANSCRIBERS: [(&str, Transcriber); 3] =
    [("the library", by_library), ("the plain transcriber, lent", by_plain_lent), ("the plain transcriber, copying", by_plain_copying)];

fn by_library(print: &[u32], row: &mut [u8]) -> Shown {
    omdurgash::transcribe(print, row).map_or_else(|refusal| (refusal.number(), refusal.second()), |count| (0, count))
}

fn by_plain_lent(print: &[u32], row: &mut [u8]) -> Shown {
    plain::transcribe_lent(print, row).map_or_else(plain::Refusal::shown, |count| (0, count))
}

fn by_plain_copying(print: &[u32], row: &mut [u8]) -> Shown {
    plain::transcribe(print, row).map_or_else(plain::Refusal::shown, |count| (0, count))
}

/// Nothing, one short of the cells, just the cells, one over, and plenty. Print that is refused has no cells.
fn rooms(cells: usize) -> Vec<usize> {
    let mut rooms = vec![0, cells.saturating_sub(1), cells, cells + 1, MOST_ROOM];
    rooms.dedup();
    rooms
}

/// What the vector asks for at a room: the answer, and the cells that are then in the row.
fn due(vector: &Vector, room: usize) -> (Shown, &[u8]) {
    match &vector.answer {
        Answer::Cells(cells) if cells.len() <= room => ((0, cells.len()), cells),
        Answer::Cells(cells) => ((NEEDS_ROOM, cells.len()), &[]),
        Answer::No(number, second) => ((*number, *second), &[]),
    }
}

/// One call. The error tells what went wrong.
fn trial(transcriber: Transcriber, vector: &Vector, room: usize) -> Result<(), String> {
    let (answer, cells) = due(vector, room);
    let mut memory = vec![UNTOUCHED; GUARD + room + GUARD];
    let mut wanted = memory.clone();
    wanted[GUARD..GUARD + cells.len()].copy_from_slice(cells);

    let got = transcriber(&vector.print, &mut memory[GUARD..GUARD + room]);
    if got != answer {
        return Err(format!("room {room}: the answer is {got:?} and should be {answer:?}"));
    }
    match memory.iter().zip(&wanted).position(|(is, should)| is != should) {
        None => Ok(()),
        Some(at) => {
            let place = at as isize - GUARD as isize;
            Err(format!("room {room}: element {place} of the row is {} and should be {}", memory[at], wanted[at]))
        }
    }
}

#[test]
fn every_vector_at_every_room() {
    let text = read_to_string(of_repository(FILE)).unwrap_or_else(|error| panic!("{FILE}: {error}"));
    let vectors = parse(&text).unwrap_or_else(|bad| panic!("{FILE}: {bad}"));
    assert!(vectors.len() >= FEWEST, "{FILE} has {} vectors, fewer than {FEWEST}", vectors.len());

    let (mut calls, mut wrong) = (0, Vec::new());
    for vector in &vectors {
        let cells = match &vector.answer {
            Answer::Cells(cells) => cells.len(),
            Answer::No(..) => 0,
        };
        for room in rooms(cells) {
            for (name, transcriber) in TRANSCRIBERS {
                calls += 1;
                wrong.extend(trial(transcriber, vector, room).err().map(|what| format!("FAILED {}: {name}, {what}", vector.name)));
            }
        }
    }
    assert!(wrong.is_empty(), "\n{}\n", wrong.join("\n"));
    say(&format!("{} vectors, {calls} calls, 0 failed", vectors.len()));
}
