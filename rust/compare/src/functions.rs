//! What is compared: the library's functions, and the plain ones by the same rules. The first of each list is the library's.
use crate::{Answer, No};

/// A transcriber or a reader: from what is lent to be read to what is lent to be written to.
pub type Function<I, O> = fn(&[I], &mut [O]) -> Answer;

/// A step over a row, from a place.
pub type Stepper = fn(&[u8], usize) -> Result<Sign, No>;

/// What a step gives.
#[derive(Clone, Copy, Debug, PartialEq, Eq)]
pub struct Sign {
    /// The code points; 0 behind them.
    pub points: [u32; 2],
    /// How many there are.
    pub count: usize,
    /// The place after the sign.
    pub next: usize,
}

/// From print to a row.
pub const TRANSCRIBERS: [(&str, Function<u32, u8>); 3] = [
    ("library", |print, row| omdurgash::transcribe(print, row).map_err(no)),
    ("plain, lent", |print, row| plain::transcribe_lent(print, row).map_err(plain::Refusal::shown)),
    ("plain, copying", |print, row| plain::transcribe(print, row).map_err(plain::Refusal::shown)),
];

/// From a row to its text.
pub const READERS: [(&str, Function<u8, u32>); 3] = [
    ("library", |row, text| omdurgash::read(row, text).map_err(no)),
    ("plain, lent", |row, text| plain::read_lent(row, text).map_err(plain::Refusal::shown)),
    ("plain, copying", |row, text| plain::read(row, text).map_err(plain::Refusal::shown)),
];

/// From a row and a place to a sign.
pub const STEPPERS: [(&str, Stepper); 2] = [("library", step), ("plain", plain_step)];

fn no(refusal: omdurgash::Refusal) -> No {
    (refusal.number(), refusal.second())
}

fn step(row: &[u8], place: usize) -> Result<Sign, No> {
    let step = omdurgash::step(row, place).map_err(no)?;
    Ok(sign_of(step.points(), step.next()))
}

fn plain_step(row: &[u8], place: usize) -> Result<Sign, No> {
    let step = plain::step(row, place).map_err(plain::Refusal::shown)?;
    Ok(sign_of(&step.points[..step.count], step.next))
}

/// A sign from its code points, of which there are at most two, and the place after it.
pub fn sign_of(points: &[u32], next: usize) -> Sign {
    let point = |at: usize| points.get(at).copied().unwrap_or(0);
    Sign { points: [point(0), point(1)], count: points.len(), next }
}
