//! The proofing screen's step from sign to sign (paper 01, "Numbers the desk shows", its last paragraph).
use crate::reader::{pass, Sink};
use crate::{all_cells, Refusal, LONGEST_TEXT};

/// What a step gives.
#[derive(Clone, Copy, Debug, PartialEq, Eq)]
pub struct Step {
    /// The print of the sign: the first `count` of these. The others are 0.
    pub points: [u32; 2],
    /// 1 or 2; 0 where no sign starts.
    pub count: usize,
    /// The place after the sign; the place of the step where no sign starts.
    pub next: usize,
}

/// The print of the sign of `row` that starts at `place`, and the place after it. No code point, and `place` itself, where none starts or
/// the row has ended.
///
/// # Errors
///
/// What [`read`](crate::read) refuses the row for, given enough room, whatever `place` is.
pub fn step(row: &[u8], place: usize) -> Result<Step, Refusal> {
    all_cells(row)?;
    let signs = Signs { wanted: place, start: 0, sign: Step::none(0), found: Step::none(place), len: 0 };
    let signs = pass(row, signs).ok_or(Refusal::NoText)?;
    if signs.len > LONGEST_TEXT {
        return Err(Refusal::TextTooLong(signs.len));
    }
    Ok(signs.found)
}

impl Step {
    /// No sign starts at this place.
    fn none(place: usize) -> Step {
        Step { points: [0; 2], count: 0, next: place }
    }
}

/// Puts signs together from code points, and keeps the one that starts at a place. Every cell is in one sign, so a sign starts where the
/// last one ends.
struct Signs {
    /// The place.
    wanted: usize,
    /// Where the sign starts that is being put together.
    start: usize,
    /// Its code points so far; `next` is not set.
    sign: Step,
    /// The sign at the place, once it was there.
    found: Step,
    /// So many code points came.
    len: usize,
}

impl Sink for Signs {
    /// A code point without a cell ends where the last sign did, and goes with the sign after it.
    fn put(&mut self, point: u32, end: usize) {
        self.len += 1;
        self.sign.points[self.sign.count] = point;
        self.sign.count += 1;
        if end > self.start {
            if self.start == self.wanted {
                self.found = Step { next: end, ..self.sign };
            }
            self.sign = Step::none(0);
            self.start = end;
        }
    }
}
