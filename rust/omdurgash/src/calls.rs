//! The library's three functions: declared, and wrapped for slices. The only unsafe code of the crate.
#![allow(unsafe_code)]
use crate::Refusal;

/// What a step over a row gives: the code points of the sign that starts at a place, and the place after it.
///
/// A sign is the cells of one code point, with any 46-46, 46, 3456 or separating 5 before them. A code point without a cell goes with the
/// sign after it: the full stop of an ordinal with its `º` or `ª`, U+2044 with the first digit of the denominator.
#[derive(Clone, Copy, Debug, PartialEq, Eq, Hash)]
pub struct Step {
    points: [u32; 2],
    count: usize,
    next: usize,
}

impl Step {
    /// The code points of the sign, one or two; none where no sign starts at the place.
    pub fn points(&self) -> &[u32] {
        &self.points[..self.count]
    }

    /// The place after the sign; the same place where no sign starts there.
    pub fn next(&self) -> usize {
        self.next
    }
}

/// The library's answer: number 0 and the count of what was written, or a refusal's two numbers.
#[repr(C)]
struct Shown {
    number: usize,
    second: usize,
}

/// The library's answer to a step: number 0, the count of code points, these, and the place after the sign; or a refusal's two numbers, no
/// code point, and the place.
#[repr(C)]
struct ShownSign {
    number: usize,
    second: usize,
    first: u32,
    then: u32,
    next: usize,
}

extern "C" {
    fn desk_transcribe(print: *const u32, print_len: usize, row: *mut u8, row_len: usize) -> Shown;
    fn desk_read(row: *const u8, row_len: usize, text: *mut u32, text_len: usize) -> Shown;
    fn desk_step(row: *const u8, row_len: usize, place: usize) -> ShownSign;
}

impl Shown {
    #[inline]
    fn answer(self) -> Result<usize, Refusal> {
        match self.number {
            0 => Ok(self.second),
            number => Err(Refusal::of(number, self.second)),
        }
    }
}

/// Transcribes one paragraph: writes the cells of `print` into `row`, from its first element on, and gives their count.
///
/// Any numbers may stand in `print`, and `row` may have any length: with [`LONGEST_ROW`](crate::LONGEST_ROW) the room always suffices. The
/// elements after the count are as they were.
///
/// ```
/// use omdurgash::{transcribe, Refusal};
///
/// let print = ['8', 'b'].map(u32::from);
/// let mut row = [0xFF; 6];
/// assert_eq!(transcribe(&print, &mut row), Ok(4));
/// assert_eq!(row, [60, 19, 16, 3, 0xFF, 0xFF]); // 3456-125-5-12
///
/// // A refusal writes nothing.
/// let mut row = [0xFF; 3];
/// assert_eq!(transcribe(&print, &mut row), Err(Refusal::NeedsRoom { room: 4 }));
/// assert_eq!(row, [0xFF; 3]);
/// ```
///
/// # Errors
///
/// The refusal that the rules give: `TooLong`; then that with the least place; then `NeedsRoom`. Every element of `row` is then as it was.
#[inline]
pub fn transcribe(print: &[u32], row: &mut [u8]) -> Result<usize, Refusal> {
    // SAFETY: the library takes each slice as pointer and length in elements, and asks only that the memory is there, aligned, not null and
    // lent as here: to be read for `print`, and to nobody else for `row`. Slices are so, empty ones included.
    let shown = unsafe { desk_transcribe(print.as_ptr(), print.len(), row.as_mut_ptr(), row.len()) };
    shown.answer()
}

/// Reads one row: writes the only text that has it into `text`, from its first element on, and gives the count of code points.
///
/// Any bytes may stand in `row`, and `text` may have any length: with that of the row, or with [`LONGEST_TEXT`](crate::LONGEST_TEXT), the
/// room always suffices. The elements after the count are as they were.
///
/// ```
/// use omdurgash::{read, Refusal};
///
/// let mut text = [0; 4];
/// assert_eq!(read(&[60, 6, 1], &mut text), Ok(3)); // 3456-23-1 is 2ª, normalised
/// assert_eq!(text, ['2', '.', 'ª', '\0'].map(u32::from));
///
/// assert_eq!(read(&[60, 6, 1], &mut text[..2]), Err(Refusal::NeedsRoom { room: 3 }));
/// assert_eq!(read(&[36, 36, 36, 64], &mut text), Err(Refusal::NotACell { place: 3 }));
/// assert_eq!(read(&[40, 1, 40, 3], &mut text), Err(Refusal::NoText)); // AB is 46-46-1-12
/// ```
///
/// # Errors
///
/// The first of these that holds: `TooLong` for the row, `NotACell`, `NoText`, `TooLong` for its text, `NeedsRoom`. Every element of `text`
/// is then as it was.
#[inline]
pub fn read(row: &[u8], text: &mut [u32]) -> Result<usize, Refusal> {
    // SAFETY: as for `transcribe`: to be read for `row`, and to nobody else for `text`.
    let shown = unsafe { desk_read(row.as_ptr(), row.len(), text.as_mut_ptr(), text.len()) };
    shown.answer()
}

/// Steps over one sign: gives the code points of the sign of `row` that starts at `place`, and the place after it.
///
/// Any bytes may stand in `row`, and `place` may be any number. At or past the row's end, and within a sign, no sign starts: there is then
/// no code point, and the same place is given. The answer follows from the row and the place alone. From 0 on, the steps go over every sign
/// of the row once, and their code points, one after the other, are its text: [`signs`](crate::signs()) takes them. Each step reads the
/// whole row.
///
/// ```
/// use omdurgash::step;
///
/// // 3456-25-145 is 3⁄4, in two signs; U+2044 goes with the 4.
/// let row = [60, 18, 25];
/// let sign = step(&row, 2)?;
/// assert_eq!((sign.points(), sign.next()), (&['\u{2044}', '4'].map(u32::from)[..], 3));
///
/// // No sign starts at the 25, which is the 3 with the 3456 before it.
/// let sign = step(&row, 1)?;
/// assert_eq!((sign.points(), sign.next()), (&[][..], 1));
/// # Ok::<(), omdurgash::Refusal>(())
/// ```
///
/// # Errors
///
/// A row is refused as [`read()`] refuses it where there is room enough, whatever the place is.
#[inline]
pub fn step(row: &[u8], place: usize) -> Result<Step, Refusal> {
    // SAFETY: as for `transcribe`: to be read for `row`.
    let sign = unsafe { desk_step(row.as_ptr(), row.len(), place) };
    let count = Shown { number: sign.number, second: sign.second }.answer()?;
    Ok(Step { points: [sign.first, sign.then], count, next: sign.next })
}
