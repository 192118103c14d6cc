//! Spanish print to rows of six-dot braille cells, and back, in plain Rust: the rival and the cross-check of the exported library, and
//! nothing that it is built on. It is written from paper 01 alone, and for speed.
//!
//! There are two transcribers by the same rules (`transcriber`): [`transcribe`] makes one pass over print into a row of its own, and copies
//! that; [`transcribe_lent`] makes two, and copies nothing: one counts, and one writes to the lent row. In the same way there are two
//! readers (`reader`), [`read`] and [`read_lent`]. [`step`] reads the row as they do and gives one sign of it.
//!
//! A new sign of one cell is an entry of `PUNCTUATION`; of two cells, an entry of the table for its first cell, and of `SIGNS`; a new pair
//! kind, an entry of `OPENERS` and of `CLOSERS`, and of `PAIRS`. If its code point is in no table of signs, it is one of `ELSEWHERE` too.
#![forbid(unsafe_code)]

mod cells;
mod normal;
mod print;
mod reader;
mod refusal;
mod row;
mod step;
mod transcriber;

pub use refusal::Refusal;
pub use step::{step, Step};

use normal::normalised_len;
use refusal::reported;
use row::{Count, Lent, Own, Row};

/// A row of more cells is refused.
pub const LONGEST_ROW: usize = 12_288;

/// A longer text is refused, and a row that has one.
pub const LONGEST_TEXT: usize = 4_096;

/// Writes the row of `print` into `row`, from its first element on, and gives the count of cells. The elements after them are as they were.
///
/// `print` may be any sequence of numbers. It is normalised on the way; places are those of the normalised text.
///
/// One pass over print, into a row of its own; if print is accepted, that row is copied.
///
/// # Errors
///
/// [`Refusal::TextTooLong`] before all else; then the fault at the least place, one of [`Refusal`]'s last four; then
/// [`Refusal::NeedsRoom`]. Every element of `row` is then as it was.
pub fn transcribe(print: &[u32], row: &mut [u8]) -> Result<usize, Refusal> {
    not_too_long(print)?;
    // To clear a short row costs a short print less.
    match print.len() {
        0..=80 => transcribe_within::<{ 3 * 80 }>(print, row),
        81..=640 => transcribe_within::<{ 3 * 640 }>(print, row),
        _ => transcribe_within::<LONGEST_ROW>(print, row),
    }
}

/// As [`transcribe`], under the library's rule ("Each sign goes straight to its own stretch of the lent row"; "A refusal writes nothing"):
/// there is no row of its own, and nothing is copied. One pass over print counts or refuses, and the next one writes.
///
/// # Errors
///
/// As [`transcribe`].
pub fn transcribe_lent(print: &[u32], row: &mut [u8]) -> Result<usize, Refusal> {
    not_too_long(print)?;
    let len = transcribed(print, Count::default())?;
    let row = row.get_mut(..len).ok_or(Refusal::NeedsRoom(len))?;
    // The same print by the same rules: it has a row, and that is as long.
    let written = transcribed(print, Lent::new(row));
    debug_assert!(written == Ok(len), "the passes differ");
    Ok(len)
}

/// `N` is three for each code point of print at least, or the greatest length. Not inlined, so that a short row takes a short stack.
#[inline(never)]
fn transcribe_within<const N: usize>(print: &[u32], row: &mut [u8]) -> Result<usize, Refusal> {
    let own = &mut [0; N];
    let len = transcribed(print, Own::new(own))?;
    row.get_mut(..len).ok_or(Refusal::NeedsRoom(len))?.copy_from_slice(&own[..len]);
    Ok(len)
}

/// Print of no more code points than a text may have. Normalising takes none away.
#[inline(always)]
fn not_too_long(print: &[u32]) -> Result<(), Refusal> {
    if print.len() > LONGEST_TEXT {
        return Err(Refusal::TextTooLong(reported(normalised_len(print))));
    }
    Ok(())
}

/// One pass over print that is not too long, and the refusals but that for the room. Gives the count of cells.
#[inline(always)]
fn transcribed(print: &[u32], row: impl Row) -> Result<usize, Refusal> {
    let passed = transcriber::pass(print, row);
    let text_len = passed.map_or_else(|_| normalised_len(print), |passed| passed.text_len);
    if text_len > LONGEST_TEXT {
        return Err(Refusal::TextTooLong(text_len));
    }
    Ok(passed?.row_len)
}

/// Writes the text of `row` into `text`, from its first element on, and gives the count of code points. The elements after them are as they
/// were.
///
/// One pass over the row, into a text of its own; if the row is accepted, that text is copied.
///
/// # Errors
///
/// The first refusal in the order of [`Refusal`]'s first five. Every element of `text` is then as it was.
pub fn read(row: &[u8], text: &mut [u32]) -> Result<usize, Refusal> {
    // A text is never longer than its row. To clear a short text costs a short row less.
    match row.len() {
        0..=64 => read_within::<64>(row, text),
        65..=512 => read_within::<512>(row, text),
        _ => read_within::<LONGEST_TEXT>(row, text),
    }
}

/// As [`read`], but nothing is copied, and nothing is written before the row is known to have a text that fits. One pass over the row
/// counts, and the next one writes.
///
/// # Errors
///
/// As [`read`].
pub fn read_lent(row: &[u8], text: &mut [u32]) -> Result<usize, Refusal> {
    all_cells(row)?;
    let len = reader::pass(row, reader::Count::default()).ok_or(Refusal::NoText)?.len;
    let text = room_for(len, text)?;
    // The same row by the same rules: it has a text, and that is as long.
    let written = reader::pass(row, reader::Lent { text, len: 0 });
    debug_assert!(written.is_some_and(|lent| lent.len == len), "the passes differ");
    Ok(len)
}

/// `N` is a power of two: the text's length at least, or 4,096.
fn read_within<const N: usize>(row: &[u8], text: &mut [u32]) -> Result<usize, Refusal> {
    all_cells(row)?;
    let own = &mut [0; N];
    let len = reader::pass(row, reader::Latest { text: own, len: 0 }).ok_or(Refusal::NoText)?.len;
    room_for(len, text)?.copy_from_slice(&own[..len]);
    Ok(len)
}

/// The two refusals that come before any sign is read.
#[inline(always)]
fn all_cells(row: &[u8]) -> Result<(), Refusal> {
    if row.len() > LONGEST_ROW {
        return Err(Refusal::RowTooLong(reported(row.len())));
    }
    // All bytes in one go; which it is, only where there is one.
    if row.iter().fold(0, |all, byte| all | byte) > 63 {
        return Err(Refusal::NotACell(row.iter().position(|&byte| byte > 63).unwrap_or(0)));
    }
    Ok(())
}

/// The elements for so many code points, and the two refusals that come after the last sign.
#[inline(always)]
fn room_for(len: usize, text: &mut [u32]) -> Result<&mut [u32], Refusal> {
    if len > LONGEST_TEXT {
        return Err(Refusal::TextTooLong(len));
    }
    text.get_mut(..len).ok_or(Refusal::NeedsRoom(len))
}
