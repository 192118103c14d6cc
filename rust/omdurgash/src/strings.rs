//! Print as `str` and cells as `Vec`: for those who may allocate.
use crate::{read, transcribe, Refusal, LONGEST_ROW, LONGEST_TEXT};

/// The cells of one paragraph. It allocates; [`transcribe`] does not.
///
/// ```
/// use omdurgash::{to_cells, Refusal};
///
/// assert_eq!(to_cells("8b"), Ok(vec![60, 19, 16, 3])); // 3456-125-5-12
/// assert_eq!(to_cells("3⁄4"), Ok(vec![60, 18, 25])); // 3456-25-145
///
/// // A place counts code points of the normalised print, and not bytes: 2ª is 2.ª
/// assert_eq!(to_cells("2ª @"), Err(Refusal::NoSign { place: 4 }));
/// // A line end has no sign.
/// assert_eq!(to_cells("8b\n"), Err(Refusal::NoSign { place: 2 }));
/// ```
///
/// # Errors
///
/// As [`transcribe`], but never `NeedsRoom`.
pub fn to_cells(print: &str) -> Result<Vec<u8>, Refusal> {
    let print: Vec<u32> = print.chars().map(u32::from).collect();
    let mut row = [0; LONGEST_ROW];
    let count = transcribe(&print, &mut row)?;
    Ok(row[..count].to_vec())
}

/// The text of a row, which is normalised print. It allocates; [`read()`] does not. The marks of emphasis are U+E000 and U+E001.
///
/// ```
/// use omdurgash::{to_cells, to_text, Refusal};
///
/// assert_eq!(to_text(&to_cells("2ª")?)?, "2.ª");
/// assert_eq!(to_text(&to_cells("“¿Sí?”…")?)?, "«¿Sí?»...");
/// assert_eq!(to_text(&[40, 1, 40, 3]), Err(Refusal::NoText)); // 46-1-46-12
/// # Ok::<(), Refusal>(())
/// ```
///
/// # Errors
///
/// As [`read()`], but never `NeedsRoom`.
pub fn to_text(row: &[u8]) -> Result<String, Refusal> {
    let mut text = [0; LONGEST_TEXT];
    let count = read(row, &mut text)?;
    Ok(text[..count].iter().map(|&point| character(point)).collect())
}

/// The cells as Unicode's braille characters: U+2800 plus the cell for each. (A byte above 63, which is no cell, is a character of eight
/// dots.)
///
/// ```
/// assert_eq!(omdurgash::braille(&[60, 19, 16, 3]), "⠼⠓⠐⠃");
/// ```
pub fn braille(cells: &[u8]) -> String {
    cells.iter().map(|&cell| character(0x2800 + u32::from(cell))).collect()
}

/// A code point that has a sign, or a braille character. All of these are a `char`, so that nothing is ever replaced.
fn character(point: u32) -> char {
    char::from_u32(point).unwrap_or(char::REPLACEMENT_CHARACTER)
}
