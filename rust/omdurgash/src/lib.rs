//! Spanish print to six-dot braille cells, and back: the proved library `desk`, for Rust.
//!
//! # Two minutes
//!
//! ```
//! use omdurgash::{braille, to_cells, to_text, Refusal};
//!
//! let row = to_cells("¿Sí?")?;
//! assert_eq!(row, [34, 40, 14, 12, 34]); // 26-46-234-34-26
//! assert_eq!(braille(&row), "⠢⠨⠎⠌⠢");
//! assert_eq!(to_text(&row)?, "¿Sí?");
//!
//! // Print that would have the cells of other print is refused, with its place: the b would be a 2.
//! assert_eq!(to_cells("1.b"), Err(Refusal::SharesCells { place: 2 }));
//! # Ok::<(), Refusal>(())
//! ```
//!
//! A cell is a byte of 0 to 63: dot 1 counts 1, dot 2 counts 2, dot 3 counts 4, dot 4 counts 8, dot 5 counts 16, dot 6 counts 32; the blank
//! cell is 0. A row is the cells of one paragraph, and has at most one text. The text is normalised print: U+2026 is three full stops in
//! it, `“` and `”` are `«` and `»`, `‹` and `›` are `‘` and `’`, and a `º` or `ª` directly after a digit has a full stop before it.
//!
//! # What there is
//!
//! | | print to cells | cells to print | sign by sign |
//! |---|---|---|---|
//! | thin: they write to what is lent, and nothing is allocated | [`transcribe`] | [`read()`] | [`step`], [`signs`] |
//! | they allocate what they give | [`to_cells`], [`braille`] | [`to_text`] | |
//!
//! Nothing is kept between two calls, and any thread may call. A call takes some 40 kilobytes of the stack; `to_cells` and `to_text` take
//! up to 16 more.
//!
//! # What is proved, and what is not
//!
//! It is proved of the library, for all inputs, that `transcribe`, `read` and `step` answer and write as the rules say, and of the rules
//! that what was transcribed is read back as the normalised print. This crate is not proved: it declares the library's three functions,
//! lends them slices, and builds the rest on them. It is run on the vectors of the repository.
//!
//! # Panics
//!
//! None, whatever the input. (Where the library shows a number that it is proved never to show, the binding panics: then another archive is
//! linked.)
//!
//! # Linking
//!
//! `./desk library`, in the top folder of the repository, writes `target/staticlib/libdesk.a`, and this crate links it: also where
//! another workspace names the crate by its path. If the archive is elsewhere, the environment variable `OMDURGASH_LIB_DIR` names the
//! folder that holds it, by its whole path. It is made for the machine that it is built on: Linux on x86-64 or on Arm (aarch64).
#![deny(unsafe_code)]

// A new function of the library is declared in `calls` and in `include/omdurgash.h`; `refusal` tells what a new refusal changes.
mod calls;
mod refusal;
mod signs;
mod strings;

pub use calls::{read, step, transcribe, Step};
pub use refusal::Refusal;
pub use signs::{signs, Sign, Signs};
pub use strings::{braille, to_cells, to_text};

/// Room for so many cells is never too little: no print that is accepted has more. A row of more cells is refused.
pub const LONGEST_ROW: usize = 12_288;

/// Room for so many code points is never too little: no row that is accepted has a longer text. Print whose text is longer is refused.
pub const LONGEST_TEXT: usize = 4_096;
