//! What the binding builds on the library's three functions: the signs of a row one after the other, and print and rows that are allocated.
//! They go through the vectors, as the three functions do.
use omdurgash::{braille, read, signs, to_cells, to_text, Refusal, LONGEST_TEXT};
use std::fs::read_to_string;
use vectors::normal::normalised;
use vectors::rows::{self, RowVector};
use vectors::signs::{signs as signs_due, Sign};
use vectors::{of_repository, parse, Answer, Vector};

/// Of a longer row, every step would take too long.
const SHORT: usize = 300;

fn print_vectors() -> Vec<Vector> {
    let text = read_to_string(of_repository("vectors/print-to-cells.txt")).expect("the vectors of print are there");
    parse(&text).unwrap_or_else(|bad| panic!("{bad}"))
}

fn row_vectors() -> Vec<RowVector> {
    let text = read_to_string(of_repository("vectors/cells-to-print.txt")).expect("the vectors of rows are there");
    rows::parse(&text).unwrap_or_else(|bad| panic!("{bad}"))
}

/// The print, if every number in it is a `char`.
fn as_string(points: &[u32]) -> Option<String> {
    points.iter().map(|&point| char::from_u32(point)).collect()
}

fn numbers(refusal: Refusal) -> (u8, usize) {
    (refusal.number(), refusal.second())
}

/// Goes over the row, and asks that its signs are those of the text, that their cells are the row's own, and that the count of signs to
/// come is within what was said of it.
fn signs_are(name: &str, row: &[u8], text: &[u32]) {
    let mut walk = signs(row).unwrap_or_else(|refusal| panic!("{name}: {refusal}"));
    let due = signs_due(text, row);
    for (i, Sign { at, next, points }) in due.iter().enumerate() {
        let (least, most) = walk.size_hint();
        assert!(
            (least..=most.unwrap_or(usize::MAX)).contains(&(due.len() - i)),
            "{name}: {} signs, and not {least} to {most:?}",
            due.len() - i
        );
        let sign = walk.next().unwrap_or_else(|| panic!("{name}: the sign at {at} is missing"));
        assert_eq!((sign.place(), sign.next(), sign.points()), (*at, *next, &points[..]), "{name}");
        assert!(std::ptr::eq(sign.cells(), &row[*at..*next]), "{name}: the cells at {at} are not a part of the row");
    }
    assert_eq!((walk.size_hint(), walk.next(), walk.next()), ((0, Some(0)), None, None), "{name}");
}

#[test]
fn signs_of_every_vector() {
    for vector in print_vectors() {
        match &vector.answer {
            Answer::Cells(row) if row.len() <= SHORT => signs_are(&vector.name, row, &normalised(&vector.print)),
            _ => {}
        }
    }
    for vector in row_vectors() {
        match &vector.answer {
            rows::Answer::Text(text) if vector.row.len() <= SHORT => signs_are(&vector.name, &vector.row, text),
            rows::Answer::Text(_) => {}
            rows::Answer::No(number, second) => {
                assert_eq!(signs(&vector.row).map(|_| ()).map_err(numbers), Err((*number, *second)), "{}", vector.name)
            }
        }
    }
}

#[test]
fn strings_of_every_vector() {
    for Vector { name, print, answer } in print_vectors() {
        // A number that is no char cannot be asked for here.
        let Some(print) = as_string(&print) else { continue };
        match answer {
            Answer::Cells(row) => assert_eq!(to_cells(&print), Ok(row), "{name}"),
            Answer::No(number, second) => assert_eq!(to_cells(&print).map_err(numbers), Err((number, second)), "{name}"),
        }
    }
    for RowVector { name, row, answer } in row_vectors() {
        match answer {
            rows::Answer::Text(text) => assert_eq!(to_text(&row).ok(), as_string(&text), "{name}"),
            rows::Answer::No(number, second) => assert_eq!(to_text(&row).map_err(numbers), Err((number, second)), "{name}"),
        }
    }
}

#[test]
fn every_cell_as_a_braille_character() {
    let cells: Vec<u8> = (0..=63).collect();
    assert_eq!(braille(&cells), ('\u{2800}'..='\u{283F}').collect::<String>());
    assert_eq!(braille(&[255]), "\u{28FF}");
}

// What a teacher is told. Of the pair rule one sentence has to be true both of a mark that may not stand and of one that is open at the
// end.
#[test]
fn refusals_in_words() {
    let words = |print: &str| to_cells(print).expect_err(print).to_string();
    let row_words = |row: &[u8]| to_text(row).expect_err("the row is refused").to_string();
    assert_eq!(
        words(&"a".repeat(LONGEST_TEXT + 1)),
        "a length of 4097 is too great: a text has 4096 code points at most, and a row 12288 cells"
    );
    assert_eq!(words("2 + 2"), "the code point at place 2 has no braille sign");
    let pair =
        |place| format!("a pair such as ¿? is broken at place {place}: the mark there may not stand, or the text ends there with one open");
    assert_eq!(words("Hasta mañana?"), pair(12));
    assert_eq!(words("¿Vienes"), pair(7));
    assert_eq!(words("1⁄2⁄3"), "the º, ª or fraction slash at place 3 is not part of an ordinal or a fraction");
    assert_eq!(words("1.b"), "the code point at place 2 would share its braille cells with other print");
    assert_eq!(row_words(&[1, 64]), "the byte at place 1 is above 63, so it is not a cell of six dots");
    assert_eq!(row_words(&[40, 1, 40, 3]), "no text has this row of cells");
    let refusal = read(&[1, 3], &mut [0]).expect_err("there is room for one");
    assert_eq!(refusal.to_string(), "the answer needs room for 2, and less was lent");
}
