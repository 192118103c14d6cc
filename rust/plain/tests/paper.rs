//! What paper 01 says of single lines: its sixteen lines, its list "Either side of each line", its sentences about signs and refusals, and
//! its faults of a hurried hand.
mod common;

use common::*;
use std::collections::HashSet;

/// Print has this row.
fn accepted(print: &str, dots: &str) {
    assert_eq!(row_of(&points(print)), Ok(cells(dots)), "{print}");
}

/// Print is refused with these numbers.
fn refused(print: &str, shown: Shown) {
    assert_eq!(row_of(&points(print)), Err(shown), "{print}");
}

#[test]
fn the_proved_set() {
    accepted("", "");
    accepted("A", "46-1");
    accepted("ONCE", "46-46-135-1345-14-15");
    accepted("ABc", "46-1-46-12-14");
    accepted("8b", "3456-125-5-12");
    accepted("8B", "3456-125-46-12");
    accepted("1.720", "3456-1-3-1245-12-245");
    refused("1.b", (5, 2));
    accepted("2ª", "3456-23-1");
    refused("2⁄1", (5, 2));
    accepted("3⁄4", "3456-25-145");
    accepted("¿Sí?", "26-46-234-34-26");
    refused("?", (3, 0));
    refused("a--b", (5, 2));
    accepted("10 %", "3456-1-245-0-456-356");
    assert_eq!(text_within(64, &cells("46-1-46-12")), Err((8, 0)));
}

#[test]
fn the_proved_set_read_back() {
    let rows = [
        ("", ""),
        ("46-1", "A"),
        ("46-46-135-1345-14-15", "ONCE"),
        ("46-1-46-12-14", "ABc"),
        ("3456-125-5-12", "8b"),
        ("3456-125-46-12", "8B"),
        ("3456-1-3-1245-12-245", "1.720"),
        ("3456-23-1", "2.ª"),
        ("3456-25-145", "3⁄4"),
        ("26-46-234-34-26", "¿Sí?"),
        ("3456-1-245-0-456-356", "10 %"),
    ];
    for (dots, text) in rows {
        let (row, text) = (cells(dots), points(text));
        assert_eq!(joined_steps(&row), text, "{dots}");
        assert_eq!(text_within(64, &row).as_ref(), Ok(&text), "{dots}");
        assert_eq!(text_within(text.len(), &row).as_ref(), Ok(&text), "{dots}");
        if let Some(less) = text.len().checked_sub(1) {
            assert_eq!(text_within(less, &row), Err((6, text.len())), "{dots}");
        }
    }
}

#[test]
fn either_side_of_each_length() {
    let many = |count, print: char| vec![u32::from(print); count];
    assert_eq!(row_of(&many(4_096, '‰')), Ok(cells("456-356-356").repeat(4_096)));
    assert_eq!(row_of(&many(4_096, ' ')), Ok(vec![0; 4_096]));
    assert_eq!(row_of(&many(4_097, ' ')), Err((1, 4_097)));
    assert_eq!(row_of(&many(1_366, '…')), Err((1, 4_098)));
    assert_eq!(row_of(&many(1_365, '…')), Ok(cells("3").repeat(4_095)));
    let ordinals = |count| "2ª ".chars().cycle().take(count).map(u32::from).collect::<Vec<_>>();
    assert_eq!(row_of(&ordinals(3 * 1_024)), Ok(cells("3456-23-1-0").repeat(1_024)));
    assert_eq!(row_of(&ordinals(3 * 1_024 + 1)), Err((1, 4_097)));
    let dot_1 = |count| vec![1; count];
    assert_eq!(text_within(4_097, &dot_1(4_096)), Ok(many(4_096, 'a')));
    assert_eq!(text_within(4_097, &dot_1(4_097)), Err((1, 4_097)));
    assert_eq!(step_at(0, &dot_1(4_096)), stepped("a", 1));
    assert_eq!(step_at(0, &dot_1(4_097)), Err((1, 4_097)));
    assert_eq!(text_within(4_096, &vec![0; 12_289]), Err((1, 12_289)));
    assert_eq!(step_at(0, &vec![0; 12_289]), Err((1, 12_289)));
}

/// The row of its own that `transcribe` has is of one of three lengths, by that of print; `transcribe_lent` writes no further than the row
/// goes.
#[test]
fn either_side_of_each_own_row() {
    for len in [79, 80, 81, 639, 640, 641, 4_095, 4_096] {
        for (print, dots) in [("‰", "456-356-356"), ("a", "1")] {
            assert_eq!(row_of(&points(&print.repeat(len))), Ok(cells(dots).repeat(len)), "{print} {len}");
        }
        let (print, dots) = ("‰".repeat(len - 2), "456-356-356-".repeat(len - 2));
        for (end, cells) in [("AB", "46-46-1-12"), ("1b", "3456-1-5-12"), ("Ab", "46-1-12"), ("2ª", "3456-23-1"), ("¿?", "26-26")] {
            let longer = usize::from(end == "2ª");
            if len + longer <= 4_096 {
                accepted(&format!("{print}{end}"), &format!("{dots}{cells}"));
            } else {
                refused(&format!("{print}{end}"), (1, len + longer));
            }
        }
    }
}

#[test]
fn either_side_of_each_form() {
    accepted("3⁄4b", "3456-25-145-5-12");
    accepted("3⁄4k", "3456-25-145-13");
    accepted("3⁄4.b", "3456-25-145-3-12");
    refused("3.b", (5, 2));
    refused("2⁄1", (5, 2));
    accepted("2⁄11", "3456-23-1-1");
    accepted("2⁄01", "3456-23-245-1");
    refused("1⁄2⁄3", (4, 3));
    refused("1.5º", (4, 4));
    accepted("——", "36-36-36-36");
    assert_eq!(text_within(64, &cells("36-36-36")), Err((8, 0)));
}

#[test]
fn normalising() {
    accepted("1…2", "3456-1-3-3-3-3456-12");
    accepted("“a”", "236-1-236");
    accepted("“a»", "236-1-236");
    accepted("‹a›", "6-236-1-6-236");
    accepted("‘a›", "6-236-1-6-236");
    accepted("2.ª", "3456-23-1");
    accepted("10º", "3456-2-356-135");
    refused("aª", (4, 1));
    refused("1ªª", (4, 3));
    refused("…º", (4, 3));
    refused("1…º", (4, 4));
    refused("1ª…@", (2, 6));
    refused("“…", (3, 4));
    accepted("  a  ", "0-0-1-0-0");
}

#[test]
fn every_sign() {
    let letters =
        "a 1, b 12, c 14, d 145, e 15, f 124, g 1245, h 125, i 24, j 245, k 13, l 123, m 134, n 1345, ñ 12456, o 135, p 1234, q 12345, \
                   r 1235, s 234, t 2345, u 136, v 1236, w 2456, x 1346, y 13456, z 1356, á 12356, é 2346, í 34, ó 346, ú 23456, ü 1256";
    for (small, dots) in letters.split(", ").map(|entry| entry.split_once(' ').expect("a letter and its dots")) {
        accepted(small, dots);
        accepted(&small.to_uppercase(), &format!("46-{dots}"));
        accepted(&small.to_uppercase().repeat(2), &format!("46-46-{dots}-{dots}"));
    }
    let signs = [
        (" ", "0"),
        (".", "3"),
        (",", "2"),
        (";", "23"),
        (":", "25"),
        ("¿?", "26-26"),
        ("¡!", "235-235"),
        ("«»", "236-236"),
        ("‘’", "6-236-6-236"),
        ("(", "126"),
        (")", "345"),
        ("{", "5-123"),
        ("}", "456-2"),
        ("<", "5-13"),
        (">", "46-2"),
        ("-", "36"),
        ("—", "36-36"),
        ("/", "6-2"),
        ("//", "6-2-6-2"),
        ("\\", "5-3"),
        ("&", "6-12346"),
        ("=", "2356"),
        ("%", "456-356"),
        ("‰", "456-356-356"),
        ("€", "456-15"),
        ("$", "456-234"),
        ("¢", "45-14"),
        ("£", "5-2346"),
        ("¥", "456-13456"),
        ("₿", "456-12"),
        ("†", "5-1235"),
        ("\u{E000}\u{E001}", "35-35"),
        ("1234567890", "3456-1-12-14-145-15-124-1245-125-24-245"),
        ("1234567890º", "3456-2-23-25-256-26-235-2356-236-35-356-135"),
    ];
    for (print, dots) in signs {
        accepted(print, dots);
    }
}

#[test]
fn every_other_number_has_no_sign() {
    let listed = "º ª ⁄ 0123456789.,;:(){}<>-—/\\&=%‰€$¢£¥₿†¿?¡!«»‘’“”‹›…\u{E000}\u{E001}ñáéíóúüÑÁÉÍÓÚÜ";
    let listed: HashSet<u32> = points(listed).into_iter().chain(97..=122).chain(65..=90).collect();
    let far = [0x8000_0000, 0x8000_0061, 0xFFFF_FF61, 0xFFFF_FFFE, 0xFFFF_FFFF];
    for other in (0..0x11_0100).chain(far).filter(|other| !listed.contains(other)) {
        assert_eq!(row_within(0, &[97, other]), Err((2, 1)), "{other:#x}");
    }
}

#[test]
fn capitals() {
    accepted("AB", "46-46-1-12");
    accepted("aB", "1-46-12");
    accepted("aBC", "1-46-12-46-14");
    accepted("BCa", "46-12-46-14-1");
    accepted("aBCa", "1-46-12-46-14-1");
    accepted("AB-C", "46-46-1-12-36-46-14");
    accepted("XIV", "46-46-1346-24-1236");
    accepted("AB1CD", "46-46-1-12-3456-1-46-46-14-145");
    accepted("8bC", "3456-125-5-12-46-14");
    accepted("8BC", "3456-125-46-46-12-14");
    accepted("2ªBC", "3456-23-1-46-46-12-14");
    accepted("ÑÜ>", "46-46-12456-1256-46-2");
}

#[test]
fn numbers() {
    accepted("1.2,3", "3456-1-3-12-2-14");
    accepted("1..2", "3456-1-3-3-3456-12");
    accepted("1., 2", "3456-1-3-2-0-3456-12");
    accepted(".5", "3-3456-15");
    accepted("1j1k", "3456-1-5-245-3456-1-13");
    accepted("1.B", "3456-1-3-46-12");
    accepted("1.k", "3456-1-3-13");
    accepted("1..b", "3456-1-3-3-12");
    refused("1,b", (5, 2));
    refused("1.5,j", (5, 4));
    accepted("1.5j", "3456-1-3-15-5-245");
    accepted("1á", "3456-1-12356");
}

#[test]
fn ordinals_and_fractions() {
    accepted("2.º", "3456-23-135");
    accepted("2.ºb", "3456-23-135-12");
    accepted("2ªk", "3456-23-1-13");
    refused("2ªb", (5, 3));
    refused("2.ªj", (5, 3));
    accepted("2ª.b", "3456-23-1-3-12");
    accepted("2º5", "3456-23-135-3456-15");
    accepted("2º.5", "3456-23-135-3-3456-15");
    accepted("3⁄4.5⁄6", "3456-25-145-3-3456-26-124");
    accepted("3⁄4.5", "3456-25-145-3-3456-15");
    accepted("3⁄4.5º", "3456-25-145-3-3456-26-135");
    accepted("3⁄4,b", "3456-25-145-2-12");
    refused("1⁄2º", (4, 4));
    refused("1⁄2.º", (4, 4));
    refused("1.5⁄6", (4, 3));
    refused("1,5.ª", (4, 4));
    refused("1,º", (4, 2));
    refused("1⁄", (4, 1));
    refused("1⁄a", (4, 1));
    refused("⁄2", (4, 0));
    refused("1.⁄2", (4, 2));
    refused("3⁄1⁄2", (5, 2));
    refused("3⁄1.5", (5, 2));
    refused("3⁄4.5.b", (5, 6));
}

#[test]
fn hyphens() {
    refused("--", (5, 1));
    refused("-—", (5, 1));
    refused("—-", (5, 1));
    refused("a---", (5, 2));
    accepted("- -", "36-0-36");
    accepted("-.—", "36-3-36-36");
}

#[test]
fn pairs() {
    refused("?¿", (3, 0));
    refused("¿¿??", (3, 1));
    refused("¿?¿", (3, 3));
    refused("¿a", (3, 2));
    refused("¿a!", (3, 2));
    accepted("¿¡?!", "26-235-26-235");
    accepted("«‘\u{E000}»’\u{E001}", "236-6-236-35-236-6-236-35");
    refused("“«»”", (3, 1));
    refused("\u{E001}", (3, 0));
}

#[test]
fn refusals_of_print_in_their_order() {
    let long = |front: &str, count, end: &str| {
        let middle = std::iter::repeat(u32::from('a')).take(count);
        points(front).into_iter().chain(middle).chain(points(end)).collect::<Vec<_>>()
    };
    // 1 first, whatever else is at fault.
    assert_eq!(row_of(&long("@", 4_096, "")), Err((1, 4_097)));
    assert_eq!(row_of(&long("@", 4_095, "")), Err((2, 0)));
    assert_eq!(row_of(&long("@", 4_093, "…")), Err((1, 4_097)));
    assert_eq!(row_of(&long("@", 4_092, "…")), Err((2, 0)));
    assert_eq!(row_of(&long("?", 4_094, "1º")), Err((1, 4_098)));
    assert_eq!(row_of(&long("?", 4_092, "1º")), Err((3, 0)));
    assert_eq!(row_of(&long("@", 4_094, "ª")), Err((2, 0)));
    assert_eq!(row_of(&long("", 4_095, "1º…aª")), Err((1, 4_103)));
    assert_eq!(row_within(0, &long("", 4_097, "")), Err((1, 4_097)));
    // Then the least place.
    refused("@?", (2, 0));
    refused("?@", (3, 0));
    refused("--@", (5, 1));
    refused("-@-", (2, 1));
    refused("º--", (4, 0));
    refused("¿1.b", (5, 3));
    refused("¿@", (2, 1));
    // Then the room.
    assert_eq!(row_within(2, &points("ab?")), Err((3, 2)));
    assert_eq!(row_within(2, &points("abc")), Err((6, 3)));
    assert_eq!(row_within(3, &points("abc")), Ok(cells("1-12-14")));
    assert_eq!(row_within(0, &[]), Ok(vec![]));
}

#[test]
fn refusals_of_rows_in_their_order() {
    let mut row = vec![1; 12_289];
    row[5] = 64;
    assert_eq!(text_within(0, &row), Err((1, 12_289)));
    row.pop();
    row[4] = 0b100_1000;
    assert_eq!(text_within(0, &row), Err((7, 4)));
    row[..6].copy_from_slice(&cells("46-1-46-12-0-1"));
    assert_eq!(text_within(0, &row), Err((8, 0)));
    row[1] = 0;
    row[0] = 0;
    assert_eq!(text_within(0, &row), Err((1, 12_287)));
    row.truncate(4_097);
    assert_eq!(text_within(4_095, &row), Err((6, 4_096)));
}

#[test]
fn steps() {
    let row = cells("3456-25-145-5-12-0-3456-23-1-46-46-1-12-456-356-356");
    let signs =
        [(0, "3", 2), (2, "⁄4", 3), (3, "b", 5), (5, " ", 6), (6, "2", 8), (8, ".ª", 9), (9, "A", 12), (12, "B", 13), (13, "‰", 16)];
    for place in 0..20 {
        let sign = signs.iter().find(|sign| sign.0 == place);
        assert_eq!(step_at(place, &row), sign.map_or(stepped("", place), |sign| stepped(sign.1, sign.2)), "{place}");
    }
    for place in [0, 1, 4, 5, usize::MAX] {
        assert_eq!(step_at(place, &cells("46-1-46-12")), Err((8, 0)));
        assert_eq!(step_at(place, &[1, 64]), Err((7, 1)));
        assert_eq!(step_at(place, &[]), stepped("", place));
    }
}
