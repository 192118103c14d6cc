//! Normalised print (paper 01, "Normalised print").

const FULL_STOP: u32 = '.' as u32;

/// What reading gives back: normalised print.
pub fn normalised(print: &[u32]) -> Vec<u32> {
    let mut text = Vec::with_capacity(print.len());
    for (i, &point) in print.iter().enumerate() {
        match char::from_u32(point) {
            Some('\u{2026}') => text.extend([FULL_STOP; 3]),
            Some('“') => text.push('«'.into()),
            Some('”') => text.push('»'.into()),
            Some('‹') => text.push('‘'.into()),
            Some('›') => text.push('’'.into()),
            Some('º' | 'ª') if i > 0 && is_digit(print[i - 1]) => text.extend([FULL_STOP, point]),
            _ => text.push(point),
        }
    }
    text
}

/// Whether a code point is one of 0 to 9.
pub fn is_digit(point: u32) -> bool {
    (u32::from('0')..=u32::from('9')).contains(&point)
}

#[cfg(test)]
mod tests {
    use super::*;

    fn points(text: &str) -> Vec<u32> {
        text.chars().map(u32::from).collect()
    }

    #[test]
    fn each_sentence() {
        let pairs = [
            ("a…", "a..."),
            ("“a”«b»", "«a»«b»"),
            ("‹a›‘b’", "‘a’‘b’"),
            ("2ª 3º", "2.ª 3.º"),
            ("2.ª aº º", "2.ª aº º"),
            ("1…º", "1...º"),
            ("a  b", "a  b"),
        ];
        for (print, text) in pairs {
            assert_eq!(normalised(&points(print)), points(text), "{print}");
        }
        assert_eq!(normalised(&[0xD800, u32::MAX]), [0xD800, u32::MAX]);
    }
}
