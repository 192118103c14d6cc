//! Normalised print (paper 01, "Normalised print"). No normalised text is ever made: the transcriber takes each code point for what it
//! becomes, and counts those that are added.

/// U+2026.
pub const ELLIPSIS: char = '…';

/// It becomes this many full stops.
pub const STOPS_OF_ELLIPSIS: u8 = 3;

/// What becomes another code point, and which.
const BECOMES: [(char, char); 4] = [('“', '«'), ('”', '»'), ('‹', '‘'), ('›', '’')];

/// What a code point becomes, if it stays one.
pub const fn normal(point: u32) -> u32 {
    let mut i = 0;
    while i < BECOMES.len() {
        if BECOMES[i].0 as u32 == point {
            return BECOMES[i].1 as u32;
        }
        i += 1;
    }
    point
}

/// A digit.
#[inline(always)]
pub fn is_digit(point: u32) -> bool {
    point.wrapping_sub(u32::from('0')) < 10
}

/// º or ª. Directly after a digit it gets a full stop before it.
#[inline(always)]
pub fn is_ordinal_mark(point: u32) -> bool {
    (point == u32::from('º')) | (point == u32::from('ª'))
}

/// How many code points print has once it is normalised.
pub fn normalised_len(print: &[u32]) -> usize {
    let ellipses = count(print, print, |point, _| point == u32::from(ELLIPSIS));
    let ordinals = count(print, print.get(1..).unwrap_or(&[]), |digit, mark| is_digit(digit) & is_ordinal_mark(mark));
    print.len() + ellipses * usize::from(STOPS_OF_ELLIPSIS - 1) + ordinals
}

/// At how many places two slices have what is asked for. It is counted in blocks, and in 32 bits within one: so the compiler takes several
/// places at a time.
#[inline(always)]
fn count(left: &[u32], right: &[u32], asked: impl Fn(u32, u32) -> bool) -> usize {
    const BLOCK: usize = 4_096;
    let in_block =
        |(left, right): (&[u32], &[u32])| left.iter().zip(right).map(|(&left, &right)| u32::from(asked(left, right))).sum::<u32>();
    left.chunks(BLOCK).zip(right.chunks(BLOCK)).map(|block| in_block(block) as usize).sum()
}
