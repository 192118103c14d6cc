//! What texts are made of: how often each kind of pieces is drawn.

/// What a text has most of.
#[derive(Clone, Copy)]
pub enum Mix {
    /// Some of all.
    All,
    /// Words.
    Prose,
    /// Numbers, ordinals and fractions, and what may stand around them.
    Numbers,
    /// Pair marks, hyphens and dashes.
    Marks,
    /// Signs of two cells and of three: the longest rows.
    Wide,
}

/// Some of all is drawn as often as two others.
pub const MIXES: [Mix; 6] = [Mix::All, Mix::All, Mix::Prose, Mix::Numbers, Mix::Marks, Mix::Wide];

/// Kinds of pieces: so many of each in a hundred.
pub struct Weights {
    /// Runs of letters.
    pub word: usize,
    /// Ordinary numbers.
    pub number: usize,
    /// Ordinals.
    pub ordinal: usize,
    /// Fractions.
    pub fraction: usize,
    /// Points, commas and U+2026.
    pub point: usize,
    /// Hyphens and dashes.
    pub line: usize,
    /// Pair marks.
    pub mark: usize,
    /// ‰, of three cells.
    pub per_mille: usize,
}

impl Mix {
    /// What is left of the hundred are signs that may stand anywhere.
    pub fn weights(self) -> Weights {
        match self {
            Mix::All => Weights { word: 25, number: 12, ordinal: 8, fraction: 8, point: 10, line: 8, mark: 14, per_mille: 1 },
            Mix::Prose => Weights { word: 50, number: 4, ordinal: 1, fraction: 1, point: 8, line: 2, mark: 8, per_mille: 0 },
            Mix::Numbers => Weights { word: 15, number: 22, ordinal: 15, fraction: 15, point: 25, line: 2, mark: 2, per_mille: 0 },
            Mix::Marks => Weights { word: 15, number: 3, ordinal: 2, fraction: 2, point: 3, line: 25, mark: 45, per_mille: 0 },
            Mix::Wide => Weights { word: 2, number: 0, ordinal: 0, fraction: 0, point: 0, line: 2, mark: 5, per_mille: 81 },
        }
    }
}
