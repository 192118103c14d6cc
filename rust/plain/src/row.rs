//! What becomes of the cells of a row: they are counted, written to a row of one's own, or written to a lent one.
//!
//! How capitals are written, and digits, shows only behind the last of them: so cells may be taken back, and others put in their place.
use crate::cells::D46;
use crate::print::{entry, has, Sign, Table, CAPITALS};

/// A row that is made from its first cell on.
pub trait Row {
    /// Whether print is known to be accepted: then no fault is looked for.
    const SETTLED: bool;

    /// So many cells came, less those taken back.
    fn len(&self) -> usize;

    /// The next cell.
    fn put(&mut self, cell: usize);

    /// The cells of the code points that a table has, up to the first that it has not. Gives their count.
    fn run(&mut self, print: &[u32], table: &Table) -> usize;

    /// The two cells of a capital with a 46 before it.
    #[inline(always)]
    fn capital(&mut self, point: u32) {
        self.put(D46);
        // They are all below 256.
        self.put(usize::from(CAPITALS[usize::from(point as u8)]));
    }

    /// The cells of a sign.
    fn sign(&mut self, sign: &Sign);

    /// Takes the last cells back, all from this place on.
    fn back_to(&mut self, len: usize);
}

/// Counts the cells, and writes nothing.
#[derive(Default)]
pub struct Count {
    len: usize,
}

impl Row for Count {
    const SETTLED: bool = false;

    #[inline(always)]
    fn len(&self) -> usize {
        self.len
    }

    #[inline(always)]
    fn put(&mut self, _: usize) {
        self.len += 1;
    }

    #[inline(always)]
    fn run(&mut self, print: &[u32], table: &Table) -> usize {
        let count = print.iter().take_while(|&&point| has(table, point)).count();
        self.len += count;
        count
    }

    #[inline(always)]
    fn sign(&mut self, sign: &Sign) {
        self.len += usize::from(sign.count);
    }

    #[inline(always)]
    fn back_to(&mut self, len: usize) {
        self.len = len;
    }
}

/// Writes the cells to elements, from the first on. If it is `ROOMY`, there must be three for each code point; if not, one for each cell,
/// and print must be known to be accepted.
pub struct Written<'a, const ROOMY: bool> {
    row: &'a mut [u8],
    len: usize,
}

/// A row of one's own, with room for any row of the print.
pub type Own<'a> = Written<'a, true>;

/// What is lent for a row that was counted.
pub type Lent<'a> = Written<'a, false>;

impl<'a, const ROOMY: bool> Written<'a, ROOMY> {
    /// To these elements.
    pub fn new(row: &'a mut [u8]) -> Self {
        Written { row, len: 0 }
    }
}

impl<const ROOMY: bool> Row for Written<'_, ROOMY> {
    const SETTLED: bool = !ROOMY;

    #[inline(always)]
    fn len(&self) -> usize {
        self.len
    }

    #[inline(always)]
    fn put(&mut self, cell: usize) {
        self.row[self.len] = cell as u8;
        self.len += 1;
    }

    #[inline(always)]
    fn run(&mut self, print: &[u32], table: &Table) -> usize {
        let mut count = 0;
        for (&point, element) in print.iter().zip(&mut self.row[self.len..]) {
            let Some(cell) = entry(table, point) else { break };
            *element = cell;
            count += 1;
        }
        self.len += count;
        count
    }

    #[inline(always)]
    fn sign(&mut self, sign: &Sign) {
        let count = usize::from(sign.count);
        let rest = &mut self.row[self.len..];
        if ROOMY || rest.len() >= sign.cells.len() {
            // All three: what is behind the sign's own is written over, or behind the row's end.
            rest[..sign.cells.len()].copy_from_slice(&sign.cells);
        } else {
            rest[..count].iter_mut().zip(sign.cells).for_each(|(element, cell)| *element = cell);
        }
        self.len += count;
    }

    #[inline(always)]
    fn back_to(&mut self, len: usize) {
        self.len = len;
    }
}
