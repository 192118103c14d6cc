//! The memory that a call is lent, and what must be so of it afterwards: what was lent to be read is as it was, and of what was lent to be
//! written to only the first elements have changed, as many as the answer says; on a refusal none.
use crate::show::Element;
use crate::Answer;
use std::hint::black_box;

/// What a call did that it may not do.
#[derive(Debug, PartialEq, Eq)]
pub struct Fault(pub String);

/// Memory for elements of one sort. There are two kinds: [`Guarded`], for speed, and [`crate::exact::Exact`], for memcheck.
pub trait Memory<T> {
    /// Lends a copy of the elements, to be read.
    fn lend<R>(&mut self, elements: &[T], call: impl FnOnce(&[T]) -> R) -> Result<R, Fault>;

    /// Lends so much room, to be written to. What the call has written comes to `written`.
    fn lend_room(&mut self, room: usize, written: &mut Vec<T>, call: impl FnOnce(&mut [T]) -> Answer) -> Result<Answer, Fault>;
}

/// So many elements before what is lent, and as many after it, are looked at.
const GUARD: usize = 16;

/// One stretch for all calls, in which every element is untouched between two of them: nothing is cleared but what a call has used.
pub struct Guarded<T> {
    memory: Vec<T>,
    /// As long, and always untouched.
    untouched: Vec<T>,
}

impl<T: Element> Guarded<T> {
    /// With room for so many elements.
    pub fn new(most: usize) -> Guarded<T> {
        let untouched = vec![T::UNTOUCHED; GUARD + most + GUARD];
        Guarded { memory: untouched.clone(), untouched }
    }

    /// Whether the elements from one place up to another are untouched.
    fn is_untouched(&self, from: usize, to: usize) -> bool {
        self.memory[from..to] == self.untouched[from..to]
    }
}

impl<T: Element> Memory<T> for Guarded<T> {
    fn lend<R>(&mut self, elements: &[T], call: impl FnOnce(&[T]) -> R) -> Result<R, Fault> {
        let (start, end) = (GUARD, GUARD + elements.len());
        self.memory[start..end].copy_from_slice(elements);
        let result = call(&self.memory[start..end]);
        // Who lends to be read may not assume that it was not written to: that is what is looked at.
        let memory = black_box(&mut self.memory);
        if memory[start..end] != *elements {
            return Err(Fault("what was lent to be read has changed".to_string()));
        }
        memory[start..end].fill(T::UNTOUCHED);
        match self.is_untouched(0, end + GUARD) {
            true => Ok(result),
            false => Err(Fault("written to beside what was lent to be read".to_string())),
        }
    }

    fn lend_room(&mut self, room: usize, written: &mut Vec<T>, call: impl FnOnce(&mut [T]) -> Answer) -> Result<Answer, Fault> {
        let (start, end) = (GUARD, GUARD + room);
        let answer = call(&mut self.memory[start..end]);
        black_box(&mut self.memory);
        let count = counted(answer, room)?;
        written.clear();
        written.extend_from_slice(&self.memory[start..start + count]);
        self.memory[start..start + count].fill(T::UNTOUCHED);
        match self.is_untouched(0, end + GUARD) {
            true => Ok(answer),
            false => Err(Fault(format!("the answer is {answer:?}, and other elements have changed"))),
        }
    }
}

/// How many elements the answer says were written.
pub fn counted(answer: Answer, room: usize) -> Result<usize, Fault> {
    match answer {
        Ok(count) if count > room => Err(Fault(format!("the answer is a count of {count}, more than there is room"))),
        _ => Ok(answer.unwrap_or(0)),
    }
}

#[cfg(test)]
mod tests {
    use super::*;

    fn lent(call: impl FnOnce(&mut [u8]) -> Answer) -> Result<(Answer, Vec<u8>), Fault> {
        let mut written = Vec::new();
        let answer = Guarded::new(8).lend_room(3, &mut written, call)?;
        Ok((answer, written))
    }

    #[test]
    fn what_was_written_is_given() {
        let write = |row: &mut [u8]| {
            row[..2].copy_from_slice(&[1, 2]);
            Ok(2)
        };
        assert_eq!(lent(write), Ok((Ok(2), vec![1, 2])));
        assert_eq!(lent(|_| Err((8, 0))), Ok((Err((8, 0)), vec![])));
    }

    #[test]
    fn other_elements_have_changed() {
        let write_last = |row: &mut [u8]| {
            row[2] = 1;
            Ok(2)
        };
        assert!(lent(write_last).is_err());
        let write_and_refuse = |row: &mut [u8]| {
            row[0] = 1;
            Err((6, 4))
        };
        assert!(lent(write_and_refuse).is_err());
        assert!(lent(|_| Ok(4)).is_err());
    }

    #[test]
    fn beside_what_was_lent() {
        for at in [GUARD - 1, GUARD + 3] {
            let mut guarded = Guarded::<u8>::new(8);
            guarded.memory[at] = 1;
            assert!(guarded.lend_room(3, &mut Vec::new(), |_| Ok(0)).is_err(), "{at}");
            assert!(guarded.lend(&[1; 3], |_| ()).is_err(), "{at}");
        }
    }
}
