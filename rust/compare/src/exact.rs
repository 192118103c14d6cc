//! Memory for a run under memcheck, valgrind's tool: each stretch that is lent is a block of its own, of exactly the length that is lent,
//! and what is lent to be written to is undefined to memcheck. It then tells of a read or write one element past either end, of an element
//! that is counted and was not written, and of a branch on what stood in the row or text before.
use crate::memcheck;
use crate::memory::{counted, Fault, Memory};
use crate::show::Element;
use crate::Answer;
use std::hint::black_box;

/// New blocks for each call.
pub struct Exact;

impl<T: Element> Memory<T> for Exact {
    fn lend<R>(&mut self, elements: &[T], call: impl FnOnce(&[T]) -> R) -> Result<R, Fault> {
        let mut block: Box<[T]> = elements.into();
        let result = call(&block);
        match **black_box(&mut block) == *elements {
            true => Ok(result),
            false => Err(Fault("what was lent to be read has changed".to_string())),
        }
    }

    fn lend_room(&mut self, room: usize, written: &mut Vec<T>, call: impl FnOnce(&mut [T]) -> Answer) -> Result<Answer, Fault> {
        let mut block: Box<[T]> = vec![T::UNTOUCHED; room].into();
        memcheck::make_undefined(&mut block);
        let answer = call(&mut block);
        let block = black_box(&mut block);
        let (counted, rest) = block.split_at_mut(counted(answer, room)?);
        // It still holds what it held.
        memcheck::make_defined(rest);
        written.clear();
        written.extend_from_slice(counted);
        match rest.iter().all(|&element| element == T::UNTOUCHED) {
            true => Ok(answer),
            false => Err(Fault(format!("the answer is {answer:?}, and other elements have changed"))),
        }
    }
}
