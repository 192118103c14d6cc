//! What is told of a case that is not as it should be.
use crate::show::Element;

/// The first thing that is not as it should be, in words, below the print or row that shows it.
#[derive(Debug, PartialEq, Eq)]
pub struct Difference(pub String);

impl Difference {
    /// In these words, below the input.
    pub fn of<T: Element>(input: &[T], what: &str) -> Difference {
        Difference(format!("        {}\n    {what}", T::shown(input)))
    }
}

/// Gives the difference, unless it is as it should be.
pub fn holds<T: Element>(is_so: bool, input: &[T], otherwise: impl FnOnce() -> String) -> Result<(), Difference> {
    match is_so {
        true => Ok(()),
        false => Err(Difference::of(input, &otherwise())),
    }
}
