//! One fault: what an accepted text or its row becomes when one element goes wrong.
use crate::random::Random;

/// Changes one element, removes it, doubles it, swaps it with its neighbour, or puts a new one before it. `new` makes the new element.
pub fn damage<T: Copy>(elements: &mut Vec<T>, random: &mut Random, new: impl FnOnce(&mut Random) -> T) {
    if elements.is_empty() {
        let new = new(random);
        return elements.push(new);
    }
    let at = random.below(elements.len());
    match random.below(6) {
        0 | 1 => elements[at] = new(random),
        2 => drop(elements.remove(at)),
        3 => elements.insert(at, elements[at]),
        4 => {
            let other = if at + 1 < elements.len() { at + 1 } else { 0 };
            elements.swap(at, other);
        }
        _ => {
            let new = new(random);
            elements.insert(at, new);
        }
    }
}
