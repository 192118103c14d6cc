//! What is tried of a case, besides the call with room enough: other rooms, and places to step at.
use crate::random::Random;
use crate::Answer;

/// One case in so many has every room, and one in so many every place.
const EVERY_IN: usize = 16;

/// The sorts of rooms.
const ROOMS: usize = 5;

/// The rooms and the places of a case.
#[derive(Clone, Copy)]
pub struct Trials {
    rooms: Chosen<usize>,
    places: Chosen<[u64; 2]>,
}

#[derive(Clone, Copy)]
enum Chosen<T> {
    Every,
    Only(T),
}

impl Trials {
    /// Every room and every place.
    pub const EVERY: Trials = Trials { rooms: Chosen::Every, places: Chosen::Every };

    /// Mostly one room and two places.
    pub fn drawn(random: &mut Random) -> Trials {
        Trials {
            rooms: if random.once_in(EVERY_IN) { Chosen::Every } else { Chosen::Only(random.below(ROOMS)) },
            places: if random.once_in(EVERY_IN) { Chosen::Every } else { Chosen::Only([random.number(), random.number()]) },
        }
    }

    /// Nothing, one short of what is needed, just that, one over, and plenty; or one of these. What is refused needs nothing.
    pub fn rooms(&self, answer: Answer, plenty: usize) -> impl Iterator<Item = usize> {
        let needed = answer.unwrap_or(0);
        let rooms: [usize; ROOMS] = [0, needed.saturating_sub(1), needed, needed + 1, plenty];
        let chosen = self.rooms;
        (0..ROOMS)
            .filter(move |&i| match chosen {
                Chosen::Every => i == 0 || rooms[i] != rooms[i - 1],
                Chosen::Only(one) => i == one,
            })
            .map(move |i| rooms[i])
    }

    /// Two places of a row of so many cells; nothing where it is to be every place.
    pub fn places(&self, cells: usize) -> Option<[usize; 2]> {
        match self.places {
            Chosen::Every => None,
            Chosen::Only(numbers) => Some(numbers.map(|number| place(number, cells))),
        }
    }
}

/// The first place, the end, one and any past it, or most often one within the row.
fn place(number: u64, cells: usize) -> usize {
    let rest = (number / 8) as usize;
    match number % 8 {
        0 => 0,
        1 => cells,
        2 => cells + 1,
        3 if rest % 2 == 0 => usize::MAX,
        3 => rest,
        _ => rest % cells.max(1),
    }
}
