//! How long rivals take, in rounds: in each, every rival is timed once on the same, in an order that turns. What disturbs the machine then
//! disturbs all of them alike, and the median of the rounds' ratios tells how they compare.
use std::time::{Duration, Instant};

/// How often all that is timed is gone through, so that what disturbs the machine for a second or two spoils few rounds of a case.
pub const VISITS: usize = 7;

/// So many rounds at each visit.
pub const ROUNDS: usize = 31;

/// The fastest rival takes so long in a round, or longer where it goes but once over long lines.
const ROUND: Duration = Duration::from_micros(60);

/// Before the rounds, so many times are taken to see how fast a rival is.
const TRIES: usize = 3;

/// The times of rivals.
pub struct Times {
    /// How often each rival goes over the lines in a round.
    passes: usize,
    /// For each rival, a round's time after the other; in nanoseconds for one pass.
    rounds: Vec<Vec<f64>>,
}

impl Times {
    /// For so many rivals. `run` has the rival with this number go so many times over the lines.
    pub fn new(rivals: usize, mut run: impl FnMut(usize, usize)) -> Times {
        let mut shortest = |rival| (0..TRIES).map(|_| timed(|| run(rival, 1)).0).min();
        let fastest = (0..rivals).filter_map(&mut shortest).min().unwrap_or(ROUND);
        let passes = ROUND.as_nanos().div_ceil(fastest.as_nanos().max(1));
        Times { passes: passes.try_into().unwrap_or(1), rounds: vec![Vec::new(); rivals] }
    }

    /// The rounds of one visit. `run` is as above, and what it gives comes to `check` when the clock has stopped.
    pub fn visit<T>(&mut self, mut run: impl FnMut(usize, usize) -> T, mut check: impl FnMut(usize, T)) {
        let rivals = self.rounds.len();
        for round in 0..ROUNDS {
            for turn in 0..rivals {
                let rival = (round + turn) % rivals;
                let (time, answer) = timed(|| run(rival, self.passes));
                self.rounds[rival].push(time.as_nanos() as f64 / self.passes as f64);
                check(rival, answer);
            }
        }
    }

    /// The median time of a rival for one pass, in nanoseconds.
    pub fn median(&self, rival: usize) -> f64 {
        median(self.rounds[rival].clone())
    }

    /// The best time of a rival for one pass, in nanoseconds.
    pub fn best(&self, rival: usize) -> f64 {
        self.rounds[rival].iter().copied().fold(f64::INFINITY, f64::min)
    }

    /// The median of the rounds' ratios of one rival's time to another's.
    pub fn ratio(&self, rival: usize, to: usize) -> f64 {
        median(self.rounds[rival].iter().zip(&self.rounds[to]).map(|(time, other)| time / other).collect())
    }
}

fn timed<T>(run: impl FnOnce() -> T) -> (Duration, T) {
    let start = Instant::now();
    let answer = run();
    (start.elapsed(), answer)
}

/// The number in the middle; of two in the middle, the greater.
pub fn median(mut numbers: Vec<f64>) -> f64 {
    numbers.sort_by(f64::total_cmp);
    numbers[numbers.len() / 2]
}

#[cfg(test)]
mod tests {
    use super::*;

    #[test]
    fn ratio_is_the_median_of_the_rounds() {
        let times = Times { passes: 1, rounds: vec![vec![2.0, 40.0, 6.0], vec![1.0, 10.0, 2.0]] };
        assert_eq!((times.median(0), times.median(1), times.ratio(0, 1), times.ratio(1, 0)), (6.0, 2.0, 3.0, 1.0 / 3.0));
    }

    #[test]
    fn every_rival_is_timed_once_in_a_round_and_begins_in_turn() {
        let mut order = Vec::new();
        let mut times = Times { passes: 7, rounds: vec![Vec::new(); 3] };
        times.visit(|rival, passes| order.push((rival, passes)), |_, ()| ());
        assert_eq!(order[..6], [0, 1, 2, 1, 2, 0].map(|rival| (rival, 7)));
        assert!(times.rounds.iter().all(|rounds| rounds.len() == ROUNDS));
    }
}
