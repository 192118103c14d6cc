//! The proved library against plain Rust by the same rules, on one core, in one run: transcribing, in nanoseconds for each code point of
//! print; reading, in nanoseconds for each cell; and steps. Where liblouis is installed, it is timed beside the library.
mod cases;
mod drawn;
mod duel;
mod liblouis;
mod prose;
mod reading;
mod report;
mod stepping;
mod text;
mod timing;
mod transcribing;

use timing::{ROUNDS, VISITS};

fn main() {
    println!("Medians of {} rounds; in each, every rival is timed once on the same lines, in an order that turns.", ROUNDS * VISITS);
    println!("A ratio is the library's time to the other's: the median of the rounds' ratios; `at best`, the ratio of the best times, and of the library the best time.");
    println!(
        "All write to the same buffer, which is not cleared between calls. Before the timing, every answer is asserted, with all that is"
    );
    println!("written and that nothing else is; after each round, the last answer.");
    println!();
    let transcribing = transcribing::run();
    println!();
    let reading = reading::run();
    println!();
    stepping::run();
    println!();
    liblouis::run();
    println!();
    report::print(&[transcribing, reading].into_iter().flatten().collect::<Vec<_>>());
}
