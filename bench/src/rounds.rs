//! Three sides timed in rounds.

use std::time::Duration;

use interface::Sides;

/// One call of a side, timed.
pub type Timed = fn(&mut Sides, &[u8]) -> Duration;

/// All three in each round. Each call gets the box anew, and the order changes from
/// round to round.
pub fn times(rounds: usize, made: &Sides, record: &[u8], timed: [Timed; 3]) -> [Vec<Duration>; 3] {
    let mut times = [Vec::new(), Vec::new(), Vec::new()];
    let mut sides = made.clone();
    for round in 0..rounds {
        for n in 0..timed.len() {
            let which = if round % 2 == 0 { round + n } else { round + 2 * n } % timed.len();
            sides.clone_from(made);
            times[which].push(timed[which](&mut sides, record));
        }
    }
    times
}
