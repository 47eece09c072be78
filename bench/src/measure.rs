//! Times of calls, taken turn by turn.

use std::time::{Duration, Instant};

/// A turn of one call is about this long, so that most turns are not interrupted.
const TURN: Duration = Duration::from_micros(150);

/// One call to time; the number says which of its inputs to take.
pub type Timed<'a> = Box<dyn FnMut(usize) + 'a>;

/// The time of one call of each, in nanoseconds: the least over the turns. The calls take turns, so that whatever else the machine
/// does meets all of them.
pub fn least(calls: &mut [Timed], turns: usize) -> Vec<f64> {
    let repeats: Vec<usize> = calls.iter_mut().map(repeats).collect();
    let mut least = vec![f64::INFINITY; calls.len()];
    for _ in 0..turns {
        for ((call, &repeats), least) in calls.iter_mut().zip(&repeats).zip(&mut least) {
            *least = least.min(turn(call, repeats).as_nanos() as f64 / repeats as f64);
        }
    }
    least
}

fn turn(call: &mut Timed, repeats: usize) -> Duration {
    let clock = Instant::now();
    (0..repeats).for_each(&mut *call);
    clock.elapsed()
}

/// How often a call goes into a turn: a multiple of the number of inputs, so that each turn does the same.
fn repeats(call: &mut Timed) -> usize {
    const INPUTS: usize = crate::inputs::VARIED;
    let mut repeats = INPUTS;
    while turn(call, repeats) < TURN {
        repeats *= 2;
    }
    repeats
}
