//! Times of programs that do the same.

use std::hint::black_box;
use std::time::{Duration, Instant};

/// What a round of one contender takes at least: long beside a reading of the clock.
const ROUND: Duration = Duration::from_micros(20);

/// The most rounds of each contender.
const ROUNDS: usize = 10_000;

/// What the rounds of each contender may take on average, but for the first ones.
const BUDGET: Duration = Duration::from_millis(250);

/// The rounds that each contender has at least.
const LEAST_ROUNDS: usize = 5;

/// A call of a program, ready to be measured: what so many calls take.
pub struct Contender<'a>(Box<dyn FnMut(u32) -> Duration + 'a>);

impl<'a> Contender<'a> {
    /// The contender that makes this call.
    pub fn new<A>(mut call: impl FnMut() -> A + 'a) -> Contender<'a> {
        Contender(Box::new(move |calls| {
            let start = Instant::now();
            for _ in 0..calls {
                black_box(call());
            }
            start.elapsed()
        }))
    }

    /// How many calls make a round.
    fn calls_of_round(&mut self) -> u32 {
        let mut calls = 1;
        while (self.0)(calls) < ROUND {
            calls *= 2;
        }
        calls
    }
}

/// Measures the contenders in short rounds, by turns, and gives for each the least nanoseconds per
/// call: other work on the machine can only make a round longer.
pub fn measure(contenders: &mut [Contender]) -> Vec<f64> {
    let calls: Vec<u32> = contenders
        .iter_mut()
        .map(Contender::calls_of_round)
        .collect();
    let mut least = vec![f64::INFINITY; contenders.len()];
    let (start, budget) = (Instant::now(), BUDGET * contenders.len() as u32);
    for round in 0..ROUNDS {
        if round >= LEAST_ROUNDS && start.elapsed() > budget {
            break;
        }
        for (place, contender) in contenders.iter_mut().enumerate() {
            let time = (contender.0)(calls[place]).as_nanos() as f64;
            least[place] = least[place].min(time / f64::from(calls[place]));
        }
    }
    least
}
