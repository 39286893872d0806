//! Times of both kernels on one call, taken in turn.

use crate::asking::{Areas, Asked, Given};
use crate::books::CALLER;
use crate::cases::Case;
use std::time::Instant;

/// How many calls of each kernel are made on one book before the next book's turn.
const TURN: usize = 50;

/// Nanoseconds a call, the median of all samples, less the clock's own.
#[derive(Clone, Copy)]
pub struct Times {
    pub first: f64,
    pub second: f64,
}

pub struct Clock {
    samples: usize,
    /// What two readings of the clock one after the other give.
    own: f64,
}

impl Clock {
    pub fn new(samples: usize) -> Clock {
        Clock { samples, own: median((0..samples).map(|_| nanoseconds(|| {})).collect()) }
    }

    /// The areas are copied afresh before each call; only the call is timed. The books take turns, so that a machine
    /// that is slow for a while is so for all of them; a host has one book, so a turn is many calls on it.
    pub fn race(&self, cases: &[&Case], kernels: [Asked; 2]) -> Vec<Times> {
        let mut areas = Areas::new();
        let mut taken = vec![[Vec::new(), Vec::new()]; cases.len()];
        for _ in 0..(self.samples + TURN - 1) / TURN {
            for (case, times) in cases.iter().zip(&mut taken) {
                for call in 0..2 * TURN {
                    let which = call % 2;
                    areas.copy_from(&case.areas);
                    times[which].push(self.time(kernels[which], &mut areas, case));
                }
            }
        }
        taken.into_iter().map(|[a, b]| Times { first: median(a), second: median(b) }).collect()
    }

    fn time(&self, kernel: Asked, areas: &mut Areas, case: &Case) -> f64 {
        let mut given = Given::nothing();
        nanoseconds(|| kernel(areas, CALLER, &case.call, &mut given)) - self.own
    }
}

fn nanoseconds(timed: impl FnOnce()) -> f64 {
    let before = Instant::now();
    timed();
    before.elapsed().as_nanos() as f64
}

fn median(mut numbers: Vec<f64>) -> f64 {
    numbers.sort_by(|a, b| a.partial_cmp(b).expect("times are numbers"));
    numbers[numbers.len() / 2]
}
