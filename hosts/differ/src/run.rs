//! One history: an opening with a theme, then the mixture up to its last call.

use crate::bench::{need, Bench, Checked, Step};
use crate::features::{Done, FEATURES};
use crate::mixture;
use flytewood_model::book::laid::laid;
use flytewood_model::book::place::Order;
use flytewood_model::coverage::{count_one, Seen};
use flytewood_model::model::{Call, Outcome};
use flytewood_model::random::Random;

/// How many calls a history has.
pub const CALLS: usize = 400;

/// What all histories together came to.
pub struct Tally {
    pub seen: Seen,
    pub features: [usize; FEATURES.len()],
    pub calls: usize,
    pub granted: usize,
}

impl Tally {
    pub fn new() -> Tally {
        Tally { seen: Seen::new(), features: [0; FEATURES.len()], calls: 0, granted: 0 }
    }

    pub fn count(&mut self, done: &Done) {
        count_one(&mut self.seen, done.call.number(), done.outcome.answer);
        self.calls += 1;
        self.granted += usize::from(done.outcome.answer == 0);
        for (times, (_, reached)) in self.features.iter_mut().zip(FEATURES.iter()) {
            *times += usize::from(reached(done));
        }
    }

    /// The features that were never reached.
    pub fn missing(&self) -> Vec<&'static str> {
        let never = self.features.iter().zip(FEATURES.iter()).filter(|(times, _)| **times == 0);
        never.map(|(_, (name, _))| *name).collect()
    }
}

pub struct Run<'a> {
    pub bench: Bench,
    pub random: Random,
    pub tally: &'a mut Tally,
    /// The root and the thread that the start makes.
    pub root: u64,
    pub init: u64,
    /// Whether the host writes into the area between calls.
    pub scribbling: bool,
    left: usize,
}

impl<'a> Run<'a> {
    pub fn start(first: u64, seed: u64, tally: &'a mut Tally) -> Result<Run<'a>, String> {
        let mut random = Random::new(seed);
        let bench = Bench::start(first, random.draw() as u8)?;
        Ok(Run { bench, random, tally, root: first, init: first + 1, scribbling: false, left: CALLS })
    }

    /// So many calls over a bench that stands already.
    pub fn over(bench: Bench, seed: u64, calls: usize, tally: &'a mut Tally) -> Run<'a> {
        Run { bench, random: Random::new(seed), tally, root: 0, init: 0, scribbling: false, left: calls }
    }

    /// One call of both; gives what they answered.
    pub fn take(&mut self, caller: u64, call: Call) -> Result<Outcome, String> {
        let Step { before, was, outcome } = self.bench.step_from(caller, &call)?;
        let (after, is) = (&self.bench.world, &self.bench.positions);
        self.tally.count(&Done {
            before: &before,
            after,
            was: &was,
            is,
            caller,
            call: &call,
            outcome: &outcome,
        });
        self.left = self.left.saturating_sub(1);
        Ok(outcome)
    }

    /// A call that the opening needs; gives its value.
    pub fn grant(&mut self, caller: u64, call: Call) -> Result<u64, String> {
        let asked = format!("{:?}", call);
        let outcome = self.take(caller, call)?;
        if outcome.answer == 0 {
            Ok(outcome.value)
        } else {
            Err(format!("an opening counts on {} and {} was answered", asked, outcome.answer))
        }
    }

    /// A call that the opening needs to be refused so.
    pub fn refuse(&mut self, caller: u64, call: Call, answer: u64) -> Checked {
        let asked = format!("{:?}", call);
        let outcome = self.take(caller, call)?;
        need(outcome.answer == answer, || {
            format!("an opening counts on {} for {} and {} was answered", answer, asked, outcome.answer)
        })
    }

    /// The world gets these links, and is laid out anew at any rows, links and blocks.
    pub fn with_links(&mut self, links: &[(u64, u64)]) -> Checked {
        let mut world = self.bench.world.clone();
        world.links.extend(links);
        let (book, area) = laid(&mut self.random, &world, Order::Shuffled, 5);
        self.bench = Bench::over(&book, &area);
        need(self.bench.world == world, || "the book laid out anew spells another world".to_string())?;
        self.bench.is_sound()
    }

    /// The mixture up to the history's last call.
    pub fn finish(&mut self) -> Checked {
        while self.left > 0 {
            if self.scribbling && self.random.chance(20) {
                let random = &mut self.random;
                self.bench.scribble(|| random.draw() as u8);
            }
            let (caller, call) = mixture::next_call(&mut self.random, &self.bench.world, &self.tally.seen);
            self.take(caller, call)?;
        }
        self.bench.is_sound()
    }
}
