//! Drawn histories: first calls that build something, then those whose call and answer were seen least.

use crate::coverage::{count_one, Seen};
use crate::drawn::Drawer;
use crate::history::{History, Script};
use crate::model::{Call, Kind, World, GRANTED, LABEL_CONDITION, MALFORMED};
use crate::random::Random;

/// How many calls are drawn for each that is taken.
const DRAWN_FOR_EACH: usize = 40;
/// How many calls at the beginning are granted ones.
const BUILDING: usize = 9;
/// The longest segment in a short history.
const LONGEST: u64 = 130;

pub fn count(seen: &mut Seen, history: &History) {
    for turn in &history.turns {
        count_one(seen, turn.call.number(), turn.outcome.answer);
    }
}

/// A history of so many calls.
pub fn steered(random: &mut Random, title: &str, first: u64, calls: usize, seen: &mut Seen) -> History {
    let mut script = Script::new(title, first);
    let mut here = Seen::new();
    for i in 0..calls {
        let choice = Choice { world: &script.world, here: &here, seen, building: i < BUILDING };
        let (caller, call) = choice.cheapest(random);
        let number = call.number();
        let outcome = script.take(caller, call);
        count_one(&mut here, number, outcome.answer);
        count_one(seen, number, outcome.answer);
    }
    script.end()
}

/// What a call's cost is judged by.
struct Choice<'a> {
    world: &'a World,
    here: &'a Seen,
    seen: &'a Seen,
    building: bool,
}

impl Choice<'_> {
    fn cheapest(&self, random: &mut Random) -> (u64, Call) {
        let drawn: Vec<(u64, Call)> = (0..DRAWN_FOR_EACH)
            .map(|_| Drawer { random: &mut *random, world: self.world, longest: LONGEST }.turn())
            .collect();
        let cheapest = drawn.into_iter().min_by_key(|(caller, call)| self.cost(*caller, call));
        cheapest.expect("something was drawn")
    }

    /// Long outputs are hardly ever wanted, and a thread must be left to call.
    fn cost(&self, caller: u64, call: &Call) -> usize {
        let mut after = self.world.clone();
        let outcome = after.call(caller, call);
        let cell = (call.number(), outcome.answer);
        let times = |seen: &Seen| seen.get(&cell).copied().unwrap_or(0);
        let rarity = 20 * times(self.here) + if self.building { 0 } else { times(self.seen) };
        let threads = after.objects.values().filter(|object| object.kind() == Kind::Thread).count();
        let nobody_left = if threads == 0 { 10_000 } else { 0 };
        let idle = if after.objects == self.world.objects { 15 } else { 0 };
        rarity + 2 * outcome.output.len() + nobody_left + idle + self.plainness(call, outcome.answer)
    }

    /// Refusals that hardly look at the world are the least wanted, and none are while there is little in it.
    fn plainness(&self, call: &Call, answer: u64) -> usize {
        let builds = !matches!(call.number(), 2 | 3 | 8);
        match answer {
            GRANTED if self.building && !builds => 200,
            GRANTED => 0,
            _ if self.building => 1_000,
            answer if answer <= MALFORMED => 60,
            answer if answer < LABEL_CONDITION => 40,
            _ => 10,
        }
    }
}
