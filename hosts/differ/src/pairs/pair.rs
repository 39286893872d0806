//! One pair: two histories from one start, call by call, and what untainted callers see of them.

use super::features::{Turn, FEATURES};
use super::leaks::Leak;
use super::moves::{busy_call, tainted_call, untainted_call};
use super::side::{Answered, Side};
use super::starts::{start, Start};
use super::told::told;
use super::untainted::{the_three_terms, threads, untainted_thread, untainted_threads, Shown};
use crate::ask::Given;
use crate::bench::{need, Checked};
use flytewood_model::ask::look;
use flytewood_model::book::laid::laid;
use flytewood_model::book::place::Order;
use flytewood_model::coverage::{count_one, Seen};
use flytewood_model::model::{Call, World, GRANTED};
use flytewood_model::random::Random;

/// How many turns a pair has.
const FEWEST_TURNS: u64 = 60;
const MOST_TURNS: u64 = 100;
/// In so many pairs of a hundred, tainted callers do nothing at all in the second history.
const IDLE: u64 = 20;
/// How many turns go by between two looks at the soundness of both books.
const SOUND_EVERY: u64 = 40;

/// What all pairs together came to.
pub struct Tally {
    pub pairs: usize,
    pub turns: usize,
    /// The calls of untainted callers by their answers.
    pub compared: Seen,
    pub others: usize,
    pub others_differing: usize,
    /// The turns after which the two worlds, tainted things and all, were not the same.
    pub apart: usize,
    pub features: [usize; FEATURES.len()],
}

impl Tally {
    pub fn new() -> Tally {
        Tally {
            pairs: 0,
            turns: 0,
            compared: Seen::new(),
            others: 0,
            others_differing: 0,
            apart: 0,
            features: [0; FEATURES.len()],
        }
    }

    fn count(&mut self, turn: &Turn) {
        self.turns += 1;
        self.apart += usize::from(turn.after[0] != turn.after[1]);
        if turn.untainted {
            count_one(&mut self.compared, turn.calls[0].number(), turn.given[0].answer);
        } else {
            self.others += 1;
            self.others_differing += usize::from(turn.calls[0] != turn.calls[1]);
        }
        for (times, (_, reached)) in self.features.iter_mut().zip(FEATURES.iter()) {
            *times += usize::from(reached(turn));
        }
    }

    pub fn granted(&self) -> usize {
        self.compared.iter().filter(|((_, answer), _)| *answer == GRANTED).map(|(_, times)| times).sum()
    }

    pub fn missing(&self) -> Vec<&'static str> {
        let never = self.features.iter().zip(FEATURES.iter()).filter(|(times, _)| **times == 0);
        never.map(|(_, (name, _))| *name).collect()
    }
}

/// The same world with its rows, links and blocks elsewhere, and anything in unused bytes.
fn anew(random: &mut Random, world: &World) -> Side {
    let order = random.pick(&[Order::Lowest, Order::Highest, Order::Shuffled, Order::Shuffled]);
    let garbage = random.pick(&[0, 3, 10]);
    let (book, area) = laid(random, world, order, garbage);
    Side::over(&book, &area)
}

struct Pair<'a> {
    sides: [Side; 2],
    v: u64,
    /// Whether tainted callers are busy in the first history and do nothing at all in the second.
    idle: bool,
    random: Random,
    /// Calls and answers of untainted callers in this pair.
    here: Seen,
    telling: bool,
    tally: &'a mut Tally,
}

/// One turn's caller, and what it asks in each history.
struct Asked {
    number: u64,
    caller: u64,
    untainted: bool,
    calls: [Call; 2],
}

impl Asked {
    fn told(&self) -> String {
        let second = if self.untainted { String::new() } else { format!("; {}", told(&self.calls[1])) };
        format!("number {}: {} asks {}{}", self.number, self.caller, told(&self.calls[0]), second)
    }
}

/// The pair of this seed, over kernels that leak if one is named; a pair that is told prints each turn.
pub fn pair(seed: u64, leak: Option<&'static Leak>, telling: bool, tally: &mut Tally) -> Checked {
    let mut random = Random::new(seed ^ 0x7061_6972);
    let start = start(seed, &mut random)?;
    let theme = start.theme;
    let in_it = |error: String| format!("pair {} ({}): {}", seed, theme, error);
    let turns = random.between(FEWEST_TURNS, MOST_TURNS);
    let mut pair = Pair::of(start, random, telling, tally).map_err(in_it)?;
    pair.sides.iter_mut().for_each(|side| side.leak = leak);
    for turn in 0..turns {
        pair.turn(turn).map_err(|error| in_it(format!("turn {}, {}", turn, error)))?;
    }
    pair.are_sound().map_err(in_it)?;
    pair.tally.pairs += 1;
    Ok(())
}

impl<'a> Pair<'a> {
    /// RULES 12.3: "Two histories go from that start." 12.6: "Which rows, links and blocks are used may
    /// differ, .."
    fn of(start: Start, mut random: Random, telling: bool, tally: &'a mut Tally) -> Result<Pair<'a>, String> {
        let first = Side::over(&start.book, &start.area);
        the_three_terms(&first.world, start.v)?;
        let second = anew(&mut random, &first.world);
        let moved = if random.chance(50) { Some(anew(&mut random, &first.world)) } else { None };
        let sides = [moved.unwrap_or(first), second];
        need(sides[0].world == sides[1].world, || "the two starts are not the same".to_string())?;
        if telling {
            println!("{}: v is {}, the next number {}", start.theme, start.v, sides[0].world.next);
        }
        let idle = random.chance(IDLE);
        let pair = Pair { sides, v: start.v, idle, random, here: Seen::new(), telling, tally };
        pair.are_sound()?;
        pair.look_the_same()?;
        Ok(pair)
    }

    fn worlds(&self) -> [&World; 2] {
        [&self.sides[0].world, &self.sides[1].world]
    }

    fn turn(&mut self, turn: u64) -> Checked {
        let asked = self.draw();
        self.take(turn, &asked).map_err(|error| format!("{}: {}", asked.told(), error))
    }

    fn draw(&mut self) -> Asked {
        let caller = self.caller();
        let untainted = untainted_thread(self.worlds()[0], caller, self.v);
        let number = self.worlds()[0].next;
        Asked { number, caller, untainted, calls: self.calls(caller, untainted) }
    }

    fn take(&mut self, turn: u64, asked: &Asked) -> Checked {
        let first = self.sides[0].ask(asked.caller, &asked.calls[0])?;
        let second = self.sides[1].ask(asked.caller, &asked.calls[1])?;
        if self.telling {
            let sort = if asked.untainted { "untainted" } else { "-" };
            let answers = (first.given.answer, second.given.answer);
            println!("{:>3} {:<9} {}: {} and {}", turn, sort, asked.told(), answers.0, answers.1);
        }
        if asked.untainted {
            the_same_was_given(&first.given, &second.given)?;
            count_one(&mut self.here, asked.calls[0].number(), first.given.answer);
        }
        self.look_the_same()?;
        self.count(asked, &first, &second);
        if turn % SOUND_EVERY == SOUND_EVERY - 1 {
            self.are_sound()?;
        }
        Ok(())
    }

    /// Mostly a live thread of either history, tainted or not; now and then any number.
    fn caller(&mut self) -> u64 {
        let [first, second] = self.worlds();
        let plain = untainted_threads(first, self.v);
        let mut tainted = threads(first);
        tainted.extend(threads(second));
        tainted.retain(|id| !plain.contains(id));
        let next = first.next;
        match self.random.below(100) {
            0..=3 => self.random.pick(&[0, next, next - 1, self.v, self.sides[0].root()]),
            4..=51 if !tainted.is_empty() => self.random.pick(&tainted),
            _ if !plain.is_empty() => self.random.pick(&plain),
            _ if !tainted.is_empty() => self.random.pick(&tainted),
            _ => next,
        }
    }

    /// RULES 12.3: "At each number the same caller calls in both, and if it is untainted it makes the same
    /// call in both. Other callers may make different calls."
    fn calls(&mut self, caller: u64, untainted: bool) -> [Call; 2] {
        let [first, second] = [&self.sides[0].world, &self.sides[1].world];
        if untainted {
            let call = untainted_call(&mut self.random, [first, second], self.v, caller, &self.here);
            return [call.clone(), call];
        }
        if self.idle {
            return [busy_call(&mut self.random, [first, second], self.v, caller), look(0, 0)];
        }
        let one = tainted_call(&mut self.random, [first, second], self.v, caller);
        if self.random.chance(8) {
            return [one.clone(), one];
        }
        let other = tainted_call(&mut self.random, [second, first], self.v, caller);
        [one, other]
    }

    /// RULES 12.5: "And each untainted object that is reached from the root through untainted containers is
    /// the same in both, with the same links in those containers."
    fn look_the_same(&self) -> Checked {
        let shown = |i: usize| Shown::of(&self.sides[i].world, self.sides[i].root(), self.v);
        shown(0).same_as(&shown(1))
    }

    fn are_sound(&self) -> Checked {
        self.sides[0].is_sound()?;
        self.sides[1].is_sound()
    }

    fn count(&mut self, asked: &Asked, first: &Answered, second: &Answered) {
        self.tally.count(&Turn {
            v: self.v,
            caller: asked.caller,
            untainted: asked.untainted,
            calls: [&asked.calls[0], &asked.calls[1]],
            given: [&first.given, &second.given],
            before: [&first.before, &second.before],
            after: [&self.sides[0].world, &self.sides[1].world],
        });
    }
}

/// RULES 12.4: "Then each call of an untainted caller gets the same answer, value and output in both." A
/// read's place may differ (12.6).
fn the_same_was_given(one: &Given, other: &Given) -> Checked {
    need((one.answer, one.value) == (other.answer, other.value), || {
        format!("{} with value {}, but {} with value {}", one.answer, one.value, other.answer, other.value)
    })?;
    need(one.output == other.output, || format!("the bytes {:?}, but {:?}", one.output, other.output))
}
