//! The starts of the pairs: worlds in which the three terms of W5 (RULES 12.2) hold, made by real calls or
//! from elsewhere.

use super::opening::{one, two, Opening};
use super::untainted::{the_three_terms, threads, untainted, untainted_threads, with_level};
use crate::bench::Checked;
use flytewood_kernel::AREA_LEN;
use flytewood_model::ask::*;
use flytewood_model::book::books::any_book;
use flytewood_model::book::laid::laid;
use flytewood_model::book::place::Order;
use flytewood_model::book::spelt;
use flytewood_model::labels::*;
use flytewood_model::model::{Body, World, LAST_FIRST_NUMBER};
use flytewood_model::random::Random;

type Build = fn(&mut Opening) -> Checked;

/// The themes whose starts are made by calls; one more is a book from elsewhere.
const BUILDS: [(&str, Build); 10] = [
    ("rooms", rooms),
    ("rooms in rooms", rooms_in_rooms),
    ("shared segments", shared_segments),
    ("gates", gates),
    ("the root full", root_full),
    ("a crowded room", crowded_room),
    ("a category that was never issued", never_issued),
    ("tainted by default", by_default),
    ("labels of eight pairs", eight_pairs),
    ("the numbers end", few_things),
];

pub const THEMES: usize = BUILDS.len() + 1;
/// How many numbers a book from elsewhere must have left.
const NUMBERS_NEEDED: u64 = 120;

/// The two areas of the first history, and v.
pub struct Start {
    pub theme: &'static str,
    pub v: u64,
    pub book: Vec<u8>,
    pub area: Vec<u8>,
}

pub fn start(seed: u64, random: &mut Random) -> Result<Start, String> {
    let theme = (seed % THEMES as u64) as usize;
    if theme == BUILDS.len() {
        return Ok(from_elsewhere(random));
    }
    let (name, build) = BUILDS[theme];
    let first = first_number(random, name);
    let mut opening = Opening::start(first, random)?;
    build(&mut opening).map_err(|error| format!("{}: {}", name, error))?;
    let (book, area) = (opening.side.book.bytes().to_vec(), opening.side.area.bytes().to_vec());
    Ok(Start { theme: name, v: opening.v, book, area })
}

fn first_number(random: &mut Random, name: &str) -> u64 {
    if name == "the numbers end" {
        return LAST_FIRST_NUMBER - random.between(60, 100);
    }
    match random.below(4) {
        0 => random.between(1, 20),
        1 => 100,
        2 => random.between(1 << 32, 1 << 40),
        _ => LAST_FIRST_NUMBER - random.between(1000, 5000),
    }
}

fn rooms(opening: &mut Opening) -> Checked {
    opening.issue()?;
    if opening.random.chance(40) {
        opening.issue_another()?;
    }
    opening.household()?;
    opening.furnish(14)?;
    opening.give_up()
}

fn few_things(opening: &mut Opening) -> Checked {
    opening.issue()?;
    opening.household()?;
    opening.furnish(3)?;
    opening.give_up()
}

/// Each tainted container in the one before, with a thread in it.
fn rooms_in_rooms(opening: &mut Opening) -> Checked {
    opening.issue()?;
    opening.household()?;
    let mut d = opening.root;
    let mut quota = opening.random.between(40, 90);
    while quota > 4 {
        let label = opening.tainted_label();
        d = opening.container(d, label, 0, quota)?.ok_or("no room in a room")?;
        opening.thread(d, label)?;
        quota -= opening.random.between(3, 20).min(quota);
    }
    opening.furnish(6)?;
    opening.give_up()
}

/// Fixed segments of either sort with several links.
fn shared_segments(opening: &mut Opening) -> Checked {
    opening.issue()?;
    opening.household()?;
    let root = opening.root;
    let shelves = [opening.container(root, one(), 0, 20)?, opening.container(root, one(), 4, 20)?];
    let label = opening.tainted_label();
    let room = opening.container(root, label, 0, 25)?.ok_or("no room")?;
    opening.thread(room, label)?;
    for place in 0..5 {
        let label = if place < 3 { one() } else { label };
        let s = opening.segment(root, label, 3)?.ok_or("no segment in the root")?;
        opening.fix(root, s)?;
        for shelf in shelves.iter().flatten().filter(|_| place != 0) {
            opening.link(root, s, *shelf)?;
        }
        if place >= 3 {
            opening.link(root, s, room)?;
        }
    }
    opening.furnish(5)?;
    opening.give_up()
}

/// Gates of either sort that either sort may enter; and one that passed star in v on, gone with its guest.
fn gates(opening: &mut Opening) -> Checked {
    opening.issue()?;
    opening.household()?;
    let (root, owner, v) = (opening.root, opening.owner, opening.v);
    let high = Label::of(LEVEL_2, &[(v, LEVEL_3)]);
    let star = Label::of(LEVEL_1, &[(v, STAR)]);
    let passing = opening.grant(owner, gate(root, star, high, 3))?;
    let guest = opening.grant(owner, thread(root, one(), two()))?;
    opening.grant(guest, enter(root, passing, star, high, one()))?;
    opening.grant(guest, segment(root, Label::of(LEVEL_1, &[(v, LEVEL_3)]), 2))?;
    opening.grant(owner, unreference(root, passing))?;
    if opening.random.chance(50) {
        opening.grant(owner, unreference(root, guest))?;
    } else {
        opening.grant(guest, set_label(one()))?;
    }
    let room = opening.tainted_label();
    let room = opening.container(root, room, 0, 12)?.ok_or("no room")?;
    for label in [one(), opening.plain_label(), opening.tainted_label(), opening.tainted_label()].iter() {
        opening.grant(owner, gate(root, *label, high, 5))?;
    }
    let label = opening.tainted_label();
    opening.gate(room, label)?;
    opening.furnish(6)?;
    opening.give_up()
}

/// Small things of either sort until hardly a unit is left.
fn root_full(opening: &mut Opening) -> Checked {
    opening.issue()?;
    opening.household()?;
    let root = opening.root;
    let left = opening.random.below(5);
    while opening.world().spare(root) > left {
        let room = opening.world().spare(root) - left;
        let quota = opening.random.between(1, 30).min(room);
        let label = if opening.random.chance(50) { opening.tainted_label() } else { one() };
        match opening.random.below(4) {
            0 => drop(opening.thread(root, label)?),
            1 => drop(opening.segment(root, label, quota)?),
            _ => drop(opening.container(root, label, 0, quota)?),
        }
    }
    opening.furnish(5)?;
    opening.give_up()
}

/// Most rows are in use, by things that only tainted threads reach; they may free most of them at once.
fn crowded_room(opening: &mut Opening) -> Checked {
    opening.issue()?;
    opening.household()?;
    let (root, label) = (opening.root, opening.tainted_label());
    let quota = opening.random.between(20, 140);
    let outer = opening.container(root, label, 0, quota)?.ok_or("no room")?;
    opening.thread(outer, label)?;
    let crowd = if opening.random.chance(60) {
        opening.container(outer, label, 0, quota - 6)?.ok_or("no room in a room")?
    } else {
        outer
    };
    let left = opening.random.below(6);
    while opening.world().spare(crowd) > left {
        match opening.random.below(6) {
            0 => drop(opening.thread(crowd, label)?),
            1 => drop(opening.gate(crowd, label)?),
            2 | 3 => drop(opening.container(crowd, label, 0, 1)?),
            _ => drop(opening.segment(crowd, label, 1)?),
        }
    }
    opening.give_up()
}

/// RULES 2.16: "That call 1 has issued a category is not asked.": nobody ever held star in this one.
fn never_issued(opening: &mut Opening) -> Checked {
    let refused = opening.world().next;
    opening.take(opening.owner, look(0, 0))?;
    let lowest = 1;
    opening.v = opening.random.pick(&[opening.root, opening.owner, refused, lowest]);
    opening.tainted = vec![Label::of(LEVEL_1, &[(opening.v, LEVEL_2)])];
    if opening.random.chance(50) {
        opening.issue_another()?;
    }
    opening.household()?;
    opening.furnish(12)
}

/// Labels whose default is 2: tainted in every category that they do not name, so in v unless they say.
fn by_default(opening: &mut Opening) -> Checked {
    opening.issue()?;
    let v = opening.v;
    let lowered = Label::of(LEVEL_2, &[(v, LEVEL_1)]);
    opening.plain.extend([lowered, lowered, Label::of(LEVEL_2, &[(v, LEVEL_0)])].iter());
    opening.tainted.extend([two(), two(), Label::of(LEVEL_2, &[(v, LEVEL_3)])].iter());
    opening.household()?;
    let root = opening.root;
    for label in [lowered, two(), Label::of(LEVEL_2, &[(v, LEVEL_3)])].iter() {
        opening.thread(root, *label)?;
        let room = opening.container(root, *label, 0, 20)?.ok_or("no room")?;
        opening.thread(room, *label)?;
    }
    opening.furnish(10)?;
    opening.give_up()
}

/// The owner has up to seven categories beside v, and the labels name most of them.
fn eight_pairs(opening: &mut Opening) -> Checked {
    opening.issue()?;
    let v = opening.v;
    let mut others = Vec::new();
    for _ in 0..opening.random.between(5, 7) {
        others.push(opening.grant(opening.owner, category())?);
    }
    let pairs: Vec<(u64, u8)> =
        others.iter().map(|w| (*w, opening.random.pick(&[LEVEL_2, LEVEL_3]))).collect();
    let secret = Label::of(LEVEL_1, &pairs);
    let stars = Label::of(LEVEL_1, &others.iter().map(|w| (*w, STAR)).collect::<Vec<(u64, u8)>>());
    let mut high: Vec<(u64, u8)> = others.iter().map(|w| (*w, LEVEL_3)).collect();
    high.insert(0, (v, LEVEL_3));
    opening.clearances.insert(0, Label::of(LEVEL_2, &high));
    opening.household()?;
    let tainted = |label: &Label| with_level(label, v, LEVEL_3).expect("eight pairs at most");
    for label in [secret, stars, tainted(&secret), tainted(&stars)].iter() {
        opening.thread(opening.root, *label)?;
        opening.gate(opening.root, *label)?;
    }
    opening.plain.push(secret);
    opening.tainted.push(tainted(&secret));
    opening.container(opening.root, secret, 0, 20)?;
    opening.container(opening.root, tainted(&secret), 0, 20)?;
    opening.furnish(8)?;
    opening.give_up()
}

/// A book that the kernel never wrote, its labels changed in v so that the terms hold.
fn from_elsewhere(random: &mut Random) -> Start {
    loop {
        let book = any_book(random);
        let area: Vec<u8> = (0..AREA_LEN).map(|_| random.draw() as u8).collect();
        let world = spelt::world(&book, &area);
        let v = some_category(random, &world);
        if let Some(world) = suited(random, &world, v) {
            let (book, area) = laid(random, &world, Order::Shuffled, 10);
            return Start { theme: "a book from elsewhere", v, book, area };
        }
    }
}

/// One that some label names, or any number.
fn some_category(random: &mut Random, world: &World) -> u64 {
    let named: Vec<u64> = world.objects.values().flat_map(|object| object.label.categories()).collect();
    if named.is_empty() || random.chance(20) {
        random.between(1, world.next - 1)
    } else {
        random.pick(&named)
    }
}

/// The same world with other levels in v, going down from the root; many labels become plain ones, so that
/// calls are granted. Nothing where the numbers end too soon or threads of either sort are missing.
fn suited(random: &mut Random, world: &World, v: u64) -> Option<World> {
    let mut suited = world.clone();
    for id in from_the_root(world) {
        let in_tainted = world.holders_of(id).into_iter().any(|d| !untainted(&suited.objects[&d], v));
        let is_root = world.holders_of(id).is_empty();
        let level = match random.below(10) {
            0..=5 if !in_tainted => LEVEL_1,
            6 if !in_tainted => LEVEL_0,
            _ if is_root => LEVEL_1,
            _ => random.pick(&[LEVEL_2, LEVEL_3]),
        };
        let tame = random.chance(70);
        relabel(&mut suited, id, v, level, tame).or_else(|| relabel(&mut suited, id, v, level, true))?;
    }
    let enough = suited.next + NUMBERS_NEEDED < PAST_THE_END;
    let plain = untainted_threads(&suited, v).len();
    let either = plain > 0 && threads(&suited).len() > plain;
    let holds = the_three_terms(&suited, v).is_ok() && suited.sound();
    if enough && either && holds {
        Some(suited)
    } else {
        None
    }
}

/// Every object after the containers that it is linked in.
fn from_the_root(world: &World) -> Vec<u64> {
    let mut order: Vec<u64> = Vec::new();
    while order.len() < world.objects.len() {
        let ready = |id: &u64| world.holders_of(*id).iter().all(|d| order.contains(d));
        let left = world.objects.keys().copied().filter(|id| !order.contains(id));
        let next: Vec<u64> = left.filter(ready).collect();
        order.extend(next);
    }
    order
}

/// Nothing where the label or the clearance has no room for v.
fn relabel(world: &mut World, id: u64, v: u64, level: u8, tame: bool) -> Option<()> {
    let object = world.objects.get_mut(&id)?;
    let label = if tame { one() } else { object.label };
    object.label = with_level(&label, v, level)?;
    let top = |clearance: &Label| {
        let clearance = if tame { two() } else { *clearance };
        with_level(&clearance, v, clearance.level(v).max(if tame { LEVEL_3 } else { level }))
    };
    match &mut object.body {
        Body::Thread { clearance } | Body::Gate { clearance, .. } => *clearance = top(clearance)?,
        _ => {}
    }
    Some(())
}

#[cfg(test)]
mod tests {
    use super::*;

    #[test]
    fn every_theme_keeps_the_three_terms() {
        for seed in 0..5 * THEMES as u64 {
            let mut random = Random::new(seed);
            let start = start(seed, &mut random).expect("a start");
            let world = spelt::world(&start.book, &start.area);
            assert_eq!(the_three_terms(&world, start.v), Ok(()), "{}", start.theme);
            assert!(!untainted_threads(&world, start.v).is_empty());
        }
    }
}
