//! The calls of the two histories, drawn to suit a world: what W5 (docs/RULES.md, section 12) is about, and
//! the mixture of other runs.

use super::untainted::{threads, untainted, untainted_threads, with_level};
use crate::mixture::{draw_of, fill_in};
use flytewood_model::ask::*;
use flytewood_model::coverage::Seen;
use flytewood_model::labels::*;
use flytewood_model::model::{Body, Call, Kind, Object, World, GRANTED};
use flytewood_model::random::Random;

const GRANTS_WANTED: u64 = 55;
/// How many calls are drawn in search of a granted one, and of a refusal that was seldom given in this pair.
const DRAWN_FOR_A_GRANT: usize = 4;
const DRAWN_FOR_A_REFUSAL: usize = 3;
/// How many calls in a hundred come from the mixture.
const FROM_THE_MIXTURE: u64 = 35;

/// The caller, its world, and the world of the other history at this number.
struct Hand<'a> {
    random: &'a mut Random,
    world: &'a World,
    other: &'a World,
    v: u64,
    id: u64,
    label: Label,
    clearance: Label,
}

type Move = fn(&mut Hand) -> Option<Call>;

/// What stands here twice is drawn twice as often.
const UNTAINTED_MOVES: [Move; 22] = [
    look_at_a_tainted_thread,
    look_at_a_tainted_thread,
    look_at_something_tainted,
    name_a_container_of_one_world,
    name_a_container_of_one_world,
    name_a_tainted_container,
    cut_a_tainted_container,
    move_into_something_tainted,
    move_into_something_tainted,
    fix_something_tainted,
    link_something_tainted,
    read_a_segment,
    read_a_segment,
    write_a_segment,
    resize_a_segment,
    resize_a_segment,
    create_alike,
    create_alike,
    create_tainted,
    rise,
    enter_a_gate,
    cut_a_shared_segment,
];

const TAINTED_MOVES: [Move; 22] = [
    create_in_a_room,
    create_in_a_room,
    create_in_a_room,
    create_in_a_room,
    write_a_segment,
    write_a_segment,
    resize_a_segment,
    resize_a_segment,
    read_a_segment,
    link_an_untainted_segment,
    link_an_untainted_segment,
    move_within_a_room,
    move_within_a_room,
    fix_within_a_room,
    cut_within_a_room,
    cut_itself,
    rise,
    rise,
    sink,
    touch_the_untainted,
    touch_the_untainted,
    enter_a_gate,
];

/// The call of an untainted caller, the same in both histories: it suits the first one's world.
pub fn untainted_call(random: &mut Random, worlds: [&World; 2], v: u64, caller: u64, here: &Seen) -> Call {
    let mut hand = Hand::of(random, worlds, v, caller);
    let wants_grant = hand.random.chance(GRANTS_WANTED);
    if wants_grant {
        hand.granted(&UNTAINTED_MOVES)
    } else {
        hand.rarest_refusal(&UNTAINTED_MOVES, here)
    }
}

/// The call of anybody else, in one of the histories.
pub fn tainted_call(random: &mut Random, worlds: [&World; 2], v: u64, caller: u64) -> Call {
    let mut hand = Hand::of(random, worlds, v, caller);
    if hand.random.chance(70) {
        hand.granted(&TAINTED_MOVES)
    } else {
        hand.draw(&TAINTED_MOVES)
    }
}

/// The same of one who fills the rooms with small things.
pub fn busy_call(random: &mut Random, worlds: [&World; 2], v: u64, caller: u64) -> Call {
    let mut hand = Hand::of(random, worlds, v, caller);
    match crowd_a_room(&mut hand) {
        Some(mut call) if hand.random.chance(60) => {
            fill_in(hand.random, &mut call);
            call
        }
        _ => tainted_call(random, worlds, v, caller),
    }
}

impl<'a> Hand<'a> {
    /// Plain labels for a caller that is no live thread.
    fn of(random: &'a mut Random, worlds: [&'a World; 2], v: u64, id: u64) -> Hand<'a> {
        let (label, clearance) = match worlds[0].objects.get(&id) {
            Some(Object { label, body: Body::Thread { clearance }, .. }) => (*label, *clearance),
            _ => (Label::plain(LEVEL_1), Label::plain(LEVEL_2)),
        };
        Hand { random, world: worlds[0], other: worlds[1], v, id, label, clearance }
    }

    fn draw(&mut self, moves: &[Move]) -> Call {
        if !self.random.chance(FROM_THE_MIXTURE) {
            let drawn = self.random.pick(moves);
            if let Some(mut call) = drawn(self) {
                fill_in(self.random, &mut call);
                return call;
            }
        }
        let number = self.random.between(1, 16);
        draw_of(self.random, self.world, self.id, number)
    }

    /// What the model answers, and whether threads of either sort are left.
    fn judged(&mut self, call: &Call) -> (u64, bool) {
        let mut after = self.world.clone();
        let answer = after.call(self.id, call).answer;
        let plain = untainted_threads(&after, self.v).len();
        let either = plain > 0 && threads(&after).len() > plain;
        (answer, either || self.random.chance(3))
    }

    fn granted(&mut self, moves: &[Move]) -> Call {
        let mut call = self.draw(moves);
        for _ in 1..DRAWN_FOR_A_GRANT {
            if self.judged(&call) == (GRANTED, true) {
                break;
            }
            call = self.draw(moves);
        }
        call
    }

    fn rarest_refusal(&mut self, moves: &[Move], here: &Seen) -> Call {
        let mut drawn = Vec::new();
        for _ in 0..DRAWN_FOR_A_REFUSAL {
            let call = self.draw(moves);
            let (answer, either) = self.judged(&call);
            let times = here.get(&(call.number(), answer)).copied().unwrap_or(0);
            drawn.push(((answer == GRANTED, !either, times), call));
        }
        let rarest = drawn.into_iter().min_by_key(|(cost, _)| *cost);
        rarest.expect("something was drawn").1
    }

    fn plain(&self, id: u64) -> bool {
        untainted(&self.world.objects[&id], self.v)
    }

    fn kind(&self, id: u64) -> Kind {
        self.world.objects[&id].kind()
    }

    fn one_of<T: Clone>(&mut self, all: &[T]) -> Option<T> {
        if all.is_empty() {
            None
        } else {
            Some(self.random.pick(all))
        }
    }

    /// An entry that suits, mostly of a container that the caller may read.
    fn entry(&mut self, suits: impl Fn(&Hand, u64, u64) -> bool) -> Option<(u64, u64)> {
        let all: Vec<(u64, u64)> =
            self.world.links.iter().copied().filter(|(d, o)| suits(self, *d, *o)).collect();
        let mut entry = self.one_of(&all)?;
        for _ in 0..3 {
            if may_read(&self.label, &self.world.objects[&entry.0].label) {
                break;
            }
            entry = self.random.pick(&all);
        }
        Some(entry)
    }

    /// A container that suits and that the caller may write.
    fn container_to_write(&mut self, suits: impl Fn(&Hand, u64) -> bool) -> Option<u64> {
        let all = self.world.containers().into_iter();
        let label = |d: &u64| self.world.objects[d].label;
        let all: Vec<u64> = all.filter(|d| suits(self, *d) && may_write(&self.label, &label(d))).collect();
        self.one_of(&all)
    }

    /// The caller's label without star, which anybody's things may have.
    fn starless(&self) -> Label {
        let pairs = self.label.pairs();
        let pairs: Vec<(u64, u8)> = pairs.into_iter().filter(|(_, code)| *code != STAR).collect();
        Label::of(self.label.default, &pairs)
    }

    /// A higher level in v, as far as the clearance goes.
    fn raised(&mut self, label: &Label) -> Option<Label> {
        let codes: Vec<u8> = (label.level(self.v) + 1..=self.clearance.level(self.v)).collect();
        let code = self.one_of(&codes)?;
        with_level(label, self.v, code)
    }

    fn create(&mut self, d: u64, label: Label) -> Call {
        let clearance = if self.random.chance(70) { self.clearance } else { label };
        let quota = self.random.pick(&[1, 1, 2, 3, 4, 6, 9]);
        match self.random.below(8) {
            0..=2 => {
                let mask = self.random.pick(&[0, 0, 0, 0, 0, 1, 4, 8]);
                container(d, label, mask, quota)
            }
            3..=5 => segment(d, label, quota),
            6 => thread(d, label, clearance),
            _ => gate(d, label, clearance, 7),
        }
    }

    /// A part of so many bytes.
    fn part(&mut self, length: u64) -> (u64, u64, u64) {
        if length == 0 {
            return (0, 0, 0);
        }
        let at = self.random.below(length);
        let count = self.random.between(0, (64 - at % 64).min(length - at));
        (at / 64, at % 64, count)
    }

    /// A segment as tainted as the caller.
    fn own_segment(&mut self) -> Option<(u64, u64)> {
        let own = self.label.level(self.v) <= LEVEL_1;
        self.entry(|hand, _, o| hand.kind(o) == Kind::Segment && hand.plain(o) == own)
    }
}

fn look_at_a_tainted_thread(hand: &mut Hand) -> Option<Call> {
    let (d, o) = hand.entry(|hand, d, o| hand.kind(o) == Kind::Thread && hand.plain(d) && !hand.plain(o))?;
    Some(look(d, o))
}

fn look_at_something_tainted(hand: &mut Hand) -> Option<Call> {
    let (d, o) = hand.entry(|hand, d, o| hand.plain(d) && !hand.plain(o))?;
    Some(look(d, o))
}

/// Unreadable in one history and absent in the other: that it exists would show if the answers differed
/// (RULES 10.3, (a)).
fn name_a_container_of_one_world(hand: &mut Hand) -> Option<Call> {
    let (here, there) = (hand.world.containers(), hand.other.containers());
    let mut of_one: Vec<u64> = here.iter().copied().filter(|d| !there.contains(d)).collect();
    of_one.extend(there.iter().copied().filter(|d| !here.contains(d)));
    let d = hand.one_of(&of_one)?;
    Some(name(hand, d))
}

fn name_a_tainted_container(hand: &mut Hand) -> Option<Call> {
    let all: Vec<u64> = hand.world.containers().into_iter().filter(|d| !hand.plain(*d)).collect();
    let d = hand.one_of(&all)?;
    Some(name(hand, d))
}

/// A call that names this container, and something in it.
fn name(hand: &mut Hand, d: u64) -> Call {
    let mut inside = hand.world.linked_in(d);
    inside.extend(hand.other.linked_in(d));
    let o = hand.one_of(&inside).unwrap_or(d);
    match hand.random.below(9) {
        0 | 1 => look(d, o),
        2 => look(d, d),
        3 => read(d, o, 0, 0, 1),
        4 => unreference(d, o),
        5 => move_quota(d, o, 1),
        6 => {
            let label = hand.starless();
            hand.create(d, label)
        }
        7 => write(d, o, 0, 0, &[1]),
        _ => match hand.entry(|hand, d, o| hand.kind(o) == Kind::Segment && hand.plain(d)) {
            Some((d1, s)) => link(d1, s, d),
            None => fix(d, o),
        },
    }
}

/// RULES 8.8: "If it is a container, all links in it go too, ..", whatever they lead to.
fn cut_a_tainted_container(hand: &mut Hand) -> Option<Call> {
    let room = |hand: &Hand, o: u64| hand.kind(o) == Kind::Container && !hand.plain(o);
    let (d, o) = hand.entry(|hand, d, o| hand.plain(d) && room(hand, o))?;
    Some(unreference(d, o))
}

fn move_into_something_tainted(hand: &mut Hand) -> Option<Call> {
    let holds = |hand: &Hand, o: u64| matches!(hand.kind(o), Kind::Container | Kind::Segment);
    let (d, o) = hand.entry(|hand, d, o| hand.plain(d) && !hand.plain(o) && holds(hand, o))?;
    let n = hand.random.pick(&[1, 1, 1, 2, 3, 5, 0, -1, -4, -8, -16, -30, 200]);
    Some(move_quota(d, o, n))
}

fn tainted_segment_outside(hand: &mut Hand) -> Option<(u64, u64)> {
    hand.entry(|hand, d, o| hand.plain(d) && !hand.plain(o) && hand.kind(o) == Kind::Segment)
}

fn fix_something_tainted(hand: &mut Hand) -> Option<Call> {
    let (d, o) = tainted_segment_outside(hand)?;
    Some(fix(d, o))
}

fn link_something_tainted(hand: &mut Hand) -> Option<Call> {
    let (d1, o) = tainted_segment_outside(hand)?;
    let d = hand.container_to_write(|hand, d| hand.plain(d))?;
    Some(link(d1, o, d))
}

fn read_a_segment(hand: &mut Hand) -> Option<Call> {
    let (d, s) = hand.entry(|hand, _, o| hand.kind(o) == Kind::Segment)?;
    let (k, from, count) = hand.part(hand.world.objects[&s].bytes().len() as u64);
    Some(read(d, s, k, from, count))
}

fn write_a_segment(hand: &mut Hand) -> Option<Call> {
    let (d, s) = hand.own_segment()?;
    let (k, from, count) = hand.part(hand.world.objects[&s].bytes().len() as u64);
    let bytes: Vec<u8> = (0..count).map(|_| hand.random.draw() as u8).collect();
    Some(write(d, s, k, from, &bytes))
}

fn resize_a_segment(hand: &mut Hand) -> Option<Call> {
    let (d, s) = hand.own_segment()?;
    let most = (hand.world.objects[&s].quota - 1) * 64;
    let length = if hand.random.chance(90) { hand.random.between(0, most) } else { most + 1 };
    Some(resize(d, s, length))
}

/// With the caller's label, where the caller may write.
fn create_alike(hand: &mut Hand) -> Option<Call> {
    let d = hand.container_to_write(|_, _| true)?;
    let label = hand.starless();
    Some(hand.create(d, label))
}

fn create_tainted(hand: &mut Hand) -> Option<Call> {
    let d = hand.container_to_write(|hand, d| hand.plain(d))?;
    let label = hand.starless();
    let label = hand.raised(&label)?;
    Some(hand.create(d, label))
}

fn create_in_a_room(hand: &mut Hand) -> Option<Call> {
    let d = hand.container_to_write(|hand, d| !hand.plain(d))?;
    let label = hand.starless();
    let label = if hand.random.chance(25) { hand.raised(&label).unwrap_or(label) } else { label };
    Some(hand.create(d, label))
}

fn crowd_a_room(hand: &mut Hand) -> Option<Call> {
    let d = hand.container_to_write(|hand, d| !hand.plain(d) && hand.world.spare(d) > 0)?;
    let label = hand.starless();
    Some(if hand.random.chance(50) { container(d, label, 0, 1) } else { segment(d, label, 1) })
}

/// The caller becomes more tainted; seldom one that is not yet.
fn rise(hand: &mut Hand) -> Option<Call> {
    let label = hand.label;
    let plain = label.level(hand.v) <= LEVEL_1;
    let label = hand.raised(&label)?;
    if plain && hand.random.chance(60) {
        return None;
    }
    Some(set_label(label))
}

/// Refused, since T does not flow to L (RULES 8.2).
fn sink(hand: &mut Hand) -> Option<Call> {
    let label = hand.label;
    let code = hand.random.pick(&[STAR, LEVEL_0, LEVEL_1, LEVEL_2]);
    with_level(&label, hand.v, code).map(set_label)
}

fn enter_a_gate(hand: &mut Hand) -> Option<Call> {
    Some(draw_of(hand.random, hand.world, hand.id, 15))
}

/// One that tainted containers hold too, in either history, so that it may live on there.
fn cut_a_shared_segment(hand: &mut Hand) -> Option<Call> {
    let shared = |hand: &Hand, o: u64| {
        let links = hand.world.links.iter().map(|link| (hand.world, link));
        let links = links.chain(hand.other.links.iter().map(|link| (hand.other, link)));
        let mut holders = links.filter(|(_, (_, held))| *held == o);
        holders.any(|(world, (d, _))| !untainted(&world.objects[d], hand.v))
    };
    let segment = |hand: &Hand, o: u64| hand.kind(o) == Kind::Segment && hand.plain(o);
    let (d, o) = hand.entry(|hand, d, o| hand.plain(d) && segment(hand, o) && shared(hand, o))?;
    Some(unreference(d, o))
}

fn link_an_untainted_segment(hand: &mut Hand) -> Option<Call> {
    let fixed = |hand: &Hand, o: u64| hand.world.objects[&o].is_fixed() && hand.plain(o);
    let (d1, o) = hand.entry(|hand, d, o| hand.plain(d) && fixed(hand, o))?;
    let d = hand.container_to_write(|hand, d| !hand.plain(d))?;
    Some(link(d1, o, d))
}

fn move_within_a_room(hand: &mut Hand) -> Option<Call> {
    let holds = |hand: &Hand, o: u64| matches!(hand.kind(o), Kind::Container | Kind::Segment);
    let (d, o) = hand.entry(|hand, d, o| !hand.plain(d) && holds(hand, o))?;
    let n = hand.random.pick(&[1, 1, 2, 3, -1, -1, -2, 8]);
    Some(move_quota(d, o, n))
}

fn fix_within_a_room(hand: &mut Hand) -> Option<Call> {
    let (d, o) = hand.entry(|hand, d, o| !hand.plain(d) && hand.kind(o) == Kind::Segment)?;
    Some(fix(d, o))
}

fn cut_within_a_room(hand: &mut Hand) -> Option<Call> {
    let (d, o) = hand.entry(|hand, d, _| !hand.plain(d))?;
    Some(unreference(d, o))
}

/// RULES 8.8: "The caller may free itself or what it is linked in; its next call then answers 3."
fn cut_itself(hand: &mut Hand) -> Option<Call> {
    if hand.random.chance(70) {
        return None;
    }
    let id = hand.id;
    let (d, o) = hand.entry(|_, _, o| o == id)?;
    let above = hand.entry(|hand, above, held| held == d && !hand.plain(above));
    let (d, o) = if hand.random.chance(30) { above.unwrap_or((d, o)) } else { (d, o) };
    Some(unreference(d, o))
}

/// What a tainted caller must not do; every one of them is refused.
fn touch_the_untainted(hand: &mut Hand) -> Option<Call> {
    let (d, o) = hand.entry(|hand, d, _| hand.plain(d))?;
    let label = hand.starless();
    Some(match hand.random.below(6) {
        0 => write(d, o, 0, 0, &[7]),
        1 => resize(d, o, 1),
        2 => unreference(d, o),
        3 => move_quota(d, o, 1),
        4 => fix(d, o),
        _ => hand.create(d, label),
    })
}
