//! The byte kernel and the model answer alike, and the book spells the model's world after every call.

use flytewood_bytekernel as bytes;
use flytewood_model::ask::*;
use flytewood_model::book::laid::laid;
use flytewood_model::book::place::Order;
use flytewood_model::book::*;
use flytewood_model::coverage::Seen;
use flytewood_model::drawn::Drawer;
use flytewood_model::histories;
use flytewood_model::labels::{Label, LEVEL_1, LEVEL_2};
use flytewood_model::model::{Body, Call, Kind, Object, Outcome, World};
use flytewood_model::model::{GRANTED, MASK_FORBIDS, NOT_ENOUGH_SPARE};
use flytewood_model::random::Random;
use flytewood_model::steered::steered;
use std::collections::{BTreeMap, BTreeSet};
use std::ops::Range;

const AREA_LEN: usize = 16_384;
const CALLS: usize = 400;
const FIRST: u64 = 5;
/// The thread that the start makes.
const INIT: u64 = FIRST + 1;

struct Machine {
    book: Vec<u8>,
    area: Vec<u8>,
}

impl Machine {
    /// What stood in the areas before is not zero.
    fn start(first: u64) -> Machine {
        let mut machine = Machine { book: vec![0xA5; BOOK_LEN], area: vec![0x5A; AREA_LEN] };
        assert_eq!(bytes::start(&mut machine.book, &mut machine.area, first), GRANTED);
        machine
    }

    fn call(&mut self, caller: u64, call: &Call) -> Outcome {
        let mut output = vec![0xEE; call.output_len()];
        let reply = bytes::call(&mut self.book, &mut self.area, caller, call, &mut output);
        let (place, length) = reply.part;
        output.extend_from_slice(&self.area[place as usize..(place + length) as usize]);
        if reply.answer != GRANTED {
            output.clear();
        }
        Outcome { answer: reply.answer, value: reply.value, output }
    }

    /// The world that the two areas spell.
    fn world(&self) -> World {
        let b = &self.book;
        let rows = rows_in_use(b);
        let objects: BTreeMap<u64, Object> =
            rows.into_iter().map(|row| (get(b, ID, row), self.object(row))).collect();
        let id = |row| get(b, ID, row);
        let links: BTreeSet<(u64, u64)> =
            links_in_use(b).into_iter().map(|(from, to)| (id(from), id(to))).collect();
        World { next: get(b, NEXT, 0), objects, links }
    }

    fn object(&self, row: usize) -> Object {
        let b = &self.book;
        let text = |table: Table| b[table.place(32 * row)..table.place(32 * row + 32)].to_vec();
        let clearance = clearance_of(b, row);
        let body = match get(b, KIND, row) {
            THREAD => Body::Thread { clearance },
            GATE => Body::Gate { clearance, entry: get(b, ENTRY, row), closure: text(CLOSURE) },
            SEGMENT => Body::Segment { bytes: self.bytes(row), fixed: get(b, FIXED, row) == 1 },
            _ => Body::Container { mask: get(b, MASK, row) },
        };
        Object { label: label_of(b, row), description: text(DESCRIPTION), quota: get(b, QUOTA, row), body }
    }

    fn bytes(&self, row: usize) -> Vec<u8> {
        let b = &self.book;
        let owner = |block: usize| get(b, OWNER, block);
        let mut bytes = Vec::new();
        for index in 0..blocks_for(get(b, LEN, row)) {
            let is_it = |block: &usize| owner(*block) == row as u64 + 1 && get(b, INDEX, *block) == index;
            let block = (0..BLOCKS).find(is_it).expect("a sound book");
            bytes.extend_from_slice(&self.area[64 * block..64 * block + 64]);
        }
        bytes.truncate(get(b, LEN, row) as usize);
        bytes
    }
}

/// One call in both.
fn same(machine: &mut Machine, world: &mut World, caller: u64, call: &Call) -> Outcome {
    let before = (machine.book.clone(), machine.area.clone());
    let outcome = machine.call(caller, call);
    assert_eq!(outcome, world.call(caller, call), "{} asks {:?}", caller, call);
    assert!(sound(&machine.book), "after {:?}", call);
    assert_eq!(&machine.world(), world, "after {:?}", call);
    if outcome.answer != GRANTED {
        assert_eq!(machine.book[8..], before.0[8..]);
        assert_eq!(machine.area, before.1);
    }
    outcome
}

fn a_drawn_history(seed: u64, longest: u64, seen: &mut Seen) {
    let mut random = Random::new(seed);
    let mut world = World::start(FIRST).expect("a first number");
    let mut machine = Machine::start(FIRST);
    drawn_calls(&mut random, &mut machine, &mut world, longest, seen);
}

fn drawn_calls(random: &mut Random, machine: &mut Machine, world: &mut World, longest: u64, seen: &mut Seen) {
    for _ in 0..CALLS {
        let (caller, call) = Drawer { random: &mut *random, world, longest }.turn();
        let mut after = world.clone();
        after.call(caller, &call);
        // A history in which nobody can call, or much is lost at once, says little.
        let live = |w: &World, kind| w.objects.values().filter(|object| object.kind() == kind).count();
        if live(&after, Kind::Thread) == 0 || after.objects.len() + 4 < world.objects.len() {
            continue;
        }
        let outcome = same(machine, world, caller, &call);
        *seen.entry((call.number(), outcome.answer)).or_insert(0) += 1;
    }
}

#[test]
fn drawn_histories() {
    let mut seen = Seen::new();
    for seed in 0..60 {
        a_drawn_history(seed, if seed % 2 == 0 { 16_256 } else { 600 }, &mut seen);
    }
    for call in 1..=16 {
        assert!(seen.contains_key(&(call, GRANTED)), "call {} was never granted: {:?}", call, seen);
    }
}

/// Drawn calls on books as kernels before a request left them: on a drawn world, in which `made` then makes some things as
/// they were made before and says how many. Gives the calls with their answers.
fn drawn_on_books_from_before(seeds: Range<u64>, made: fn(&mut Random, &mut World) -> usize) -> Seen {
    let (mut seen, mut from_before) = (Seen::new(), 0);
    for seed in seeds {
        let mut random = Random::new(seed);
        let mut world = World::start(FIRST).expect("a first number");
        drawn_calls(&mut random, &mut Machine::start(FIRST), &mut world, 600, &mut Seen::new());
        from_before += made(&mut random, &mut world);
        let (book, area) = laid(&mut random, &world, Order::Shuffled, 50);
        assert!(passes(&book));
        drawn_calls(&mut random, &mut Machine { book, area }, &mut world, 600, &mut seen);
    }
    assert!(from_before > 40, "only {}", from_before);
    seen
}

/// W2: "Links already there stay, and a book holding them is still sound."
#[test]
fn drawn_histories_with_links_from_before() {
    let seen = drawn_on_books_from_before(100..200, links_from_before);
    assert!(seen.contains_key(&(9, GRANTED)) && seen.contains_key(&(9, MASK_FORBIDS)), "{:?}", seen);
}

/// Some containers that hold segments come to forbid them, with all below.
fn links_from_before(random: &mut Random, world: &mut World) -> usize {
    for container in world.containers() {
        if random.chance(30) {
            forbid_segments(world, container);
        }
    }
    let forbidden =
        |(d, o): &&(u64, u64)| world.objects[d].mask() & 4 != 0 && world.objects[o].kind() == Kind::Segment;
    world.links.iter().filter(forbidden).count()
}

fn forbid_segments(world: &mut World, container: u64) {
    if let Some(Body::Container { mask }) = world.objects.get_mut(&container).map(|o| &mut o.body) {
        *mask |= 4;
        for inner in world.linked_in(container) {
            forbid_segments(world, inner);
        }
    }
}

/// W7: "Quota 0 for a container shall mean 8 instead of 16, .."
#[test]
fn drawn_histories_with_containers_from_before() {
    let seen = drawn_on_books_from_before(200..300, containers_from_before);
    assert!(seen.contains_key(&(4, GRANTED)) && seen.contains_key(&(4, NOT_ENOUGH_SPARE)), "{:?}", seen);
}

/// Some containers come to have 16 units, as those have that were made with 0 before.
fn containers_from_before(_: &mut Random, world: &mut World) -> usize {
    world.containers().into_iter().filter(|container| as_from_before(world, *container)).count()
}

/// A container that has no more than 16 units gets them, if the one that it is in has the room.
fn as_from_before(world: &mut World, container: u64) -> bool {
    let room = world.holders_of(container).first().map_or(0, |parent| world.spare(*parent));
    let quota = &mut world.objects.get_mut(&container).expect("a live container").quota;
    let fits = (*quota..=*quota + room).contains(&CONTAINER_QUOTA_BEFORE_W7);
    if fits {
        *quota = CONTAINER_QUOTA_BEFORE_W7;
    }
    fits
}

#[test]
fn steered_histories() {
    let mut random = Random::new(77);
    let mut seen = Default::default();
    for _ in 0..40 {
        let history = steered(&mut random, "steered", FIRST, 40, &mut seen);
        replay_history(history.first, history.turns.iter().map(|turn| (turn.caller, &turn.call)));
    }
}

#[test]
fn short_histories_made_by_hand() {
    for history in histories::by_hand() {
        replay_history(history.first, history.turns.iter().map(|turn| (turn.caller, &turn.call)));
    }
}

fn replay_history<'a>(first: u64, turns: impl Iterator<Item = (u64, &'a Call)>) {
    let mut world = World::start(first).expect("a first number");
    let mut machine = Machine::start(first);
    for (caller, call) in turns {
        same(&mut machine, &mut world, caller, call);
    }
}

/// The commands of crates/book_verdicts, with the verdict taken from answer 1 of a call by nobody.
#[test]
fn verdicts_on_books() {
    let path = concat!(env!("CARGO_MANIFEST_DIR"), "/../../crates/book_verdicts/stdin");
    let commands = std::fs::read(path).expect("the commands for the verdicts on books");
    let expected = script::replay(&commands).expect("well-formed commands");
    let mut book = vec![0; BOOK_LEN];
    let mut verdicts = Vec::new();
    let mut rest = &commands[..];
    while let Some((letter, after)) = rest.split_first() {
        rest = after;
        match letter {
            b'Z' => book.fill(0),
            b'V' => verdicts.push(passes(&book)),
            _ => {
                let (write, after) = rest.split_at(13);
                rest = after;
                let at = u32::from_le_bytes([write[0], write[1], write[2], write[3]]) as usize;
                let width = usize::from(write[4]);
                book[at..at + width].copy_from_slice(&write[5..5 + width]);
            }
        }
    }
    assert_eq!(verdicts, expected);
}

fn passes(book: &[u8]) -> bool {
    let (mut copy, mut area, mut value) = (book.to_vec(), vec![0; AREA_LEN], 0);
    bytes::create_category(&mut copy, &mut area, 0, &mut value) != 1
}

/// The byte kernel and the model side by side, asked by the first thread.
struct Both {
    machine: Machine,
    world: World,
}

impl Both {
    fn start() -> Both {
        Both { machine: Machine::start(FIRST), world: World::start(FIRST).expect("a first number") }
    }

    /// The call has this answer; gives its value.
    fn says(&mut self, answer: u64, call: Call) -> u64 {
        let outcome = same(&mut self.machine, &mut self.world, INIT, &call);
        assert_eq!(outcome.answer, answer, "{:?}", call);
        outcome.value
    }

    /// An object's quota and spare, as the book has them.
    fn quota_and_spare(&self, id: u64) -> (u64, u64) {
        let b = &self.machine.book;
        let row = rows_in_use(b).into_iter().find(|row| get(b, ID, *row) == id).expect("a live object");
        let quota = get(b, QUOTA, row);
        (quota, quota - use_of(b, &links_in_use(b), row))
    }

    /// So many creates of one unit fit into the container, and then none of any kind.
    fn takes_exactly(&mut self, d: u64, units: usize) {
        for call in of_one_unit(d).into_iter().cycle().take(units) {
            self.says(GRANTED, call);
        }
        for call in of_one_unit(d) {
            self.says(NOT_ENOUGH_SPARE, call);
        }
    }
}

fn one() -> Label {
    Label::plain(LEVEL_1)
}

/// A create of each kind, all of one unit.
fn of_one_unit(d: u64) -> Vec<Call> {
    let two = Label::plain(LEVEL_2);
    vec![thread(d, one(), two), gate(d, one(), two, 1), segment(d, one(), 1), container(d, one(), 0, 1)]
}

/// The two bytes of row 2's quota. Row 2 is the first that is free after a start.
fn quota_of_row_2(machine: &mut Machine) -> &mut [u8] {
    &mut machine.book[2_836..2_838]
}

/// RULES 3.7: ".. 0 stands for a default: 8 for a container, 5 for a segment."
#[test]
fn a_container_made_with_0_has_8_units_and_7_to_spare() {
    let mut both = Both::start();
    let d = both.says(GRANTED, container(FIRST, one(), 0, 0));
    assert_eq!(quota_of_row_2(&mut both.machine), [8, 0]);
    assert_eq!((both.quota_and_spare(d), both.quota_and_spare(FIRST)), ((8, 7), (256, 246)));
    both.takes_exactly(d, 7);
    assert_eq!(both.quota_and_spare(d), (8, 0));
}

#[test]
fn a_container_of_quota_0_fits_into_a_spare_of_8_and_not_of_7() {
    let mut both = Both::start();
    let d = both.says(GRANTED, container(FIRST, one(), 0, 8));
    assert_eq!(both.quota_and_spare(d), (8, 7));
    both.says(NOT_ENOUGH_SPARE, container(d, one(), 0, 0));
    both.says(GRANTED, move_quota(FIRST, d, 1));
    assert_eq!(both.quota_and_spare(d), (9, 8));
    let inner = both.says(GRANTED, container(d, one(), 0, 0));
    assert_eq!((both.quota_and_spare(d), both.quota_and_spare(inner)), ((9, 0), (8, 7)));
}

/// A book in which a container was made with 0 before W7: byte for byte as if 16 units had been asked for.
fn from_before() -> (Both, u64) {
    let mut both = Both::start();
    let d = both.says(GRANTED, container(FIRST, one(), 0, 0));
    quota_of_row_2(&mut both.machine).copy_from_slice(&[16, 0]);
    both.world = both.machine.world();
    let mut asked = Both::start();
    asked.says(GRANTED, container(FIRST, one(), 0, CONTAINER_QUOTA_BEFORE_W7));
    assert_eq!(quota_of_row_2(&mut asked.machine), [16, 0]);
    assert!(both.machine.book == asked.machine.book && both.machine.area == asked.machine.area);
    (both, d)
}

#[test]
fn a_container_from_before_keeps_its_16_units() {
    let (mut both, d) = from_before();
    assert!(sound(&both.machine.book) && passes(&both.machine.book));
    assert_eq!(both.quota_and_spare(d), (16, 15));
    both.takes_exactly(d, 15);
    assert_eq!(both.quota_and_spare(d), (16, 0));
}

#[test]
fn a_segment_made_with_0_has_5_units_as_before() {
    let mut both = Both::start();
    let d = both.says(GRANTED, container(FIRST, one(), 0, 5));
    both.says(NOT_ENOUGH_SPARE, segment(d, one(), 0)); // 4 to spare
    both.says(GRANTED, move_quota(FIRST, d, 1));
    let o = both.says(GRANTED, segment(d, one(), 0));
    assert_eq!((both.quota_and_spare(d), both.quota_and_spare(o)), ((6, 0), (5, 4)));
    both.says(GRANTED, resize(d, o, 256));
    both.says(NOT_ENOUGH_SPARE, resize(d, o, 257));
}
