//! What a sound book says, before it has rows: objects with their quotas, masks, lengths and the containers they are in.

use super::*;
use crate::random::Random;

/// One object; `parents` are places in the list, and the root, at place 0, has none.
#[derive(Clone, Debug)]
pub struct Thing {
    pub kind: u64,
    pub quota: u64,
    pub mask: u64,
    pub fixed: u64,
    pub len: u64,
    pub parents: Vec<usize>,
}

fn plain(kind: u64, quota: u64, parents: Vec<usize>) -> Thing {
    Thing { kind, quota, mask: 0, fixed: 0, len: 0, parents }
}

fn container(quota: u64, mask: u64, parents: Vec<usize>) -> Thing {
    Thing { mask, ..plain(CONTAINER, quota, parents) }
}

fn segment(quota: u64, len: u64, fixed: u64, parents: Vec<usize>) -> Thing {
    Thing { len, fixed, ..plain(SEGMENT, quota, parents) }
}

/// The root alone.
pub fn alone(mask: u64) -> Vec<Thing> {
    vec![container(ROOT_QUOTA, mask, vec![])]
}

/// Root and thread, as Start makes them.
pub fn start() -> Vec<Thing> {
    vec![container(ROOT_QUOTA, 0, vec![]), plain(THREAD, 1, vec![0])]
}

/// Root, thread and one segment of this length that fills its quota.
pub fn one_segment(len: u64) -> Vec<Thing> {
    let quota = 1 + blocks_for(len);
    let mut things = vec![container(ROOT_QUOTA, 0, vec![]), segment(quota, len, 0, vec![0])];
    if quota < LARGEST_QUOTA {
        things.push(plain(THREAD, 1, vec![0]));
    }
    things
}

/// 127 segments of one block each, and a thread: the root is full.
pub fn many_segments(random: &mut Random) -> Vec<Thing> {
    let mut things = start();
    for _ in 0..127 {
        let len = random.pick(&[1, 2, 63, 64]);
        things.push(segment(2, len, random.below(2), vec![0]));
    }
    things
}

/// The root and 255 threads and gates.
pub fn flat(random: &mut Random) -> Vec<Thing> {
    let mut things = alone(0);
    for _ in 0..255 {
        let kind = random.pick(&[THREAD, GATE]);
        things.push(plain(kind, 1, vec![0]));
    }
    things
}

/// `count` containers, each in the one before, every one but the last full; the masks grow on the way down.
pub fn chain(random: &mut Random, count: usize) -> Vec<Thing> {
    let mut things = alone(0);
    for depth in 1..count {
        let more = if random.chance(3) { 1 << random.below(4) } else { 0 };
        let mask = things[depth - 1].mask | more;
        things.push(container(ROOT_QUOTA - depth as u64, mask, vec![depth - 1]));
    }
    things
}

/// Fifteen fixed segments in each of fifteen containers and in the root: 31 objects and 255 links.
pub fn shared(random: &mut Random) -> Vec<Thing> {
    let mut things = alone(random.pick(&[0, 2]));
    for _ in 0..15 {
        let mask = things[0].mask | random.below(16);
        things.push(container(16, mask, vec![0]));
    }
    for _ in 0..15 {
        things.push(segment(1, 0, 1, (0..16).collect()));
    }
    things
}

/// Every container is full: its quota is what the tree under it needs. Segments have up to `most` blocks.
pub fn tight(random: &mut Random, most: u64) -> Vec<Thing> {
    let mut things = alone(0);
    let mut left = ROOT_QUOTA - 1;
    while left > 0 {
        let containers = places_of(&things, CONTAINER);
        let parent = random.pick(&containers);
        let child = leaf(random, &things[parent], parent, most.min(left - 1));
        left -= child.quota;
        things.push(child);
    }
    for place in (1..things.len()).rev() {
        let (quota, parent) = (things[place].quota, things[place].parents[0]);
        if parent != 0 {
            things[parent].quota += quota;
        }
    }
    things
}

/// An object that holds nothing yet and fills its quota.
fn leaf(random: &mut Random, parent: &Thing, place: usize, most: u64) -> Thing {
    match random.below(10) {
        0..=2 => plain(THREAD, 1, vec![place]),
        3 | 4 => plain(GATE, 1, vec![place]),
        5..=7 => {
            let len = random.between(0, most * BLOCK_LEN);
            segment(1 + blocks_for(len), len, random.below(2), vec![place])
        }
        _ => container(1, child_mask(random, parent), vec![place]),
    }
}

fn child_mask(random: &mut Random, parent: &Thing) -> u64 {
    let more = if random.chance(40) { random.below(16) } else { 0 };
    parent.mask | more
}

/// `count` objects at most, as spare allows; a segment takes no more than `most` units.
pub fn grown(random: &mut Random, count: usize, most: u64) -> Vec<Thing> {
    let mut things = alone(random.pick(&[0, 0, 1, 4, 8]));
    for _ in 1..count {
        let open: Vec<usize> =
            places_of(&things, CONTAINER).into_iter().filter(|place| spare(&things, *place) > 0).collect();
        if !open.is_empty() {
            let parent = random.pick(&open);
            let room = spare(&things, parent).min(LARGEST_QUOTA);
            let child = child(random, &things[parent], parent, room, most);
            things.push(child);
        }
    }
    share(random, &mut things);
    things
}

fn child(random: &mut Random, parent: &Thing, place: usize, room: u64, most: u64) -> Thing {
    match random.below(20) {
        0..=3 => plain(THREAD, 1, vec![place]),
        4..=7 => plain(GATE, 1, vec![place]),
        8..=13 => some_segment(random, place, room.min(most)),
        _ => {
            let quota = random.between(1, (room * 2 / 3).max(1));
            container(quota, child_mask(random, parent), vec![place])
        }
    }
}

/// Lengths at the edges of blocks, or any that fits; now and then with units to spare.
fn some_segment(random: &mut Random, place: usize, room: u64) -> Thing {
    let any = random.between(0, (room - 1) * BLOCK_LEN);
    let lengths = [0, 1, 63, 64, 65, 127, 128, 129, any, any, LONGEST];
    let fitting: Vec<u64> = lengths.iter().copied().filter(|len| blocks_for(*len) < room).collect();
    let len = random.pick(&fitting);
    let need = 1 + blocks_for(len);
    let quota = if random.chance(50) { need } else { random.between(need, room.min(need + 4)) };
    segment(quota, len, random.below(2), vec![place])
}

/// Links fixed segments into other containers that have the room.
fn share(random: &mut Random, things: &mut [Thing]) {
    for place in places_of(things, SEGMENT) {
        for other in places_of(things, CONTAINER) {
            let fits = spare(things, other) >= things[place].quota;
            let new = !things[place].parents.contains(&other);
            if things[place].fixed == 1 && fits && new && random.chance(40) {
                things[place].parents.push(other);
            }
        }
    }
}

fn places_of(things: &[Thing], kind: u64) -> Vec<usize> {
    (0..things.len()).filter(|place| things[*place].kind == kind).collect()
}

/// RULES 3.4: "An object's spare is its quota minus the units it uses."
fn spare(things: &[Thing], place: usize) -> u64 {
    let inside = things.iter().filter(|thing| thing.parents.contains(&place));
    things[place].quota - 1 - inside.map(|thing| thing.quota).sum::<u64>()
}
