//! Section 5 of docs/RULES.md, when a book is sound: all of it, over what is live.

use crate::labels::flows;
use crate::layout::*;

const ROOT_QUOTA: u16 = 256;
const LARGEST_QUOTA: u16 = 255;
const ALL_KINDS: u8 = 15;
const LONGEST: usize = 16_256;

pub fn sound(b: &Book) -> bool {
    next(b) <= PAST_THE_END
        && live_rows(b).all(|row| row_sound(b, row))
        && ids_distinct(b)
        && links_sound(b)
        && blocks_sound(b)
}

pub fn live_rows(b: &Book) -> impl Iterator<Item = usize> + '_ {
    (0..ROWS).filter(move |row| kind(b, *row) != FREE)
}

/// Ranges, and the labels with what they must flow to.
fn row_sound(b: &Book, row: usize) -> bool {
    let number = next(b);
    let units = quota(b, row);
    let some_quota = (1..=LARGEST_QUOTA).contains(&units);
    let in_range = match kind(b, row) {
        THREAD | GATE => units == 1 && cleared(b, row),
        SEGMENT => some_quota && fixed(b, row) <= 1 && len(b, row) <= LONGEST && plain(b, row),
        CONTAINER => (some_quota || is_root(b, row)) && mask(b, row) <= ALL_KINDS && plain(b, row),
        _ => false,
    };
    in_range && 1 <= id(b, row) && id(b, row) < number
}

fn is_root(b: &Book, row: usize) -> bool {
    id(b, row) == root(b) && quota(b, row) == ROOT_QUOTA
}

/// A segment's or container's label has no star.
fn plain(b: &Book, row: usize) -> bool {
    label(b, row).well_formed(next(b), false)
}

/// RULES 5.4: "The label of a thread or gate flows to its clearance."
fn cleared(b: &Book, row: usize) -> bool {
    let (label, clearance) = (label(b, row), clearance(b, row));
    label.well_formed(next(b), true) && clearance.well_formed(next(b), false) && flows(label, clearance)
}

fn ids_distinct(b: &Book) -> bool {
    let mut ids = [0; ROWS];
    let mut count = 0;
    for row in live_rows(b) {
        ids[count] = id(b, row);
        count += 1;
    }
    all_distinct(&mut ids[..count])
}

fn all_distinct<T: Ord>(members: &mut [T]) -> bool {
    members.sort_unstable();
    members.windows(2).all(|pair| pair[0] != pair[1])
}

/// The tree needs no more than one root and one link for each other container: the quotas fall along every link.
fn links_sound(b: &Book) -> bool {
    // Quotas are at most 256 by now and links 255, so the sums fit.
    let mut parents = [0u16; ROWS];
    let mut charges = [0u16; ROWS];
    for (container, object) in (0..LINKS).filter_map(|i| link(b, i)) {
        if !link_sound(b, container, object) {
            return false;
        }
        parents[object] += 1;
        charges[container] += quota(b, object);
    }
    let mut roots = 0;
    for row in live_rows(b) {
        let fixed_segment = kind(b, row) == SEGMENT && fixed(b, row) == 1;
        match parents[row] {
            0 if kind(b, row) == CONTAINER && is_root(b, row) => roots += 1,
            0 => return false,
            1 => {}
            _ if fixed_segment => {}
            _ => return false,
        }
        if use_of(b, row, charges[row]) > quota(b, row) {
            return false;
        }
    }
    roots == 1 && no_link_twice(b, &parents)
}

fn link_sound(b: &Book, container: usize, object: usize) -> bool {
    container < ROWS
        && object < ROWS
        && kind(b, container) == CONTAINER
        && kind(b, object) != FREE
        && (kind(b, object) != CONTAINER || mask(b, object) & mask(b, container) == mask(b, container))
}

fn use_of(b: &Book, row: usize, charge: u16) -> u16 {
    match kind(b, row) {
        SEGMENT => 1 + blocks_for(len(b, row)) as u16,
        CONTAINER => 1 + charge,
        _ => 1,
    }
}

/// Only an object with several links can have the same one twice.
fn no_link_twice(b: &Book, parents: &[u16; ROWS]) -> bool {
    let mut several = [(0, 0); LINKS];
    let mut count = 0;
    for (container, object) in (0..LINKS).filter_map(|i| link(b, i)) {
        if parents[object] > 1 {
            several[count] = (object as u16, container as u16);
            count += 1;
        }
    }
    all_distinct(&mut several[..count])
}

/// The blocks that the lengths ask for stand one segment after the other in `found`; each is found once, and there are
/// as many in use.
fn blocks_sound(b: &Book) -> bool {
    let mut first = [0u16; ROWS];
    let mut asked = 0;
    for row in live_rows(b).filter(|row| kind(b, *row) == SEGMENT) {
        first[row] = asked as u16;
        asked += blocks_for(len(b, row));
    }
    if asked > BLOCKS {
        return false;
    }
    let mut found = [false; BLOCKS];
    let mut used = 0;
    for (segment, index) in (0..BLOCKS).filter_map(|i| block(b, i)) {
        if segment >= ROWS || kind(b, segment) != SEGMENT || index >= blocks_for(len(b, segment)) {
            return false;
        }
        let place = usize::from(first[segment]) + index;
        if found[place] {
            return false;
        }
        found[place] = true;
        used += 1;
    }
    used == asked
}
