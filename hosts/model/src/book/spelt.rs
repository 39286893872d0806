//! The world that a sound book and a data area spell.

use super::*;
use crate::model::{Body, Object, World, CLOSURE_LEN, DESCRIPTION_LEN};
use std::collections::{BTreeMap, BTreeSet};

pub fn world(book: &[u8], area: &[u8]) -> World {
    let mut objects = BTreeMap::new();
    for row in rows_in_use(book) {
        objects.insert(get(book, ID, row), object(book, area, row));
    }
    let id = |row: usize| get(book, ID, row);
    let links: BTreeSet<(u64, u64)> =
        links_in_use(book).into_iter().map(|(from, to)| (id(from), id(to))).collect();
    World { next: get(book, NEXT, 0), objects, links }
}

fn object(book: &[u8], area: &[u8], row: usize) -> Object {
    Object {
        label: label_of(book, row),
        description: bytes_of_row(book, DESCRIPTION, row, DESCRIPTION_LEN),
        quota: get(book, QUOTA, row),
        body: body(book, area, row),
    }
}

fn body(book: &[u8], area: &[u8], row: usize) -> Body {
    match get(book, KIND, row) {
        THREAD => Body::Thread { clearance: clearance_of(book, row) },
        GATE => Body::Gate {
            clearance: clearance_of(book, row),
            entry: get(book, ENTRY, row),
            closure: bytes_of_row(book, CLOSURE, row, CLOSURE_LEN),
        },
        SEGMENT => Body::Segment { bytes: segment_bytes(book, area, row), fixed: get(book, FIXED, row) == 1 },
        _ => Body::Container { mask: get(book, MASK, row) },
    }
}

fn bytes_of_row(book: &[u8], table: Table, row: usize, len: usize) -> Vec<u8> {
    let at = table.place(row * len);
    book[at..at + len].to_vec()
}

/// docs/BOOK.md: "block k is the area's 64 bytes from 64 × k on". The segment's block k is that of the block
/// that says so.
fn segment_bytes(book: &[u8], area: &[u8], row: usize) -> Vec<u8> {
    let len = get(book, LEN, row) as usize;
    let mut bytes = vec![0; blocks_for(len as u64) as usize * BLOCK_LEN as usize];
    let owned = (0..BLOCKS).filter(|block| get(book, OWNER, *block) as usize == row + 1);
    for block in owned {
        let (from, to) = (block * 64, get(book, INDEX, block) as usize * 64);
        bytes[to..to + 64].copy_from_slice(&area[from..from + 64]);
    }
    bytes.truncate(len);
    bytes
}

#[cfg(test)]
mod tests {
    use super::*;
    use crate::book::books::start_book;

    #[test]
    fn a_start_spells_the_models_start() {
        assert_eq!(Ok(world(&start_book(100), &[0; 16_384])), World::start(100));
    }

    /// A segment of 70 bytes whose second block stands before its first.
    #[test]
    fn a_segments_bytes_come_in_the_order_of_their_index() {
        let mut book = start_book(100);
        for (table, value) in [(ID, 90), (KIND, SEGMENT), (QUOTA, 3), (LEN, 70), (LABEL_DEFAULT, 2)].iter() {
            set(&mut book, *table, 7, *value);
        }
        set(&mut book, LINK_FROM, 9, 1);
        set(&mut book, LINK_TO, 9, 7);
        for (block, index) in [(4, 1), (6, 0)].iter() {
            set(&mut book, OWNER, *block, 8);
            set(&mut book, INDEX, *block, *index);
        }
        assert!(sound(&book));
        let mut area = vec![0; 16_384];
        area[4 * 64..5 * 64].iter_mut().for_each(|byte| *byte = 1);
        area[6 * 64..7 * 64].iter_mut().for_each(|byte| *byte = 2);
        let bytes = world(&book, &area).objects[&90].bytes().to_vec();
        assert_eq!(bytes, [vec![2; 64], vec![1; 6]].concat());
    }
}
