//! The book of docs/BOOK.md as plain bytes, and when a book is sound (section 5 of docs/RULES.md), clause by
//! clause. It was written from docs/BOOK.md and page 01, the user's rules that docs/RULES.md restates.

pub mod books;
pub mod compounds;
pub mod damage;
pub mod laid;
pub mod place;
pub mod positions;
pub mod script;
pub mod shapes;
pub mod spelt;
pub mod words;

use crate::labels::*;

pub const BOOK_LEN: usize = 57_356;
pub const ROWS: usize = 256;
pub const LINKS: usize = 255;
pub const BLOCKS: usize = 256;
/// RULES 1.8: ".. the data area, 16,384 bytes in 256 blocks of 64."
pub const BLOCK_LEN: u64 = 64;
pub const LONGEST: u64 = 16_256;
pub const LAST_INDEX: u64 = 253;
pub const ALL_KINDS: u64 = 15;
pub const ROOT_QUOTA: u64 = 256;
pub const LARGEST_QUOTA: u64 = 255;

/// RULES 1.1: "An object is of one of four kinds, each with a code: thread (1), gate (2), segment (3),
/// container (4)." Kind 0 is a free row.
pub const FREE: u64 = 0;
pub const THREAD: u64 = 1;
pub const GATE: u64 = 2;
pub const SEGMENT: u64 = 3;
pub const CONTAINER: u64 = 4;

/// One table of BOOK.md: `count` numbers of `width` bytes from `offset` on.
#[derive(Clone, Copy, Debug, PartialEq, Eq, PartialOrd, Ord)]
pub struct Table {
    pub offset: usize,
    pub width: usize,
    pub count: usize,
    pub name: &'static str,
}

const fn table(name: &'static str, offset: usize, width: usize, count: usize) -> Table {
    Table { offset, width, count, name }
}

pub const NEXT: Table = table("next", 0, 8, 1);
pub const ROOT: Table = table("root", 8, 8, 1);
pub const ID: Table = table("id", 16, 8, 256);
pub const KIND: Table = table("kind", 2_064, 1, 256);
pub const MASK: Table = table("mask", 2_320, 1, 256);
pub const FIXED: Table = table("fixed", 2_576, 1, 256);
pub const QUOTA: Table = table("quota", 2_832, 2, 256);
pub const LEN: Table = table("len", 3_344, 2, 256);
pub const ENTRY: Table = table("entry", 3_856, 8, 256);
pub const LABEL_DEFAULT: Table = table("labelDefault", 5_904, 1, 256);
pub const LABEL_WORDS: Table = table("labelWords", 6_160, 8, 2_048);
pub const CLEAR_DEFAULT: Table = table("clearDefault", 22_544, 1, 256);
pub const CLEAR_WORDS: Table = table("clearWords", 22_800, 8, 2_048);
pub const DESCRIPTION: Table = table("description", 39_184, 1, 8_192);
pub const CLOSURE: Table = table("closure", 47_376, 1, 8_192);
pub const LINK_FROM: Table = table("linkFrom", 55_568, 2, 255);
pub const LINK_TO: Table = table("linkTo", 56_078, 2, 255);
pub const OWNER: Table = table("owner", 56_588, 2, 256);
pub const INDEX: Table = table("index", 57_100, 1, 256);

pub const TABLES: [Table; 19] = [
    NEXT,
    ROOT,
    ID,
    KIND,
    MASK,
    FIXED,
    QUOTA,
    LEN,
    ENTRY,
    LABEL_DEFAULT,
    LABEL_WORDS,
    CLEAR_DEFAULT,
    CLEAR_WORDS,
    DESCRIPTION,
    CLOSURE,
    LINK_FROM,
    LINK_TO,
    OWNER,
    INDEX,
];

impl Table {
    /// docs/BOOK.md: "Number i of a table is at offset + i × width."
    pub fn place(&self, number: usize) -> usize {
        self.offset + number * self.width
    }

    /// The largest number that the width allows.
    pub fn largest(&self) -> u64 {
        u64::MAX >> (64 - 8 * self.width)
    }

    /// The row that a number of tables 2 to 14 belongs to.
    pub fn row(&self, number: usize) -> usize {
        number / (self.count / ROWS)
    }
}

/// docs/BOOK.md: "a number stands with its lowest byte first."
pub fn get(book: &[u8], table: Table, number: usize) -> u64 {
    let at = table.place(number);
    book[at..at + table.width].iter().rev().fold(0, |value, byte| value * 256 + u64::from(*byte))
}

pub fn set(book: &mut [u8], table: Table, number: usize, value: u64) {
    let at = table.place(number);
    book[at..at + table.width].copy_from_slice(&value.to_le_bytes()[..table.width]);
}

/// The other side of BOOK.md's "Unused bytes": a row, link or block in use, and a field that the row's kind has.
pub fn in_use(book: &[u8], table: Table, number: usize) -> bool {
    match table {
        NEXT | ROOT => true,
        LINK_FROM | LINK_TO => get(book, LINK_FROM, number) != 0,
        OWNER | INDEX => get(book, OWNER, number) != 0,
        _ => has_field(get(book, KIND, table.row(number)), table),
    }
}

fn has_field(kind: u64, table: Table) -> bool {
    match table {
        MASK => kind == CONTAINER,
        FIXED | LEN => kind == SEGMENT,
        ENTRY | CLOSURE => kind == GATE,
        CLEAR_DEFAULT | CLEAR_WORDS => kind == THREAD || kind == GATE,
        _ => kind != FREE,
    }
}

pub fn rows_in_use(book: &[u8]) -> Vec<usize> {
    (0..ROWS).filter(|row| get(book, KIND, *row) != FREE).collect()
}

pub fn rows_of_kind(book: &[u8], kind: u64) -> Vec<usize> {
    (0..ROWS).filter(|row| get(book, KIND, *row) == kind).collect()
}

/// A row that a link or block names may be any number, so this one asks first.
fn kind_of(book: &[u8], row: usize) -> u64 {
    if row < ROWS {
        get(book, KIND, row)
    } else {
        FREE
    }
}

/// Links in use: the container's row and the object's.
pub fn links_in_use(book: &[u8]) -> Vec<(usize, usize)> {
    let from = |link: &usize| get(book, LINK_FROM, *link) as usize;
    let used = (0..LINKS).filter(|link| from(link) != 0);
    used.map(|link| (from(&link) - 1, get(book, LINK_TO, link) as usize)).collect()
}

/// Blocks in use: the segment's row, and which of its blocks.
pub fn blocks_in_use(book: &[u8]) -> Vec<(usize, u64)> {
    let owner = |block: &usize| get(book, OWNER, *block) as usize;
    let used = (0..BLOCKS).filter(|block| owner(block) != 0);
    used.map(|block| (owner(&block) - 1, get(book, INDEX, block))).collect()
}

pub fn label_of(book: &[u8], row: usize) -> Label {
    label_in(book, LABEL_DEFAULT, LABEL_WORDS, row)
}

pub fn clearance_of(book: &[u8], row: usize) -> Label {
    label_in(book, CLEAR_DEFAULT, CLEAR_WORDS, row)
}

fn label_in(book: &[u8], default: Table, words: Table, row: usize) -> Label {
    let mut label = Label::plain(get(book, default, row) as u8);
    for place in 0..WORDS {
        label.words[place] = get(book, words, row * WORDS + place);
    }
    label
}

/// RULES 5.10: "A segment has one block for each 64 bytes that it has or begins, .."
pub fn blocks_for(len: u64) -> u64 {
    (len + BLOCK_LEN - 1) / BLOCK_LEN
}

/// The container whose id stands in the field `root`.
pub fn root_row(book: &[u8]) -> Option<usize> {
    let root = get(book, ROOT, 0);
    rows_of_kind(book, CONTAINER).into_iter().find(|row| get(book, ID, *row) == root)
}

/// A clause of section 5 of docs/RULES.md, and the tables it looks at.
pub struct Clause {
    pub name: &'static str,
    pub holds: fn(&[u8]) -> bool,
    pub looks_at: &'static [Table],
}

const fn clause(name: &'static str, holds: fn(&[u8]) -> bool, looks_at: &'static [Table]) -> Clause {
    Clause { name, holds, looks_at }
}

/// How many clauses there are.
pub const CLAUSE_COUNT: usize = 10;

pub static CLAUSES: [Clause; CLAUSE_COUNT] = [
    clause(
        "every field is in its range",
        every_field_is_in_its_range,
        &[NEXT, ID, KIND, MASK, FIXED, QUOTA, LEN, LINK_FROM, LINK_TO, OWNER, INDEX],
    ),
    clause(
        "ids are distinct and below the next number",
        ids_are_distinct_and_below_the_next_number,
        &[NEXT, ID],
    ),
    clause(
        "labels are well formed against it",
        labels_are_well_formed_against_it,
        &[NEXT, LABEL_DEFAULT, LABEL_WORDS, CLEAR_DEFAULT, CLEAR_WORDS],
    ),
    clause(
        "thread and gate labels flow to their clearances",
        thread_and_gate_labels_flow_to_their_clearances,
        &[LABEL_DEFAULT, LABEL_WORDS, CLEAR_DEFAULT, CLEAR_WORDS],
    ),
    clause(
        "containers form a tree under one root of quota 256",
        containers_form_a_tree_under_one_root_of_quota_256,
        &[ROOT, KIND, LINK_FROM, LINK_TO],
    ),
    clause(
        "every other object has its link or links",
        every_other_object_has_its_link_or_links,
        &[KIND, FIXED, LINK_FROM, LINK_TO],
    ),
    clause("no link occurs twice", no_link_occurs_twice, &[LINK_FROM, LINK_TO]),
    clause("use never exceeds quota", use_never_exceeds_quota, &[QUOTA, LEN, LINK_FROM, LINK_TO]),
    clause("a child's mask includes its parent's", a_childs_mask_includes_its_parents, &[MASK, LINK_FROM]),
    clause("each segment has exactly its blocks", each_segment_has_exactly_its_blocks, &[LEN, OWNER, INDEX]),
];

/// A book is sound if every clause holds; an area of another length is no book.
pub fn sound(book: &[u8]) -> bool {
    book.len() == BOOK_LEN && failing(book).is_empty()
}

/// The places in `CLAUSES` of the clauses that do not hold.
pub fn failing(book: &[u8]) -> Vec<usize> {
    (0..CLAUSE_COUNT).filter(|i| !(CLAUSES[*i].holds)(book)).collect()
}

/// Ids and labels have clauses of their own, and so has the root: its quota is judged with the tree.
pub fn every_field_is_in_its_range(book: &[u8]) -> bool {
    let root = root_row(book);
    get(book, NEXT, 0) <= PAST_THE_END
        && rows_in_use(book).into_iter().all(|row| row_in_range(book, row, Some(row) == root))
        && links_in_use(book).into_iter().all(|(from, to)| link_in_range(book, from, to))
        && blocks_in_use(book).into_iter().all(|(owner, index)| block_in_range(book, owner, index))
}

/// RULES 5.1: ".. an id at least 1, a kind 1 to 4; a thread or gate has quota 1, the root 256, anything else
/// 1 to 255; a mask is at most 15, a length at most 16,256, .."
fn row_in_range(book: &[u8], row: usize, is_root: bool) -> bool {
    let quota = get(book, QUOTA, row);
    let some_quota = (1..=LARGEST_QUOTA).contains(&quota);
    get(book, ID, row) >= 1
        && match get(book, KIND, row) {
            THREAD | GATE => quota == 1,
            SEGMENT => some_quota && get(book, FIXED, row) <= 1 && get(book, LEN, row) <= LONGEST,
            CONTAINER => (is_root || some_quota) && get(book, MASK, row) <= ALL_KINDS,
            _ => false,
        }
}

/// docs/BOOK.md: "an object in a container". The first is a container in use, the second an object in use.
fn link_in_range(book: &[u8], from: usize, to: usize) -> bool {
    kind_of(book, from) == CONTAINER && kind_of(book, to) != FREE
}

/// docs/BOOK.md: "the row of the block's segment", and "which of its segment's blocks it is".
fn block_in_range(book: &[u8], owner: usize, index: u64) -> bool {
    kind_of(book, owner) == SEGMENT && index <= LAST_INDEX
}

pub fn ids_are_distinct_and_below_the_next_number(book: &[u8]) -> bool {
    let mut ids: Vec<u64> = rows_in_use(book).into_iter().map(|row| get(book, ID, row)).collect();
    ids.sort_unstable();
    let distinct = (1..ids.len()).all(|i| ids[i - 1] != ids[i]);
    distinct && ids.into_iter().all(|id| id < get(book, NEXT, 0))
}

/// RULES 2.15, of star: "It may stand in no clearance, and in no label of a segment or container."
pub fn labels_are_well_formed_against_it(book: &[u8]) -> bool {
    let next = get(book, NEXT, 0);
    rows_in_use(book).into_iter().all(|row| {
        let cleared = has_clearance(book, row);
        label_of(book, row).well_formed(next, cleared)
            && (!cleared || clearance_of(book, row).well_formed(next, false))
    })
}

fn has_clearance(book: &[u8], row: usize) -> bool {
    has_field(get(book, KIND, row), CLEAR_DEFAULT)
}

pub fn thread_and_gate_labels_flow_to_their_clearances(book: &[u8]) -> bool {
    let cleared = rows_in_use(book).into_iter().filter(|row| has_clearance(book, *row));
    cleared.into_iter().all(|row| flows(&label_of(book, row), &clearance_of(book, row)))
}

/// The root has quota 256 and no link to it, and from every container the links lead up to it.
pub fn containers_form_a_tree_under_one_root_of_quota_256(book: &[u8]) -> bool {
    let links = links_in_use(book);
    match root_row(book) {
        None => false,
        Some(root) => {
            get(book, QUOTA, root) == ROOT_QUOTA
                && parents(&links, root).is_empty()
                && rows_of_kind(book, CONTAINER).into_iter().all(|row| hangs_under(book, &links, root, row))
        }
    }
}

/// The rows of the containers that an object is linked in, one for each link.
pub fn parents(links: &[(usize, usize)], row: usize) -> Vec<usize> {
    links.iter().filter(|(_, to)| *to == row).map(|(from, _)| *from).collect()
}

/// Goes up, by one link exactly at each step; a way of more than 255 steps goes in a circle.
fn hangs_under(book: &[u8], links: &[(usize, usize)], root: usize, row: usize) -> bool {
    let mut at = row;
    for _ in 0..ROWS {
        if at == root {
            return true;
        }
        match parents(links, at)[..] {
            [parent] if kind_of(book, parent) == CONTAINER => at = parent,
            _ => return false,
        }
    }
    false
}

/// RULES 5.6: "Any other object is linked somewhere.": here, what is no container. "Only a segment whose
/// quota is fixed may be linked in more than one container."
pub fn every_other_object_has_its_link_or_links(book: &[u8]) -> bool {
    let links = links_in_use(book);
    let others = rows_in_use(book).into_iter().filter(|row| get(book, KIND, *row) != CONTAINER);
    others.into_iter().all(|row| {
        let count = parents(&links, row).len();
        let fixed_segment = get(book, KIND, row) == SEGMENT && get(book, FIXED, row) == 1;
        count == 1 || (count > 1 && fixed_segment)
    })
}

pub fn no_link_occurs_twice(book: &[u8]) -> bool {
    let mut links = links_in_use(book);
    links.sort_unstable();
    (1..links.len()).all(|i| links[i - 1] != links[i])
}

pub fn use_never_exceeds_quota(book: &[u8]) -> bool {
    let links = links_in_use(book);
    rows_in_use(book).into_iter().all(|row| use_of(book, &links, row) <= get(book, QUOTA, row))
}

/// RULES 3.2, of a segment: ".. with n bytes, 1 + (n + 63) / 64 rounded down." 3.3: "A container uses 1 unit
/// and the quotas of all that is linked in it."
pub fn use_of(book: &[u8], links: &[(usize, usize)], row: usize) -> u64 {
    let charge = |to: usize| if kind_of(book, to) == FREE { 0 } else { get(book, QUOTA, to) };
    match get(book, KIND, row) {
        SEGMENT => 1 + blocks_for(get(book, LEN, row)),
        CONTAINER => {
            1 + links.iter().filter(|(from, _)| *from == row).map(|(_, to)| charge(*to)).sum::<u64>()
        }
        _ => 1,
    }
}

/// Only containers have a mask, so a child here is a container.
pub fn a_childs_mask_includes_its_parents(book: &[u8]) -> bool {
    let container = |row: usize| kind_of(book, row) == CONTAINER;
    links_in_use(book).into_iter().filter(|(from, to)| container(*from) && container(*to)).all(
        |(from, to)| {
            let parents = get(book, MASK, from);
            get(book, MASK, to) & parents == parents
        },
    )
}

/// One block for each index below the count, and no other. A block has one owner's field, so it cannot have two.
pub fn each_segment_has_exactly_its_blocks(book: &[u8]) -> bool {
    let blocks = blocks_in_use(book);
    rows_of_kind(book, SEGMENT).into_iter().all(|row| {
        let own = blocks.iter().filter(|(owner, _)| *owner == row);
        let mut found: Vec<u64> = own.map(|(_, index)| *index).collect();
        found.sort_unstable();
        found == (0..blocks_for(get(book, LEN, row))).collect::<Vec<u64>>()
    })
}

#[cfg(test)]
mod tests;
