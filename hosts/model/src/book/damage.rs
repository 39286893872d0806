//! Damage to single numbers of a sound book: which ones, and what they become.

use super::script::Write;
use super::*;
use crate::random::Random;

/// What is written, and a name for its sort.
#[derive(Clone, Debug)]
pub struct Damage {
    pub sort: &'static str,
    pub writes: Vec<Write>,
}

impl Damage {
    /// Whether it touches, in this undamaged book, a number in use that the clause looks at.
    pub fn concerns(&self, book: &[u8], clause: &Clause) -> bool {
        let looked_at = |write: &Write| clause.looks_at.contains(&write.table);
        self.writes.iter().any(|write| looked_at(write) && in_use(book, write.table, write.number))
    }

    pub fn changes(&self, book: &[u8]) -> bool {
        self.writes.iter().any(|write| write.undo(book).value != write.value)
    }
}

/// Of every table some numbers in use and some that are not, each with the values that are telling there.
pub fn singles(random: &mut Random, book: &[u8]) -> Vec<Damage> {
    let mut damages = Vec::new();
    for table in TABLES.iter() {
        let (used, unused): (Vec<usize>, Vec<usize>) =
            (0..table.count).partition(|number| in_use(book, *table, *number));
        let mut numbers = random.choose(&used, 3);
        numbers.extend(random.choose(&unused, 2));
        numbers.extend(edges(*table));
        for number in numbers {
            damages.extend(of_number(random, book, *table, number));
        }
    }
    damages
}

/// Row 0 and row 255, link 254, block 255.
fn edges(table: Table) -> Vec<usize> {
    match table.count {
        1 => vec![0],
        8_192 => vec![],
        count => vec![0, count - 1],
    }
}

fn of_number(random: &mut Random, book: &[u8], table: Table, number: usize) -> Vec<Damage> {
    let old = get(book, table, number);
    let another = get(book, table, random.below(table.count as u64) as usize);
    let mut values = vec![0, 1, old.wrapping_sub(1), old.wrapping_add(1), table.largest(), another];
    values.push(old.wrapping_add(256));
    values.push(random.draw() & table.largest());
    values.extend(telling(random, book, table, number));
    values.retain(|value| *value <= table.largest() && *value != old);
    values.sort_unstable();
    values.dedup();
    let single = |value| Damage { sort: table.name, writes: vec![Write { table, number, value }] };
    values.into_iter().map(single).collect()
}

/// The values at the edges of what the table may hold there.
fn telling(random: &mut Random, book: &[u8], table: Table, number: usize) -> Vec<u64> {
    match table {
        NEXT => next_values(book),
        ROOT => root_values(random, book),
        ID => id_values(random, book),
        KIND => (0..=5).collect(),
        MASK => mask_values(random, book, number),
        FIXED => vec![0, 1, 2],
        QUOTA => quota_values(book, number),
        LEN => len_values(book, number),
        LABEL_DEFAULT | CLEAR_DEFAULT => (0..=5).collect(),
        LABEL_WORDS | CLEAR_WORDS => word_values(random, book, table, number),
        LINK_FROM => link_from_values(random, book, number),
        LINK_TO => link_to_values(random, book),
        OWNER => owner_values(random, book),
        INDEX => index_values(book, number),
        _ => vec![],
    }
}

/// Around the highest id, the highest category and the end of the numbers.
fn next_values(book: &[u8]) -> Vec<u64> {
    let rows = rows_in_use(book);
    let id = rows.iter().map(|row| get(book, ID, *row)).max().unwrap_or(0);
    let named = rows.iter().flat_map(|row| label_of(book, *row).categories());
    let category = named.max().unwrap_or(0);
    let cleared = rows.iter().filter(|row| in_use(book, CLEAR_DEFAULT, **row));
    let other = cleared.flat_map(|row| clearance_of(book, *row).categories()).max().unwrap_or(0);
    let mut values =
        vec![id, id + 1, category, category + 1, other, other + 1, id.max(category).max(other) + 1];
    values.extend([PAST_THE_END - 1, PAST_THE_END, PAST_THE_END + 1, 1 << 63].iter());
    values
}

/// The ids of another container, of any object and of a free row.
fn root_values(random: &mut Random, book: &[u8]) -> Vec<u64> {
    let row = random.below(ROWS as u64) as usize;
    let rows = [random.pick(&rows_of_kind(book, CONTAINER)), random.pick(&rows_in_use(book)), row];
    rows.iter().map(|row| get(book, ID, *row)).collect()
}

fn id_values(random: &mut Random, book: &[u8]) -> Vec<u64> {
    let next = get(book, NEXT, 0);
    let another = get(book, ID, random.pick(&rows_in_use(book)));
    vec![
        next - 1,
        next,
        next + 1,
        another,
        get(book, ROOT, 0),
        random.between(1, next),
        random.between(1, next),
    ]
}

fn mask_values(random: &mut Random, book: &[u8], row: usize) -> Vec<u64> {
    let old = get(book, MASK, row);
    let bit = 1 << random.below(4);
    vec![old | bit, old & !bit, ALL_KINDS, ALL_KINDS + 1, old | 16, old | 128]
}

/// Around the use, around what the containers it is in have room for, and around the ends of the range.
fn quota_values(book: &[u8], row: usize) -> Vec<u64> {
    let links = links_in_use(book);
    let quota = get(book, QUOTA, row);
    let used = use_of(book, &links, row);
    let mut values = vec![2, 254, LARGEST_QUOTA, ROOT_QUOTA, ROOT_QUOTA + 1, used - 1, used, used + 1];
    let spare = |parent: &usize| get(book, QUOTA, *parent) - use_of(book, &links, *parent);
    if let Some(least) = parents(&links, row).iter().map(spare).min() {
        values.extend([quota + least, quota + least + 1].iter());
    }
    values
}

/// The ends of its last block, of the one before and of the one after, and the end of the range.
fn len_values(book: &[u8], row: usize) -> Vec<u64> {
    let end = blocks_for(get(book, LEN, row)) * BLOCK_LEN;
    let near = [end.wrapping_sub(BLOCK_LEN), end.wrapping_sub(BLOCK_LEN - 1), end, end + 1, end + BLOCK_LEN];
    let mut values = near.to_vec();
    values.extend([LONGEST, LONGEST + 1, get(book, LEN, row) + 16_384].iter());
    values
}

/// Other codes and other categories at the same place: the neighbours', none, the last and one too many.
fn word_values(random: &mut Random, book: &[u8], table: Table, number: usize) -> Vec<u64> {
    let next = get(book, NEXT, 0);
    let old = get(book, table, number);
    let code = random.between(1, 4);
    let mut values: Vec<u64> = (0..8).map(|other| old / 8 * 8 + other).collect();
    values.extend([code, (next - 1) * 8 + code, (next - 1) * 8].iter());
    if next < PAST_THE_END {
        values.push(next * 8 + code);
    }
    for near in [number.wrapping_sub(1), number + 1].iter().filter(|near| **near < table.count) {
        let category = category_of(get(book, table, *near));
        values.extend([category * 8 + code, (category * 8).saturating_sub(8) + code].iter());
        values.push((category + 1).min(PAST_THE_END - 1) * 8 + code);
    }
    values
}

/// Free, other containers, what is no container, the object itself, a free row, and past the last row.
fn link_from_values(random: &mut Random, book: &[u8], link: usize) -> Vec<u64> {
    let mut rows = random.choose(&rows_of_kind(book, CONTAINER), 5);
    rows.extend([random.pick(&rows_in_use(book)), get(book, LINK_TO, link) as usize].iter());
    rows.extend([random.below(ROWS as u64) as usize, ROWS - 2, ROWS - 1, ROWS].iter());
    rows.into_iter().map(|row| row as u64 + 1).collect()
}

/// Other objects, fixed segments above all; the root, a free row, the last row and past it.
fn link_to_values(random: &mut Random, book: &[u8]) -> Vec<u64> {
    let fixed = |row: &usize| get(book, FIXED, *row) == 1;
    let segments: Vec<usize> = rows_of_kind(book, SEGMENT).into_iter().filter(fixed).collect();
    let mut rows = random.choose(&segments, 3);
    rows.extend(random.choose(&rows_in_use(book), 3));
    rows.extend(root_row(book));
    rows.extend([random.below(ROWS as u64) as usize, ROWS - 1, ROWS].iter());
    rows.into_iter().map(|row| row as u64).collect()
}

/// Segments, what is none, any row, the last row and past it.
fn owner_values(random: &mut Random, book: &[u8]) -> Vec<u64> {
    let mut rows = random.choose(&rows_of_kind(book, SEGMENT), 2);
    rows.extend([random.pick(&rows_in_use(book)), random.below(ROWS as u64) as usize].iter());
    rows.extend([ROWS - 1, ROWS].iter());
    rows.into_iter().map(|row| row as u64 + 1).collect()
}

/// The segment's count of blocks, and the ends of the range.
fn index_values(book: &[u8], block: usize) -> Vec<u64> {
    let mut values = vec![LAST_INDEX, LAST_INDEX + 1, 255];
    let owner = get(book, OWNER, block) as usize;
    if owner != 0 {
        let count = blocks_for(get(book, LEN, owner - 1));
        values.extend([count - 1, count].iter());
    }
    values
}
