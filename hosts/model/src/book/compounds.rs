//! Damage to two or more numbers at once, mostly such as may leave the book sound.

use super::damage::Damage;
use super::script::Write;
use super::*;
use crate::random::Random;

const SWAPPED: [Table; 12] = [
    ID,
    MASK,
    FIXED,
    QUOTA,
    LEN,
    LABEL_DEFAULT,
    LABEL_WORDS,
    CLEAR_DEFAULT,
    LINK_FROM,
    LINK_TO,
    OWNER,
    INDEX,
];

fn write(table: Table, number: usize, value: u64) -> Write {
    Write { table, number, value }
}

/// Some of each sort; an empty list of writes means that the book has no place for it.
pub fn compounds(random: &mut Random, book: &[u8]) -> Vec<Damage> {
    let mut damages = Vec::new();
    for table in SWAPPED.iter() {
        for _ in 0..3 {
            damages.push(Damage { sort: "swap", writes: swap(random, book, *table) });
        }
    }
    for _ in 0..3 {
        damages.push(Damage { sort: "exchange blocks", writes: exchange_blocks(random, book) });
        damages.push(Damage { sort: "move a block", writes: move_block(random, book) });
        damages.push(Damage { sort: "add a block", writes: add_block(random, book) });
        damages.push(Damage { sort: "drop a block", writes: drop_block(random, book) });
        damages.push(Damage { sort: "move a link", writes: move_link(random, book) });
        damages.push(Damage { sort: "link again", writes: link_again(random, book) });
        damages.push(Damage { sort: "wake a row", writes: wake_row(random, book) });
        damages.push(Damage { sort: "free a row", writes: free_row(random, book) });
        damages.push(Damage { sort: "circle", writes: circle(random, book) });
        damages.push(Damage { sort: "new root", writes: new_root(random, book) });
        damages.push(Damage { sort: "two roots", writes: two_roots(random, book) });
        damages.push(Damage { sort: "second link", writes: second_link(random, book) });
        damages.push(Damage { sort: "second link", writes: second_link(random, book) });
    }
    damages.retain(|damage| !damage.writes.is_empty());
    damages
}

fn used_numbers(book: &[u8], table: Table) -> Vec<usize> {
    (0..table.count).filter(|number| in_use(book, table, *number)).collect()
}

fn free_numbers(book: &[u8], table: Table) -> Vec<usize> {
    (0..table.count).filter(|number| get(book, table, *number) == 0).collect()
}

/// Nothing where there is nothing to pick from.
fn some(random: &mut Random, from: &[usize]) -> Option<usize> {
    random.choose(from, 1).first().copied()
}

fn swap(random: &mut Random, book: &[u8], table: Table) -> Vec<Write> {
    match random.choose(&used_numbers(book, table), 2)[..] {
        [a, b] => vec![write(table, a, get(book, table, b)), write(table, b, get(book, table, a))],
        _ => vec![],
    }
}

/// Two blocks change places, with owner and index.
fn exchange_blocks(random: &mut Random, book: &[u8]) -> Vec<Write> {
    match random.choose(&used_numbers(book, OWNER), 2)[..] {
        [a, b] => vec![
            write(OWNER, a, get(book, OWNER, b)),
            write(INDEX, a, get(book, INDEX, b)),
            write(OWNER, b, get(book, OWNER, a)),
            write(INDEX, b, get(book, INDEX, a)),
        ],
        _ => vec![],
    }
}

/// A free block takes the place of one in use.
fn move_block(random: &mut Random, book: &[u8]) -> Vec<Write> {
    match (some(random, &used_numbers(book, OWNER)), some(random, &free_numbers(book, OWNER))) {
        (Some(a), Some(b)) => vec![
            write(OWNER, b, get(book, OWNER, a)),
            write(INDEX, b, get(book, INDEX, a)),
            write(OWNER, a, 0),
        ],
        _ => vec![],
    }
}

/// A segment grows by a block.
fn add_block(random: &mut Random, book: &[u8]) -> Vec<Write> {
    match (some(random, &rows_of_kind(book, SEGMENT)), some(random, &free_numbers(book, OWNER))) {
        (Some(row), Some(block)) => {
            let len = get(book, LEN, row);
            let index = blocks_for(len);
            let longer = index * BLOCK_LEN + random.between(1, BLOCK_LEN);
            vec![write(LEN, row, longer), write(OWNER, block, row as u64 + 1), write(INDEX, block, index)]
        }
        _ => vec![],
    }
}

/// A segment loses a block, mostly its last.
fn drop_block(random: &mut Random, book: &[u8]) -> Vec<Write> {
    let used = used_numbers(book, OWNER);
    match some(random, &used) {
        None => vec![],
        Some(chosen) => {
            let owner = get(book, OWNER, chosen);
            let count = blocks_for(get(book, LEN, owner as usize - 1));
            let is_last =
                |block: &&usize| get(book, OWNER, **block) == owner && get(book, INDEX, **block) + 1 == count;
            let last = used.iter().find(is_last).copied().unwrap_or(chosen);
            let block = if random.chance(70) { last } else { chosen };
            vec![write(LEN, owner as usize - 1, (count - 1) * BLOCK_LEN), write(OWNER, block, 0)]
        }
    }
}

/// A free link takes the place of one in use; now and then the old one stays.
fn move_link(random: &mut Random, book: &[u8]) -> Vec<Write> {
    match (some(random, &used_numbers(book, LINK_FROM)), some(random, &free_numbers(book, LINK_FROM))) {
        (Some(a), Some(b)) => {
            let mut writes =
                vec![write(LINK_FROM, b, get(book, LINK_FROM, a)), write(LINK_TO, b, get(book, LINK_TO, a))];
            if random.chance(60) {
                writes.push(write(LINK_FROM, a, 0));
            }
            writes
        }
        _ => vec![],
    }
}

/// One more link of an object, mostly of a fixed segment, into any container, mostly another.
fn link_again(random: &mut Random, book: &[u8]) -> Vec<Write> {
    let fixed = |row: &usize| get(book, FIXED, *row) == 1 || random.chance(10);
    let segments: Vec<usize> = rows_of_kind(book, SEGMENT).into_iter().filter(fixed).collect();
    let container = some(random, &rows_of_kind(book, CONTAINER));
    match (some(random, &segments), container, some(random, &free_numbers(book, LINK_FROM))) {
        (Some(row), Some(container), Some(link)) => {
            vec![write(LINK_FROM, link, container as u64 + 1), write(LINK_TO, link, row as u64)]
        }
        _ => vec![],
    }
}

/// A free row becomes a thread, linked by a free link that names it, or by any.
fn wake_row(random: &mut Random, book: &[u8]) -> Vec<Write> {
    let rows = free_numbers(book, KIND);
    let links = free_numbers(book, LINK_FROM);
    let ready =
        |link: &usize| rows.contains(&(get(book, LINK_TO, *link) as usize)) && get(book, LINK_TO, *link) != 0;
    let link = links.iter().copied().find(ready).or_else(|| some(random, &links));
    match (link, some(random, &rows_of_kind(book, CONTAINER)), some(random, &rows)) {
        (Some(link), Some(container), Some(row)) => {
            let named = get(book, LINK_TO, link) as usize;
            let row = if rows.contains(&named) { named } else { row };
            let kind = random.pick(&[THREAD, THREAD, GATE, SEGMENT, CONTAINER]);
            vec![
                write(KIND, row, kind),
                write(LINK_FROM, link, container as u64 + 1),
                write(LINK_TO, link, row as u64),
            ]
        }
        _ => vec![],
    }
}

/// An object goes with all its links; if it is no empty one, what it held is left over.
fn free_row(random: &mut Random, book: &[u8]) -> Vec<Write> {
    match some(random, &rows_in_use(book)) {
        None => vec![],
        Some(row) => {
            let its = |link: &usize| get(book, LINK_TO, *link) == row as u64;
            let links = used_numbers(book, LINK_FROM).into_iter().filter(its);
            let mut writes = vec![write(KIND, row, FREE)];
            writes.extend(links.map(|link| write(LINK_FROM, link, 0)));
            writes
        }
    }
}

/// Two containers, each in the other: they hang under nothing.
fn circle(random: &mut Random, book: &[u8]) -> Vec<Write> {
    let to = |link: usize| get(book, LINK_TO, link);
    let contains = |link: &usize| get(book, KIND, to(*link) as usize) == CONTAINER;
    let links: Vec<usize> = used_numbers(book, LINK_FROM).into_iter().filter(contains).collect();
    match random.choose(&links, 2)[..] {
        [a, b] => vec![write(LINK_FROM, a, to(b) + 1), write(LINK_FROM, b, to(a) + 1)],
        _ => vec![],
    }
}

/// The root has another id; now and then the field does not follow.
fn new_root(random: &mut Random, book: &[u8]) -> Vec<Write> {
    match root_row(book) {
        None => vec![],
        Some(row) => {
            let id = random.between(1, get(book, NEXT, 0) - 1);
            let field = if random.chance(80) { id } else { get(book, ROOT, 0) };
            vec![write(ID, row, id), write(ROOT, 0, field)]
        }
    }
}

/// A second container without a link, with a root's quota or its own.
fn two_roots(random: &mut Random, book: &[u8]) -> Vec<Write> {
    let contains = |link: &usize| get(book, KIND, get(book, LINK_TO, *link) as usize) == CONTAINER;
    let links: Vec<usize> = used_numbers(book, LINK_FROM).into_iter().filter(contains).collect();
    match some(random, &links) {
        None => vec![],
        Some(link) => {
            let row = get(book, LINK_TO, link) as usize;
            let quota = random.pick(&[ROOT_QUOTA, get(book, QUOTA, row)]);
            let root = random.pick(&[get(book, ROOT, 0), get(book, ID, row)]);
            vec![write(LINK_FROM, link, 0), write(QUOTA, row, quota), write(ROOT, 0, root)]
        }
    }
}

/// A thread, gate or container gets a second link where there is room, and 1 in its unused number `fixed`.
fn second_link(random: &mut Random, book: &[u8]) -> Vec<Write> {
    let links = links_in_use(book);
    let linked = |row: &usize| get(book, KIND, *row) != SEGMENT && !parents(&links, *row).is_empty();
    let objects: Vec<usize> = rows_in_use(book).into_iter().filter(linked).collect();
    match (some(random, &objects), some(random, &free_numbers(book, LINK_FROM))) {
        (Some(row), Some(link)) => match some(random, &with_room_for(book, &links, row)) {
            Some(container) => vec![
                write(LINK_FROM, link, container as u64 + 1),
                write(LINK_TO, link, row as u64),
                write(FIXED, row, 1),
            ],
            None => vec![],
        },
        _ => vec![],
    }
}

/// Containers with room for the row's quota that it is not in.
fn with_room_for(book: &[u8], links: &[(usize, usize)], row: usize) -> Vec<usize> {
    let fits =
        |other: &usize| use_of(book, links, *other) + get(book, QUOTA, row) <= get(book, QUOTA, *other);
    let others =
        rows_of_kind(book, CONTAINER).into_iter().filter(|other| !parents(links, row).contains(other));
    others.filter(fits).collect()
}
