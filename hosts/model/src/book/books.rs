//! The sound books that the cases start from.

use super::place::{place, Order, Style};
use super::shapes::*;
use super::*;
use crate::random::Random;

const ORDERS: [Order; 3] = [Order::Lowest, Order::Highest, Order::Shuffled];

/// How many cases of one sort a book may give: more where books of its size are few.
pub struct Start {
    pub book: Vec<u8>,
    pub of_a_sort: usize,
}

pub fn all_books(random: &mut Random) -> Vec<Start> {
    let mut books = vec![Start { book: start_book(100), of_a_sort: 2 }];
    books.extend(small_books(random).into_iter().map(|book| Start { book, of_a_sort: 1 }));
    books.extend(middling_books(random).into_iter().map(|book| Start { book, of_a_sort: 1 }));
    books.extend(large_books(random).into_iter().map(|book| Start { book, of_a_sort: 2 }));
    books
}

/// One sound book of any size and style.
pub fn any_book(random: &mut Random) -> Vec<u8> {
    let things = match random.below(12) {
        0 => flat(random),
        1 => shared(random),
        2 => many_segments(random),
        3 => tight(random, 6),
        4 => chain(random, 60),
        _ => {
            let count = random.between(1, 60) as usize;
            let most = random.pick(&[3, 5, 40, 255]);
            grown(random, count, most)
        }
    };
    let turn = random.below(24) as usize;
    let garbage = random.pick(&[0, 3, 10]);
    styled(random, turn, &things, garbage)
}

/// RULES 7.3: "Container f becomes the root, with label {1}, quota 256 and mask 0; thread f + 1 is linked in
/// it, with label {1} and clearance {2}; .."
pub fn start_book(first: u64) -> Vec<u8> {
    let mut book = vec![0; BOOK_LEN];
    set(&mut book, NEXT, 0, first + 2);
    set(&mut book, ROOT, 0, first);
    for (row, kind, quota) in [(0, CONTAINER, ROOT_QUOTA), (1, THREAD, 1)].iter() {
        set(&mut book, ID, *row, first + *row as u64);
        set(&mut book, KIND, *row, *kind);
        set(&mut book, QUOTA, *row, *quota);
        set(&mut book, LABEL_DEFAULT, *row, LEVEL_1.into());
    }
    set(&mut book, CLEAR_DEFAULT, 1, LEVEL_2.into());
    set(&mut book, LINK_FROM, 0, 1);
    set(&mut book, LINK_TO, 0, 1);
    book
}

/// The next number: the least there can be, or one near an edge, or any.
fn next_for(random: &mut Random, turn: usize, count: usize) -> u64 {
    match turn % 6 {
        0 => PAST_THE_END,
        1 => count as u64 + 1,
        2 => PAST_THE_END - 1,
        3 => count as u64 + random.between(2, 40),
        4 => random.between(1 << 20, 1 << 33),
        _ => random.between(1 << 40, PAST_THE_END),
    }
}

fn style(random: &mut Random, turn: usize, count: usize, garbage: u64) -> Style {
    let next = next_for(random, turn, count);
    let order = ORDERS[turn / 2 % 3];
    let pairs = random.pick(&[2, 4, 8, 8]);
    Style { next, order, garbage, pairs, full: turn % 4 == 0 }
}

fn styled(random: &mut Random, turn: usize, things: &[Thing], garbage: u64) -> Vec<u8> {
    let style = style(random, turn, things.len(), garbage);
    place(random, things, style)
}

/// 1 to 10 objects; one book has something in every unused number but descriptions and closures.
fn small_books(random: &mut Random) -> Vec<Vec<u8>> {
    let mut shapes = vec![alone(0), alone(9), start()];
    shapes.extend([0, 1, 63, 64, 65, 16_192, 16_193, LONGEST].iter().map(|len| one_segment(*len)));
    for turn in 0..44 {
        let most = random.pick(&[3, 5, 40, 255]);
        shapes.push(grown(random, 2 + turn % 9, most));
    }
    let mut books = Vec::new();
    for (turn, things) in shapes.iter().enumerate() {
        let garbage = if turn == 20 { 100 } else { random.pick(&[0, 2, 4]) };
        books.push(styled(random, turn, things, garbage));
    }
    books
}

fn middling_books(random: &mut Random) -> Vec<Vec<u8>> {
    let mut shapes = vec![shared(random), chain(random, 30)];
    for turn in 0..18 {
        shapes.push(grown(random, 36 + turn, 4));
    }
    let mut books = Vec::new();
    for (turn, things) in shapes.iter().enumerate() {
        let garbage = random.pick(&[0, 3, 8]);
        books.push(styled(random, turn, things, garbage));
    }
    books
}

/// 256 objects, 255 links, 254 blocks: each as far as the quotas allow.
fn large_books(random: &mut Random) -> Vec<Vec<u8>> {
    let shapes = [
        flat(random),
        chain(random, ROWS),
        tight(random, 0),
        tight(random, 0),
        tight(random, 6),
        many_segments(random),
    ];
    let mut books = Vec::new();
    for (turn, things) in shapes.iter().enumerate() {
        let mut style = style(random, turn, things.len(), 10);
        style.full = turn < 1;
        style.pairs = if turn < 1 { 8 } else { 4 };
        books.push(place(random, things, style));
    }
    books
}
