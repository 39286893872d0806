//! Gives things their rows, links and blocks, ids, labels and bytes, and fills unused numbers with whatever.

use super::shapes::Thing;
use super::*;
use crate::random::Random;
use std::collections::BTreeSet;

/// Which rows, links and blocks are taken first.
#[derive(Clone, Copy, Debug)]
pub enum Order {
    Lowest,
    Highest,
    Shuffled,
}

#[derive(Clone, Copy, Debug)]
pub struct Style {
    /// The next number, above the count of things.
    pub next: u64,
    pub order: Order,
    /// How many unused numbers in a hundred hold something.
    pub garbage: u64,
    /// The most pairs in a label, and whether each has as many.
    pub pairs: usize,
    pub full: bool,
}

pub(super) struct Placer<'a> {
    pub(super) random: &'a mut Random,
    style: Style,
    pub(super) book: Vec<u8>,
    /// The rows, links and blocks in the order they are taken.
    pub(super) rows: Vec<usize>,
    pub(super) links: Vec<usize>,
    pub(super) blocks: Vec<usize>,
}

/// The book that says just these things.
pub fn place(random: &mut Random, things: &[Thing], style: Style) -> Vec<u8> {
    let mut placer = Placer::new(random, style);
    let spare_id = style.next > things.len() as u64 + 1;
    let ids = distinct(placer.random, style.next, things.len() + usize::from(spare_id));
    let ids = reordered(placer.random, ids);
    placer.things(things, &ids);
    if spare_id && style.garbage > 0 {
        placer.ghost(things.len(), ids[things.len()]);
    }
    placer.garbage();
    placer.book
}

impl<'a> Placer<'a> {
    pub(super) fn new(random: &'a mut Random, style: Style) -> Placer<'a> {
        let rows = order(random, style.order, ROWS);
        let links = order(random, style.order, LINKS);
        let blocks = order(random, style.order, BLOCKS);
        Placer { random, style, book: vec![0; BOOK_LEN], rows, links, blocks }
    }
}

impl Placer<'_> {
    pub(super) fn set(&mut self, table: Table, number: usize, value: u64) {
        set(&mut self.book, table, number, value);
    }

    fn things(&mut self, things: &[Thing], ids: &[u64]) {
        self.set(NEXT, 0, self.style.next);
        self.set(ROOT, 0, ids[0]);
        let mut links = self.links.clone().into_iter();
        let mut blocks = self.blocks.clone().into_iter();
        for (place, thing) in things.iter().enumerate() {
            let row = self.rows[place];
            self.row(row, thing, ids[place]);
            for (parent, link) in thing.parents.iter().zip(&mut links) {
                self.set(LINK_FROM, link, self.rows[*parent] as u64 + 1);
                self.set(LINK_TO, link, row as u64);
            }
            for (index, block) in (0..blocks_for(thing.len)).zip(&mut blocks) {
                self.set(OWNER, block, row as u64 + 1);
                self.set(INDEX, block, index);
            }
        }
        self.links = links.collect();
        self.blocks = blocks.collect();
    }

    fn row(&mut self, row: usize, thing: &Thing, id: u64) {
        self.set(ID, row, id);
        self.set(KIND, row, thing.kind);
        self.set(MASK, row, thing.mask);
        self.set(FIXED, row, thing.fixed);
        self.set(QUOTA, row, thing.quota);
        self.set(LEN, row, thing.len);
        self.labels(row, thing.kind);
        for table in [DESCRIPTION, CLOSURE].iter() {
            let number = row * 32 + self.random.below(32) as usize;
            if in_use(&self.book, *table, number) {
                let byte = self.random.below(256);
                self.set(*table, number, byte);
            }
        }
        if thing.kind == GATE {
            let entry = self.random.pick(&[0, 1, id, u64::MAX]);
            self.set(ENTRY, row, entry);
        }
    }

    fn labels(&mut self, row: usize, kind: u64) {
        let pool = distinct(self.random, self.style.next, 12);
        let names = self.names(&pool);
        if kind == THREAD || kind == GATE {
            let others = self.names(&pool);
            let clearance = starless(self.random, &others);
            let label = below(self.random, &names, &clearance);
            self.label(LABEL_DEFAULT, LABEL_WORDS, row, &label);
            self.label(CLEAR_DEFAULT, CLEAR_WORDS, row, &clearance);
        } else {
            let label = starless(self.random, &names);
            self.label(LABEL_DEFAULT, LABEL_WORDS, row, &label);
        }
    }

    fn names(&mut self, pool: &[u64]) -> Vec<u64> {
        let most = self.style.pairs.min(pool.len());
        let count = if self.style.full { most } else { self.random.below(most as u64 + 1) as usize };
        self.random.choose(pool, count)
    }

    pub(super) fn label(&mut self, default: Table, words: Table, row: usize, label: &Label) {
        self.set(default, row, u64::from(label.default));
        for (place, word) in label.words.iter().enumerate() {
            self.set(words, row * WORDS + place, *word);
        }
    }

    /// A free row that would be a thread but for its kind, and a free link that would lead to it.
    fn ghost(&mut self, place: usize, id: u64) {
        if place < ROWS && !self.links.is_empty() {
            let row = self.rows[place];
            let thread = Thing { kind: THREAD, quota: 1, mask: 0, fixed: 0, len: 0, parents: vec![] };
            self.row(row, &thread, id);
            self.set(KIND, row, FREE);
            let link = self.links.remove(0);
            self.set(LINK_TO, link, row as u64);
        }
    }

    pub(super) fn garbage(&mut self) {
        for table in TABLES.iter() {
            for number in 0..table.count {
                if self.may_be_littered(*table, number) {
                    let value = self.litter(*table);
                    self.set(*table, number, value);
                }
            }
        }
    }

    /// Only what is unused and still 0, and no number that marks a row, link or block as free.
    fn may_be_littered(&mut self, table: Table, number: usize) -> bool {
        let marks = [KIND, LINK_FROM, OWNER].contains(&table);
        let scale = if table.count == 8_192 { 40 } else { 1 };
        !marks
            && !in_use(&self.book, table, number)
            && get(&self.book, table, number) == 0
            && self.random.below(100 * scale) < self.style.garbage
    }

    /// Anything, or what another number of the table says.
    fn litter(&mut self, table: Table) -> u64 {
        let number = self.random.below(table.count as u64) as usize;
        match self.random.below(3) {
            0 => self.random.draw() & table.largest(),
            1 => table.largest(),
            _ => get(&self.book, table, number),
        }
    }
}

fn order(random: &mut Random, order: Order, count: usize) -> Vec<usize> {
    match order {
        Order::Lowest => (0..count).collect(),
        Order::Highest => (0..count).rev().collect(),
        Order::Shuffled => reordered(random, (0..count).collect()),
    }
}

pub(super) fn reordered<T: Clone>(random: &mut Random, mut from: Vec<T>) -> Vec<T> {
    for i in (1..from.len()).rev() {
        from.swap(i, random.below(i as u64 + 1) as usize);
    }
    from
}

/// `count` different numbers from 1 to below `next`, rising, or all there are: low ones, high ones and any.
pub fn distinct(random: &mut Random, next: u64, count: usize) -> Vec<u64> {
    let near = (next - 1).min(count as u64 + 4);
    let mut found = BTreeSet::new();
    while (found.len() as u64) < (count as u64).min(next - 1) {
        found.insert(match random.below(3) {
            0 => random.between(1, near),
            1 => next - random.between(1, near),
            _ => random.between(1, next - 1),
        });
    }
    found.into_iter().collect()
}

/// Any label without star that names just these categories.
fn starless(random: &mut Random, names: &[u64]) -> Label {
    let default = random.between(LEVEL_0.into(), LEVEL_3.into()) as u8;
    let codes: Vec<u8> = (LEVEL_0..=LEVEL_3).filter(|code| *code != default).collect();
    let pairs: Vec<(u64, u8)> = names.iter().map(|name| (*name, random.pick(&codes))).collect();
    Label::of(default, &pairs)
}

/// A label that names just these categories and flows to the clearance, often only just.
fn below(random: &mut Random, names: &[u64], clearance: &Label) -> Label {
    let unnamed = clearance.pairs().into_iter().filter(|(category, _)| !names.contains(category));
    let most = unnamed.map(|(_, code)| code).fold(clearance.default, u8::min);
    let default = if random.chance(50) { most } else { random.between(1, most.into()) as u8 };
    let mut pairs = Vec::new();
    for name in names {
        let codes: Vec<u8> = (STAR..=clearance.level(*name)).filter(|code| *code != default).collect();
        let highest = codes[codes.len() - 1];
        let code = if random.chance(50) { highest } else { random.pick(&codes) };
        pairs.push((*name, code));
    }
    Label::of(default, &pairs)
}
