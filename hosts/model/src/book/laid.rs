//! A world laid out as a book and a data area: at any rows, links and blocks, anything in what is unused.

use super::place::{reordered, Order, Placer, Style};
use super::*;
use crate::model::{Body, Object, World};
use crate::random::Random;
use std::collections::BTreeMap;

const AREA_LEN: usize = BLOCKS * BLOCK_LEN as usize;

/// The book and the area; `garbage` is how many unused numbers in a hundred hold something.
pub fn laid(random: &mut Random, world: &World, order: Order, garbage: u64) -> (Vec<u8>, Vec<u8>) {
    let mut area = vec![0; AREA_LEN];
    if garbage > 0 {
        area.iter_mut().for_each(|byte| *byte = random.draw() as u8);
    }
    let style = Style { next: world.next, order, garbage, pairs: 0, full: false };
    let mut layer = Layer { placer: Placer::new(random, style), area };
    layer.world(world);
    if garbage > 0 {
        layer.placer.garbage();
    }
    (layer.placer.book, layer.area)
}

struct Layer<'a> {
    placer: Placer<'a>,
    area: Vec<u8>,
}

impl Layer<'_> {
    fn world(&mut self, world: &World) {
        self.placer.set(NEXT, 0, world.next);
        self.placer.set(ROOT, 0, root_of(world));
        let ids: Vec<u64> = world.objects.keys().copied().collect();
        let ids = reordered(self.placer.random, ids);
        let rows: BTreeMap<u64, usize> = ids.into_iter().zip(self.placer.rows.clone()).collect();
        for (id, object) in &world.objects {
            self.row(rows[id], *id, object);
        }
        let links: Vec<(u64, u64)> = world.links.iter().copied().collect();
        let links = reordered(self.placer.random, links);
        for ((d, o), link) in links.into_iter().zip(self.placer.links.clone()) {
            self.placer.set(LINK_FROM, link, rows[&d] as u64 + 1);
            self.placer.set(LINK_TO, link, rows[&o] as u64);
        }
    }

    fn row(&mut self, row: usize, id: u64, object: &Object) {
        let placer = &mut self.placer;
        placer.set(ID, row, id);
        placer.set(KIND, row, object.kind().number().into());
        placer.set(QUOTA, row, object.quota);
        placer.label(LABEL_DEFAULT, LABEL_WORDS, row, &object.label);
        for (i, byte) in object.description.iter().enumerate() {
            placer.set(DESCRIPTION, row * 32 + i, (*byte).into());
        }
        if let Some(clearance) = object.clearance() {
            placer.label(CLEAR_DEFAULT, CLEAR_WORDS, row, &clearance);
        }
        match &object.body {
            Body::Thread { .. } => {}
            Body::Gate { entry, closure, .. } => self.gate(row, *entry, closure),
            Body::Segment { bytes, fixed } => self.segment(row, bytes, *fixed),
            Body::Container { mask } => placer.set(MASK, row, *mask),
        }
    }

    fn gate(&mut self, row: usize, entry: u64, closure: &[u8]) {
        self.placer.set(ENTRY, row, entry);
        for (i, byte) in closure.iter().enumerate() {
            self.placer.set(CLOSURE, row * 32 + i, (*byte).into());
        }
    }

    /// Each block of the segment is the next one in the order.
    fn segment(&mut self, row: usize, bytes: &[u8], fixed: bool) {
        self.placer.set(FIXED, row, fixed.into());
        self.placer.set(LEN, row, bytes.len() as u64);
        for (index, part) in bytes.chunks(BLOCK_LEN as usize).enumerate() {
            let block = self.placer.blocks.remove(0);
            self.placer.set(OWNER, block, row as u64 + 1);
            self.placer.set(INDEX, block, index as u64);
            let at = block * BLOCK_LEN as usize;
            self.area[at..at + part.len()].copy_from_slice(part);
        }
    }
}

/// RULES 5.5: "One container of quota 256 is the root, linked nowhere, .."
fn root_of(world: &World) -> u64 {
    let linked = |id: &u64| world.links.iter().any(|(_, o)| o == id);
    world.containers().into_iter().find(|id| !linked(id)).expect("a container that no link leads to")
}

#[cfg(test)]
mod tests {
    use super::*;
    use crate::book::books::any_book;

    #[test]
    fn a_world_is_the_same_wherever_it_is_laid() {
        for seed in 0..60 {
            let mut random = Random::new(seed);
            let book = any_book(&mut random);
            let area: Vec<u8> = (0..AREA_LEN).map(|_| random.draw() as u8).collect();
            let world = spelt::world(&book, &area);
            for order in [Order::Lowest, Order::Highest, Order::Shuffled].iter() {
                let (other, other_area) = laid(&mut random, &world, *order, 10);
                assert!(sound(&other));
                assert!(spelt::world(&other, &other_area) == world);
            }
        }
    }
}
