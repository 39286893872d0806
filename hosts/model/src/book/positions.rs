//! Which row, link or block of a book each thing has. RULES 1.10: ".. the free one with the lowest number is
//! taken, so what was freed is used again."

use super::*;
use crate::model::{Object, World};

#[derive(Clone, Debug, PartialEq, Eq)]
pub struct Positions {
    /// The object's id.
    pub rows: Vec<Option<u64>>,
    /// The container's id and the object's.
    pub links: Vec<Option<(u64, u64)>>,
    /// The segment's id, and which of its blocks.
    pub blocks: Vec<Option<(u64, u64)>>,
}

impl Positions {
    /// Those that a sound book says.
    pub fn of(book: &[u8]) -> Positions {
        let id = |row: usize| get(book, ID, row);
        let row = |row| if get(book, KIND, row) == FREE { None } else { Some(id(row)) };
        let link = |link| match get(book, LINK_FROM, link) as usize {
            0 => None,
            from => Some((id(from - 1), id(get(book, LINK_TO, link) as usize))),
        };
        let block = |block| match get(book, OWNER, block) as usize {
            0 => None,
            owner => Some((id(owner - 1), get(book, INDEX, block))),
        };
        Positions {
            rows: (0..ROWS).map(row).collect(),
            links: (0..LINKS).map(link).collect(),
            blocks: (0..BLOCKS).map(block).collect(),
        }
    }

    /// Those after a call that made one world into another.
    pub fn after(&self, before: &World, after: &World) -> Positions {
        let mut positions = self.clone();
        positions.free_what_is_gone(after);
        positions.place_what_is_new(before, after);
        positions
    }

    fn free_what_is_gone(&mut self, after: &World) {
        free(&mut self.rows, |id| !after.objects.contains_key(id));
        free(&mut self.links, |link| !after.links.contains(link));
        free(&mut self.blocks, |(id, index)| *index >= after.objects.get(id).map_or(0, block_count));
    }

    /// RULES 8.14: "Blocks are gained in the order of their place in the segment." Each is the lowest free
    /// one (1.10).
    fn place_what_is_new(&mut self, before: &World, after: &World) {
        for (id, object) in &after.objects {
            let old = before.objects.get(id);
            if old.is_none() {
                take_lowest(&mut self.rows, *id);
            }
            for index in old.map_or(0, block_count)..block_count(object) {
                take_lowest(&mut self.blocks, (*id, index));
            }
        }
        for link in after.links.difference(&before.links) {
            take_lowest(&mut self.links, *link);
        }
    }

    /// The block that a segment's block k stands in.
    pub fn block_of(&self, segment: u64, k: u64) -> Option<usize> {
        self.blocks.iter().position(|block| *block == Some((segment, k)))
    }
}

fn block_count(object: &Object) -> u64 {
    blocks_for(object.bytes().len() as u64)
}

fn free<T>(places: &mut [Option<T>], gone: impl Fn(&T) -> bool) {
    for place in places.iter_mut() {
        if place.as_ref().map_or(false, &gone) {
            *place = None;
        }
    }
}

fn take_lowest<T>(places: &mut [Option<T>], thing: T) {
    let lowest = places.iter_mut().find(|place| place.is_none());
    *lowest.expect("no answer means \"store full\"") = Some(thing);
}

#[cfg(test)]
mod tests {
    use super::*;
    use crate::ask::{resize, segment, thread, unreference};
    use crate::book::books::start_book;
    use crate::labels::{Label, LEVEL_1, LEVEL_2};

    /// After these calls of thread 101, all granted; the first has number 102.
    fn after(calls: &[crate::model::Call]) -> Positions {
        let mut positions = Positions::of(&start_book(100));
        let mut world = World::start(100).expect("a first number that a start takes");
        for call in calls {
            let before = world.clone();
            assert_eq!(world.call(101, call).answer, 0, "{:?}", call);
            positions = positions.after(&before, &world);
        }
        positions
    }

    #[test]
    fn what_is_freed_is_used_again_and_the_lowest_first() {
        let one = Label::plain(LEVEL_1);
        let two = Label::plain(LEVEL_2);
        let calls = [
            segment(100, one, 5),
            resize(100, 102, 128),
            segment(100, one, 5),
            resize(100, 104, 64),
            unreference(100, 102),
            thread(100, one, two),
            resize(100, 104, 256),
        ];
        let found = after(&calls);
        assert_eq!(found.rows[..5], [Some(100), Some(101), Some(107), Some(104), None]);
        assert_eq!(found.links[..4], [Some((100, 101)), Some((100, 107)), Some((100, 104)), None]);
        let blocks = [Some((104, 1)), Some((104, 2)), Some((104, 0)), Some((104, 3)), None];
        assert_eq!(found.blocks[..5], blocks);
        assert_eq!(found.block_of(104, 3), Some(3));
    }
}
