//! The kernel and the model side by side: every call goes to both, and everything that came of it is compared.

use crate::ask::{ask, Given, UNTOUCHED};
use crate::guarded::Guarded;
use flytewood_kernel::{Kernel, AREA_LEN};
use flytewood_model::book::positions::Positions;
use flytewood_model::book::*;
use flytewood_model::model::{Call, Outcome, World, GRANTED, NUMBERS_ENDED};

/// RULES 6.1: "An area's length is wrong, or the book is not sound."
pub const BAD_AREA: u64 = 1;

/// How many calls go by between two looks at the whole book's soundness.
const SOUND_EVERY: usize = 40;

/// Whether things are as they should be; an error says what is not.
pub type Checked = Result<(), String>;

pub fn need(holds: bool, otherwise: impl FnOnce() -> String) -> Checked {
    if holds {
        Ok(())
    } else {
        Err(otherwise())
    }
}

#[derive(Clone)]
pub struct Bench {
    pub book: Guarded,
    pub area: Guarded,
    pub world: World,
    pub positions: Positions,
    calls: usize,
}

impl Bench {
    /// Starts the kernel and the model, over areas that hold something else.
    pub fn start(first: u64, litter: u8) -> Result<Bench, String> {
        let mut book = Guarded::new(&vec![litter; BOOK_LEN]);
        let mut area = Guarded::new(&vec![litter; AREA_LEN]);
        let answer = Kernel::over(book.bytes_mut(), area.bytes_mut()).start(first);
        need(answer == GRANTED, || format!("start {} answered {}", first, answer))?;
        need(book.intact() && area.intact(), || "start wrote outside the areas".to_string())?;
        need(area.bytes().iter().all(|byte| *byte == 0), || "start left something in the area".to_string())?;
        need(get(book.bytes(), ROOT, 0) == first, || "start made another root".to_string())?;
        let world = World::start(first).map_err(|answer| format!("the model answered {}", answer))?;
        let bench = Bench { positions: started_positions(first), world, book, area, calls: 0 };
        bench.spells_the_world()?;
        bench.is_sound()?;
        Ok(bench)
    }

    /// Over a sound book from elsewhere: the world is the one it spells.
    pub fn over(book: &[u8], area: &[u8]) -> Bench {
        Bench {
            book: Guarded::new(book),
            area: Guarded::new(area),
            world: spelt::world(book, area),
            positions: Positions::of(book),
            calls: 0,
        }
    }

    /// One call to both. An error says how they differ.
    pub fn step(&mut self, caller: u64, call: &Call) -> Result<Outcome, String> {
        Ok(self.step_from(caller, call)?.outcome)
    }

    /// The same, with what was before.
    pub fn step_from(&mut self, caller: u64, call: &Call) -> Result<Step, String> {
        let before = self.world.clone();
        let said = self.world.call(caller, call);
        let old = Old { book: self.book.bytes().to_vec(), area: self.area.bytes().to_vec() };
        let given = ask(&mut self.book, &mut self.area, caller, call, self.calls % 2 == 1);
        let was = self.positions.clone();
        let compared = given.and_then(|given| self.compare(call, &before, &said, &old, &given));
        self.calls += 1;
        compared.map_err(|difference| {
            let asked = format!("number {}: {} asks {:?}", before.next, caller, call);
            format!("{}: {} (the model says {:?})", asked, difference, said)
        })?;
        Ok(Step { before, was, outcome: said })
    }

    fn compare(&mut self, call: &Call, before: &World, said: &Outcome, old: &Old, given: &Given) -> Checked {
        need((given.answer, given.value) == (said.answer, said.value), || {
            format!("the kernel says {} with value {}", given.answer, given.value)
        })?;
        let positions = self.positions.after(before, &self.world);
        compare_outputs(call, said, given, &positions)?;
        if said.answer == GRANTED {
            old.only_what_concerns_the_call_changed(self.book.bytes(), &self.positions, &positions)?;
            let was = Standing { world: before, positions: &self.positions };
            old.area_follows(
                self.area.bytes(),
                &was,
                &Standing { world: &self.world, positions: &positions },
            )?;
            self.positions = positions;
            self.spells_the_world()?;
        } else {
            old.nothing_changed_but_the_number(self.book.bytes(), self.area.bytes(), said.answer)?;
            need(get(self.book.bytes(), NEXT, 0) == self.world.next, || {
                "the next number differs".to_string()
            })?;
        }
        if self.calls % SOUND_EVERY == 0 {
            self.book_is_sound()?;
        }
        Ok(())
    }

    /// Each thing is where it should be, and says what the model says.
    fn spells_the_world(&self) -> Checked {
        let found = Positions::of(self.book.bytes());
        need(found == self.positions, || differing_positions(&found, &self.positions))?;
        let spelt = spelt::world(self.book.bytes(), self.area.bytes());
        need(spelt == self.world, || differing_worlds(&spelt, &self.world))
    }

    fn book_is_sound(&self) -> Checked {
        need(sound(self.book.bytes()), || "the book is not sound".to_string())
    }

    /// The book, and the world that it spells.
    pub fn is_sound(&self) -> Checked {
        self.book_is_sound()?;
        need(self.world.sound(), || format!("the model's world: {:?}", self.world.flaws()))
    }

    /// Whether two books that differ where nothing was taken or freed are told apart.
    pub fn sees_a_stray_change(&self, old: &[u8], new: &[u8]) -> bool {
        let old = Old { book: old.to_vec(), area: Vec::new() };
        old.only_what_concerns_the_call_changed(new, &self.positions, &self.positions).is_err()
    }

    /// The host writes something into every byte of the area that no segment has.
    pub fn scribble(&mut self, mut byte: impl FnMut() -> u8) {
        let standing = Standing { world: &self.world, positions: &self.positions };
        let others: Vec<usize> =
            (0..AREA_LEN).filter(|place| !matches!(standing.byte_at(*place), Byte::Own)).collect();
        for place in others {
            self.area.bytes_mut()[place] = byte();
        }
    }
}

/// What a call was answered, and how things stood before it.
pub struct Step {
    pub before: World,
    pub was: Positions,
    pub outcome: Outcome,
}

fn started_positions(first: u64) -> Positions {
    let mut positions =
        Positions { rows: vec![None; ROWS], links: vec![None; LINKS], blocks: vec![None; BLOCKS] };
    positions.rows[0] = Some(first);
    positions.rows[1] = Some(first + 1);
    positions.links[0] = Some((first, first + 1));
    positions
}

fn compare_outputs(call: &Call, said: &Outcome, given: &Given, positions: &Positions) -> Checked {
    let expected = match call {
        Call::EnterGate { output_len, .. } | Call::Look { output_len, .. } if said.answer != GRANTED => {
            vec![UNTOUCHED; *output_len as usize]
        }
        _ => said.output.clone(),
    };
    need(given.output == expected, || format!("the kernel's output is {:?}", given.output))?;
    let place = match call {
        Call::Read { s, k, from, .. } if !said.output.is_empty() => {
            let block = positions.block_of(*s, *k).expect("a granted read's block");
            block as u64 * 64 + from
        }
        _ => 0,
    };
    need(given.place == place, || format!("the part's place is {}, not {}", given.place, place))
}

/// The areas as they were before the call.
struct Old {
    book: Vec<u8>,
    area: Vec<u8>,
}

impl Old {
    /// RULES 6.14: "It leaves both areas and every output as they were, unused bytes too, but for the next
    /// number (4.2).", and not even that after 1 and 2.
    fn nothing_changed_but_the_number(&self, book: &[u8], area: &[u8], answer: u64) -> Checked {
        let kept = if answer == BAD_AREA || answer == NUMBERS_ENDED { 0 } else { NEXT.width };
        need(self.book.len() == book.len() && self.book[kept..] == book[kept..], || {
            "a refusal changed the book".to_string()
        })?;
        need(self.area == area, || "a refusal changed the area".to_string())
    }

    /// A number that is not in use changes only where a row, link or block was taken or freed; in a new row it is 0.
    fn only_what_concerns_the_call_changed(&self, book: &[u8], was: &Positions, is: &Positions) -> Checked {
        for place in differing_places(&self.book, book) {
            let (table, number) = number_at(place);
            let moved = moved(table, number, was, is);
            need(in_use(book, table, number) || moved, || {
                format!("number {} of {} changed, which is unused and stays so", number, table.name)
            })?;
        }
        need(get(&self.book, ROOT, 0) == get(book, ROOT, 0), || "the root changed".to_string())?;
        for row in (0..ROWS).filter(|row| was.rows[*row].is_none() && is.rows[*row].is_some()) {
            unused_fields_are_zero(book, row)?;
        }
        Ok(())
    }

    /// A segment's bytes are compared with the world; here it is what lies outside of them.
    fn area_follows(&self, area: &[u8], was: &Standing, is: &Standing) -> Checked {
        for block in 0..BLOCKS {
            let bytes = block * 64..(block + 1) * 64;
            if was.positions.blocks[block].is_some() || is.positions.blocks[block].is_some() {
                for place in bytes {
                    self.byte_follows(area, was, is, place)?;
                }
            } else {
                need(area[bytes.clone()] == self.area[bytes], || format!("free block {} changed", block))?;
            }
        }
        Ok(())
    }

    /// RULES 8.14: ".. bytes that it loses are set to zero in the area." 8.8: "The blocks of a freed segment
    /// are set to zero." What the rules do not name stays, or is cleared with a block that is taken or freed.
    fn byte_follows(&self, area: &[u8], was: &Standing, is: &Standing, place: usize) -> Checked {
        let (old, new) = (was.byte_at(place), is.byte_at(place));
        let (byte, stays) = (area[place], area[place] == self.area[place]);
        let suits = match (old, new) {
            (_, Byte::Own) => true,
            (Byte::Own, _) => byte == 0,
            (Byte::Past(id), _) if !is.world.objects.contains_key(&id) => byte == 0,
            (Byte::Past(_), Byte::Past(_)) => stays,
            _ => stays || byte == 0,
        };
        need(suits, || format!("byte {} of the area is {}, it was {}", place, byte, self.area[place]))
    }
}

/// A world and where everything of it stands.
struct Standing<'a> {
    world: &'a World,
    positions: &'a Positions,
}

/// Whose a byte of the area is: a segment's own, past the end in a segment's last block, or nobody's.
enum Byte {
    Own,
    Past(u64),
    Free,
}

impl Standing<'_> {
    fn byte_at(&self, place: usize) -> Byte {
        match self.positions.blocks[place / 64] {
            None => Byte::Free,
            Some((id, index)) => {
                let len = self.world.objects[&id].bytes().len();
                let own = index as usize * 64 + place % 64 < len;
                if own {
                    Byte::Own
                } else {
                    Byte::Past(id)
                }
            }
        }
    }
}

/// The places where two books differ.
fn differing_places(old: &[u8], new: &[u8]) -> Vec<usize> {
    let mut places = Vec::new();
    for start in (0..old.len()).step_by(256) {
        let end = (start + 256).min(old.len());
        if old[start..end] != new[start..end] {
            places.extend((start..end).filter(|place| old[*place] != new[*place]));
        }
    }
    places
}

/// The number that a byte of the book belongs to.
fn number_at(place: usize) -> (Table, usize) {
    let table = TABLES.iter().rev().find(|table| table.offset <= place).expect("the first table begins at 0");
    (*table, (place - table.offset) / table.width)
}

/// Whether the row, link or block that a number belongs to is another one's than it was, or free.
fn moved(table: Table, number: usize, was: &Positions, is: &Positions) -> bool {
    match table {
        NEXT | ROOT => false,
        LINK_FROM | LINK_TO => was.links[number] != is.links[number],
        OWNER | INDEX => was.blocks[number] != is.blocks[number],
        _ => was.rows[table.row(number)] != is.rows[table.row(number)],
    }
}

/// docs/BOOK.md: "A create writes every number of its row, and 0 where the kind has none."
fn unused_fields_are_zero(book: &[u8], row: usize) -> Checked {
    for table in TABLES.iter().filter(|table| table.count % ROWS == 0 && ![OWNER, INDEX].contains(table)) {
        let each = table.count / ROWS;
        for number in row * each..(row + 1) * each {
            need(in_use(book, *table, number) || get(book, *table, number) == 0, || {
                format!("number {} of {} is not zero in a new row", number, table.name)
            })?;
        }
    }
    Ok(())
}

fn differing_positions(found: &Positions, expected: &Positions) -> String {
    let row = (0..ROWS).find(|i| found.rows[*i] != expected.rows[*i]);
    let link = (0..LINKS).find(|i| found.links[*i] != expected.links[*i]);
    let block = (0..BLOCKS).find(|i| found.blocks[*i] != expected.blocks[*i]);
    format!("a position differs: row {:?}, link {:?}, block {:?}", row, link, block)
}

fn differing_worlds(found: &World, expected: &World) -> String {
    let differs = |id: &&u64| found.objects.get(id) != expected.objects.get(id);
    let object = found.objects.keys().chain(expected.objects.keys()).find(differs);
    let links = found.links == expected.links;
    format!(
        "the book spells another world: object {:?} differs; links agree: {}; next {} and {}",
        object, links, found.next, expected.next
    )
}
