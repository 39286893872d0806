//! One of the two histories: the archive over its own two areas, and the world that they spell.

use super::leaks::{Leak, Leaking};
use crate::ask::{ask, Given};
use crate::bench::{need, Checked, BAD_AREA};
use crate::guarded::Guarded;
use flytewood_kernel::{Kernel, AREA_LEN};
use flytewood_model::book::*;
use flytewood_model::model::{Call, World, GRANTED};
use std::mem::replace;

pub struct Side {
    pub book: Guarded,
    pub area: Guarded,
    pub world: World,
    /// The kernel leaks, and should be found out.
    pub leak: Option<&'static Leak>,
    calls: usize,
}

/// What a call was answered, and the world before it.
pub struct Answered {
    pub before: World,
    pub given: Given,
}

impl Side {
    /// Over areas that hold something else.
    pub fn start(first: u64, litter: u8) -> Result<Side, String> {
        let (mut book, mut area) = (vec![litter; BOOK_LEN], vec![litter; AREA_LEN]);
        let answer = Kernel::over(&mut book, &mut area).start(first);
        need(answer == GRANTED, || format!("start {} answered {}", first, answer))?;
        Ok(Side::over(&book, &area))
    }

    pub fn over(book: &[u8], area: &[u8]) -> Side {
        let world = spelt::world(book, area);
        Side { book: Guarded::new(book), area: Guarded::new(area), world, leak: None, calls: 0 }
    }

    pub fn root(&self) -> u64 {
        get(self.book.bytes(), ROOT, 0)
    }

    /// RULES 12.3: "No call answers 1."
    pub fn ask(&mut self, caller: u64, call: &Call) -> Result<Answered, String> {
        let null = self.calls % 2 == 1;
        self.calls += 1;
        let given = match self.leak {
            None => ask(&mut self.book, &mut self.area, caller, call, null)?,
            Some(leak) => self.ask_leaking(leak, caller, call)?,
        };
        need(given.answer != BAD_AREA, || "answer 1".to_string())?;
        let after = spelt::world(self.book.bytes(), self.area.bytes());
        Ok(Answered { before: replace(&mut self.world, after), given })
    }

    fn ask_leaking(&mut self, leak: &Leak, caller: u64, call: &Call) -> Result<Given, String> {
        let (old_book, old_area) = (self.book.bytes().to_vec(), self.area.bytes().to_vec());
        let mut given = ask(&mut self.book, &mut self.area, caller, call, false)?;
        (leak.1)(&mut Leaking {
            before: &self.world,
            caller,
            call,
            given: &mut given,
            old_book: &old_book,
            old_area: &old_area,
            book: self.book.bytes_mut(),
            area: self.area.bytes_mut(),
        });
        Ok(given)
    }

    pub fn is_sound(&self) -> Checked {
        need(sound(self.book.bytes()), || "a book is not sound".to_string())
    }
}
