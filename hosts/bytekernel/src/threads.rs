//! Calls 1 to 3: a thread's own label and clearance.

use crate::labels::*;
use crate::layout;
use crate::{need, take, Judged, Turn, LABEL_CONDITION, NINTH_PAIR};

pub fn create_category(book: &mut [u8], area: &mut [u8], caller: u64, value: &mut u64) -> u64 {
    take(book, area, caller, value, |turn| turn.create_category())
}

pub fn set_label(book: &mut [u8], area: &mut [u8], caller: u64, label: &[u8], value: &mut u64) -> u64 {
    take(book, area, caller, value, |turn| turn.set_label(label))
}

pub fn set_clearance(
    book: &mut [u8],
    area: &mut [u8],
    caller: u64,
    clearance: &[u8],
    value: &mut u64,
) -> u64 {
    take(book, area, caller, value, |turn| turn.set_clearance(clearance))
}

impl Turn<'_> {
    /// The new category is above all that the caller names, so its pairs come last.
    fn create_category(self) -> Judged {
        let stars = self.label().pairs();
        let cleared = self.clearance().pairs();
        let needs_clearance = self.clearance().default != LEVEL_3;
        need(stars < WORDS && (cleared < WORDS || !needs_clearance), NINTH_PAIR)?;
        layout::set_label_word(self.b, self.t, stars, word(self.number, STAR));
        if needs_clearance {
            layout::set_clearance_word(self.b, self.t, cleared, word(self.number, LEVEL_3));
        }
        Ok(self.number)
    }

    /// RULES 8.2: "7 unless T flows to L and L flows to T's clearance."
    fn set_label(self, label: &[u8]) -> Judged {
        let l = self.lent_label(label)?;
        need(flows(self.label(), l) && flows(l, self.clearance()), LABEL_CONDITION)?;
        layout::set_label(self.b, self.t, l);
        Ok(0)
    }

    /// RULES 8.3: "7 unless T flows to C and C flows to join(T's clearance, high(T))."
    fn set_clearance(self, clearance: &[u8]) -> Judged {
        let c = self.lent_starless(clearance)?;
        let within = flows(self.label(), c) && flows_to_join_high(c, self.clearance(), self.label());
        need(within, LABEL_CONDITION)?;
        layout::set_clearance(self.b, self.t, c);
        Ok(0)
    }
}
