//! Calls 1 to 3, in which a thread changes its own label and clearance.

use super::{granted, lent_label, lent_starless, need, Body, Caller, Judged, World};
use super::{LABEL_CONDITION, NINTH_PAIR};
use crate::labels::*;

impl World {
    /// RULES 8.1: "T's label gets star at the new category. T's clearance gets level 3 there, by a pair
    /// unless its default is level 3."
    pub(super) fn create_category(&mut self, t: &Caller) -> Judged {
        let label = t.label.insert(t.number, STAR).ok_or(NINTH_PAIR)?;
        let clearance = if t.clearance.default == LEVEL_3 {
            t.clearance
        } else {
            t.clearance.insert(t.number, LEVEL_3).ok_or(NINTH_PAIR)?
        };
        self.take_label_and_clearance(t, label, clearance);
        granted(t.number)
    }

    /// RULES 8.2: "7 unless T flows to L and L flows to T's clearance."
    pub(super) fn set_label(&mut self, t: &Caller, label: &[u8]) -> Judged {
        let l = lent_label(label, t.number)?;
        need(flows(&t.label, &l) && flows(&l, &t.clearance), LABEL_CONDITION)?;
        self.take_label_and_clearance(t, l, t.clearance);
        granted(0)
    }

    /// RULES 8.3: "7 unless T flows to C and C flows to join(T's clearance, high(T))."
    pub(super) fn set_clearance(&mut self, t: &Caller, clearance: &[u8]) -> Judged {
        let c = lent_starless(clearance, t.number)?;
        let within = flows_to_join_high(&c, &t.clearance, &t.label);
        need(flows(&t.label, &c) && within, LABEL_CONDITION)?;
        self.take_label_and_clearance(t, t.label, c);
        granted(0)
    }

    pub(super) fn take_label_and_clearance(&mut self, t: &Caller, label: Label, clearance: Label) {
        let thread = self.objects.get_mut(&t.id).expect("the caller is live");
        thread.label = label;
        thread.body = Body::Thread { clearance };
    }
}
