//! Call 15, entering a gate, and call 16, looking at an object.

use crate::labels::*;
use crate::layout::{self, *};
use crate::{need, take, Judged, Turn, LABEL_CONDITION, MALFORMED, WRONG_KIND};

const LOOK_LEN: usize = 104;

#[allow(clippy::too_many_arguments)]
pub fn enter_gate(
    book: &mut [u8],
    area: &mut [u8],
    caller: u64,
    d: u64,
    g: u64,
    label_r: &[u8],
    clearance_r: &[u8],
    label_v: &[u8],
    out: &mut [u8],
    value: &mut u64,
) -> u64 {
    take(book, area, caller, value, |turn| turn.enter_gate(d, g, label_r, clearance_r, label_v, out))
}

pub fn look(
    book: &mut [u8],
    area: &mut [u8],
    caller: u64,
    d: u64,
    o: u64,
    out: &mut [u8],
    value: &mut u64,
) -> u64 {
    take(book, area, caller, value, |turn| turn.look(d, o, out))
}

impl Turn<'_> {
    fn enter_gate(
        self,
        d: u64,
        g: u64,
        label_r: &[u8],
        clearance_r: &[u8],
        label_v: &[u8],
        out: &mut [u8],
    ) -> Judged {
        let (l_r, c_r) = (self.lent_label(label_r)?, self.lent_starless(clearance_r)?);
        let l_v = self.lent_label(label_v)?;
        need(out.len() == TEXT_LEN, MALFORMED)?;
        let gate = self.entry(d, g)?.o;
        need(kind(self.b, gate) == GATE, WRONG_KIND)?;
        need(self.may_enter(gate, l_r, c_r, l_v), LABEL_CONDITION)?;
        layout::set_label(self.b, self.t, l_r);
        layout::set_clearance(self.b, self.t, c_r);
        out.copy_from_slice(closure(self.b, gate));
        Ok(entry(self.b, gate))
    }

    /// RULES 8.15: "7 unless T flows to G's clearance, T flows to L_V, floor(T, G) flows to L_R, L_R flows to
    /// C_R, and C_R flows to join(T's clearance, G's clearance)."
    fn may_enter(&self, gate: usize, l_r: Label, c_r: Label, l_v: Label) -> bool {
        flows(self.label(), clearance(self.b, gate))
            && flows(self.label(), l_v)
            && floor_flows(self.label(), label(self.b, gate), l_r)
            && flows(l_r, c_r)
            && flows_to_join(c_r, self.clearance(), clearance(self.b, gate))
    }

    /// RULES 8.16: "5 unless D is a container that T may read, and O is D itself or is linked in D; no other
    /// call takes (D, D) for an entry."
    fn look(self, d: u64, o: u64, out: &mut [u8]) -> Judged {
        need(out.len() == LOOK_LEN, MALFORMED)?;
        let row = if d == o { self.container(d)? } else { self.entry(d, o)?.o };
        let seen = label(self.b, row);
        out.fill(0);
        out[..TEXT_LEN].copy_from_slice(description(self.b, row));
        out[32] = kind(self.b, row);
        // RULES 8.16: "If O is a thread that T may not read, all bytes after the kind's code are 0."
        if kind(self.b, row) != THREAD || may_read(self.label(), seen) {
            out[33] = 1;
            out[34] = seen.default;
            out[40..].copy_from_slice(seen.words());
        }
        Ok(0)
    }
}
