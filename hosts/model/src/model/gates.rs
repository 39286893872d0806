//! Call 15, entering a gate, and call 16, looking at an object.

use super::{lent_label, lent_starless, need, Body, Caller, Judged, Kind, Object, World};
use super::{CLOSURE_LEN, LABEL_CONDITION, LOOK_LEN, MALFORMED, WRONG_KIND};
use crate::labels::*;

impl World {
    /// The lent labels are L_R, C_R and L_V, in this order.
    pub(super) fn enter_gate(
        &mut self,
        t: &Caller,
        d: u64,
        g: u64,
        lent: [&Vec<u8>; 3],
        output_len: u64,
    ) -> Judged {
        let label_r = lent_label(lent[0], t.number)?;
        let clearance_r = lent_starless(lent[1], t.number)?;
        let label_v = lent_label(lent[2], t.number)?;
        need(output_len == CLOSURE_LEN as u64, MALFORMED)?;
        let gate = self.entry(t, d, g)?;
        match gate.body.clone() {
            Body::Gate { clearance, entry, closure } => {
                let suits = may_enter(t, &gate.label, &clearance, &label_r, &clearance_r, &label_v);
                need(suits, LABEL_CONDITION)?;
                self.take_label_and_clearance(t, label_r, clearance_r);
                Ok((entry, closure))
            }
            _ => Err(WRONG_KIND),
        }
    }

    /// No condition but that D is readable and holds O, or is O.
    pub(super) fn look(&mut self, t: &Caller, d: u64, o: u64, output_len: u64) -> Judged {
        need(output_len == LOOK_LEN as u64, MALFORMED)?;
        let object = if d == o { self.readable_container(t, d)? } else { self.entry(t, d, o)? };
        Ok((0, sight(t, object)))
    }
}

/// RULES 8.15: "7 unless T flows to G's clearance, T flows to L_V, floor(T, G) flows to L_R, L_R flows to
/// C_R, and C_R flows to join(T's clearance, G's clearance)."
fn may_enter(
    t: &Caller,
    gate_label: &Label,
    gate_clearance: &Label,
    label_r: &Label,
    clearance_r: &Label,
    label_v: &Label,
) -> bool {
    flows(&t.label, gate_clearance)
        && flows(&t.label, label_v)
        && floor_flows(&t.label, gate_label, label_r)
        && flows(label_r, clearance_r)
        && flows_to_join(clearance_r, &t.clearance, gate_clearance)
}

/// RULES 8.16: "Output: the description in 32 bytes; the kind's code; 1, for a label that is shown; the
/// label's default code; five zeros; the eight words in eight bytes each, the lowest first."
fn sight(t: &Caller, object: &Object) -> Vec<u8> {
    // RULES 8.16: "If O is a thread that T may not read, all bytes after the kind's code are 0."
    let shown = object.kind() != Kind::Thread || may_read(&t.label, &object.label);
    let label = if shown { object.label } else { Label { default: 0, words: [0; WORDS] } };
    let mut output = object.description.clone();
    output.push(object.kind().number());
    output.push(u8::from(shown));
    output.push(label.default);
    output.extend_from_slice(&[0; 5]);
    for word in label.words.iter() {
        output.extend_from_slice(&word.to_le_bytes());
    }
    output
}
