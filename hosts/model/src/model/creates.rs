//! Calls 4 to 7, which create, and call 8, which unreferences.

use super::{granted, lent_label, lent_starless, need, Body, Caller, Judged, Kind, Object, World};
use super::{CLOSURE_LEN, DESCRIPTION_LEN, LABEL_CONDITION, MALFORMED, MASK_FORBIDS, NOT_ENOUGH_SPARE};
use crate::labels::*;

/// RULES 3.7: "The quota given to call 4 or 5 is at most 255, and 0 stands for a default: 8 for a container,
/// 5 for a segment."
pub const DEFAULT_SEGMENT_QUOTA: u64 = 5;
pub const DEFAULT_CONTAINER_QUOTA: u64 = 8;
const MOST_QUOTA: u64 = 255;
/// RULES 1.6: "A container also has a mask, a number from 0 to 15 that forbids kinds: .."
const MOST_MASK: u64 = 15;

fn lent_quota(quota: u64, default: u64) -> Result<u64, u64> {
    need(quota <= MOST_QUOTA, MALFORMED)?;
    Ok(if quota == 0 { default } else { quota })
}

/// RULES 1.2: ".. a description of 32 bytes."
fn lent_description(description: &[u8]) -> Result<Vec<u8>, u64> {
    need(description.len() == DESCRIPTION_LEN, MALFORMED)?;
    Ok(description.to_vec())
}

impl World {
    pub(super) fn create_container(
        &mut self,
        t: &Caller,
        d: u64,
        label: &[u8],
        description: &[u8],
        mask: u64,
        quota: u64,
    ) -> Judged {
        let label = lent_starless(label, t.number)?;
        let description = lent_description(description)?;
        need(mask <= MOST_MASK, MALFORMED)?;
        let quota = lent_quota(quota, DEFAULT_CONTAINER_QUOTA)?;
        self.create(t, d, Object { label, description, quota, body: Body::Container { mask } })
    }

    /// A new segment has length 0.
    pub(super) fn create_segment(
        &mut self,
        t: &Caller,
        d: u64,
        label: &[u8],
        description: &[u8],
        quota: u64,
    ) -> Judged {
        let label = lent_starless(label, t.number)?;
        let description = lent_description(description)?;
        let quota = lent_quota(quota, DEFAULT_SEGMENT_QUOTA)?;
        let body = Body::Segment { bytes: Vec::new(), fixed: false };
        self.create(t, d, Object { label, description, quota, body })
    }

    #[allow(clippy::too_many_arguments)]
    pub(super) fn create_gate(
        &mut self,
        t: &Caller,
        d: u64,
        label: &[u8],
        clearance: &[u8],
        entry: u64,
        closure: &[u8],
        description: &[u8],
    ) -> Judged {
        let label = lent_label(label, t.number)?;
        let clearance = lent_starless(clearance, t.number)?;
        need(closure.len() == CLOSURE_LEN, MALFORMED)?;
        let description = lent_description(description)?;
        let body = Body::Gate { clearance, entry, closure: closure.to_vec() };
        self.create(t, d, Object { label, description, quota: 1, body })
    }

    pub(super) fn create_thread(
        &mut self,
        t: &Caller,
        d: u64,
        label: &[u8],
        clearance: &[u8],
        description: &[u8],
    ) -> Judged {
        let label = lent_label(label, t.number)?;
        let clearance = lent_starless(clearance, t.number)?;
        let description = lent_description(description)?;
        self.create(t, d, Object { label, description, quota: 1, body: Body::Thread { clearance } })
    }

    /// What the four creates have in common, once the arguments are in order.
    fn create(&mut self, t: &Caller, d: u64, mut new: Object) -> Judged {
        let parents_mask = self.readable_container(t, d)?.mask();
        need(self.may_write_container(t, d) && may_make(t, &new), LABEL_CONDITION)?;
        need(parents_mask & new.kind().mask_bit() == 0, MASK_FORBIDS)?;
        need(new.quota <= self.spare(d), NOT_ENOUGH_SPARE)?;
        if let Body::Container { mask } = &mut new.body {
            *mask |= parents_mask; // RULES 8.4: ".. and those of D's mask."
        }
        self.objects.insert(t.number, new);
        self.links.insert((d, t.number));
        granted(t.number)
    }

    /// RULES 8.8: "7 unless T may write D. .. O's kind and label are not asked."
    pub(super) fn unreference(&mut self, t: &Caller, d: u64, o: u64) -> Judged {
        self.entry(t, d, o)?;
        need(self.may_write_container(t, d), LABEL_CONDITION)?;
        self.remove_link(d, o);
        granted(0)
    }

    /// RULES 8.8: "An object that is linked nowhere any more is freed, except the root. If it is a container,
    /// all links in it go too, and so on downwards."
    fn remove_link(&mut self, d: u64, o: u64) {
        self.links.remove(&(d, o));
        if !self.holders_of(o).is_empty() {
            return;
        }
        if self.objects[&o].kind() == Kind::Container {
            for inner in self.linked_in(o) {
                self.remove_link(o, inner);
            }
        }
        self.objects.remove(&o);
    }
}

/// RULES 8.4: ".. T flows to the new label, that flows to the new clearance if there is one, and the last of
/// these flows to T's clearance."
fn may_make(t: &Caller, new: &Object) -> bool {
    let top = new.clearance().unwrap_or(new.label);
    flows(&t.label, &new.label) && flows(&new.label, &top) && flows(&top, &t.clearance)
}
