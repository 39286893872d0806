//! Calls 9 to 11: links of segments, fixed quotas and moves of quota.

use super::{granted, need, Body, Caller, Judged, Kind, World};
use super::{ALREADY_LINKED, FIXED_OR_NOT, LABEL_CONDITION, MALFORMED, MASK_FORBIDS};
use super::{NOT_ENOUGH_SPARE, WRONG_KIND};
use crate::labels::*;

/// RULES 8.11: "4 unless n is from -256 to 256."
const MOST_MOVED: i64 = 256;

impl World {
    /// RULES 8.9: "7 unless T may write D and O flows to T's clearance." W2: "8 also for call 9, when the
    /// destination's mask forbids segments."
    pub(super) fn link_segment(&mut self, t: &Caller, d1: u64, o: u64, d: u64) -> Judged {
        let object = self.entry(t, d1, o)?;
        let destinations_mask = self.readable_container(t, d)?.mask();
        need(object.kind() == Kind::Segment, WRONG_KIND)?;
        let label_suits = flows(&object.label, &t.clearance);
        need(self.may_write_container(t, d) && label_suits, LABEL_CONDITION)?;
        need(destinations_mask & Kind::Segment.mask_bit() == 0, MASK_FORBIDS)?;
        need(object.is_fixed(), FIXED_OR_NOT)?;
        need(!self.links.contains(&(d, o)), ALREADY_LINKED)?;
        need(object.quota <= self.spare(d), NOT_ENOUGH_SPARE)?;
        self.links.insert((d, o));
        granted(0)
    }

    /// RULES 8.10: "7 unless T may write D and T flows to O. O's quota is fixed for good; if it was fixed
    /// before, nothing changes."
    pub(super) fn fix_quota(&mut self, t: &Caller, d: u64, o: u64) -> Judged {
        let object = self.entry(t, d, o)?;
        need(object.kind() == Kind::Segment, WRONG_KIND)?;
        need(self.may_write_container(t, d) && flows(&t.label, &object.label), LABEL_CONDITION)?;
        if let Some(Body::Segment { fixed, .. }) = self.objects.get_mut(&o).map(|object| &mut object.body) {
            *fixed = true;
        }
        granted(0)
    }

    /// RULES 8.11: "7 unless T may write D, T flows to O, O flows to T's clearance and, for n below 0, O
    /// flows to high(T)."
    pub(super) fn move_quota(&mut self, t: &Caller, d: u64, o: u64, n: i64) -> Judged {
        need((-MOST_MOVED..=MOST_MOVED).contains(&n), MALFORMED)?;
        let object = self.entry(t, d, o)?;
        need(matches!(object.kind(), Kind::Segment | Kind::Container), WRONG_KIND)?;
        let label_suits = flows(&t.label, &object.label)
            && flows(&object.label, &t.clearance)
            && (n >= 0 || may_read(&t.label, &object.label));
        need(self.may_write_container(t, d) && label_suits, LABEL_CONDITION)?;
        need(!object.is_fixed(), FIXED_OR_NOT)?;
        let units = n.unsigned_abs();
        let giver = if n > 0 { d } else { o }; // RULES 8.11, test 13
        need(units <= self.spare(giver), NOT_ENOUGH_SPARE)?;
        let object = self.objects.get_mut(&o).expect("the entry's object is live");
        object.quota = if n > 0 { object.quota + units } else { object.quota - units };
        granted(0)
    }
}
