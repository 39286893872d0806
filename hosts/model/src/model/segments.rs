//! Calls 12 to 14: reading, writing and resizing a segment.

use super::{granted, need, Body, Caller, Judged, Kind, Object, World};
use super::{segment_use, BEYOND_THE_LENGTH, LABEL_CONDITION, MALFORMED, NOT_ENOUGH_SPARE, WRONG_KIND};
use crate::labels::*;
use std::ops::Range;

const BLOCK_LEN: u64 = 64;
/// RULES 8.12: "4 if k is above 253, .."
const LAST_BLOCK: u64 = 253;
/// RULES 8.14: "4 if the length is above 16,256."
const MOST_LENGTH: u64 = 16_256;

/// RULES 8.12: ".. from + count, reckoned without overflow, is above 64."
fn lent_part(k: u64, from: u64, count: u64) -> Result<Range<u64>, u64> {
    let fits = from.checked_add(count).map_or(false, |end| end <= BLOCK_LEN);
    need(k <= LAST_BLOCK && fits, MALFORMED)?;
    let first = BLOCK_LEN * k + from;
    Ok(first..first + count)
}

/// RULES 8.12: "11 if 64k + from + count is above S's length, even if count is 0."
fn within(part: &Range<u64>, segment: &Object) -> Result<Range<usize>, u64> {
    need(part.end <= segment.bytes().len() as u64, BEYOND_THE_LENGTH)?;
    Ok(part.start as usize..part.end as usize)
}

impl World {
    fn segment_entry(&self, t: &Caller, d: u64, s: u64) -> Result<&Object, u64> {
        let segment = self.entry(t, d, s)?;
        need(segment.kind() == Kind::Segment, WRONG_KIND)?;
        Ok(segment)
    }

    fn bytes_of(&mut self, s: u64) -> &mut Vec<u8> {
        match self.objects.get_mut(&s).map(|object| &mut object.body) {
            Some(Body::Segment { bytes, .. }) => bytes,
            _ => panic!("the entry's object is a segment"),
        }
    }

    pub(super) fn read(&mut self, t: &Caller, d: u64, s: u64, k: u64, from: u64, count: u64) -> Judged {
        let part = lent_part(k, from, count)?;
        let segment = self.segment_entry(t, d, s)?;
        need(may_read(&t.label, &segment.label), LABEL_CONDITION)?;
        let part = within(&part, segment)?;
        Ok((0, segment.bytes()[part].to_vec()))
    }

    /// RULES 8.13: "4 as in 8.12, and unless there are exactly count bytes."
    #[allow(clippy::too_many_arguments)]
    pub(super) fn write(
        &mut self,
        t: &Caller,
        d: u64,
        s: u64,
        k: u64,
        from: u64,
        count: u64,
        bytes: &[u8],
    ) -> Judged {
        let part = lent_part(k, from, count)?;
        need(bytes.len() as u64 == count, MALFORMED)?;
        let segment = self.segment_entry(t, d, s)?;
        need(may_write(&t.label, &segment.label), LABEL_CONDITION)?;
        let part = within(&part, segment)?;
        self.bytes_of(s)[part].copy_from_slice(bytes);
        granted(0)
    }

    /// RULES 8.14: "Bytes that it gains are zero, .. Whether the quota is fixed does not matter."
    pub(super) fn resize(&mut self, t: &Caller, d: u64, s: u64, length: u64) -> Judged {
        need(length <= MOST_LENGTH, MALFORMED)?;
        let segment = self.segment_entry(t, d, s)?;
        need(may_write(&t.label, &segment.label), LABEL_CONDITION)?;
        need(segment_use(length) <= segment.quota, NOT_ENOUGH_SPARE)?;
        self.bytes_of(s).resize(length as usize, 0);
        granted(0)
    }
}
