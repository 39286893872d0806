//! Calls 8 to 11: links and units.

use crate::creates::add_link;
use crate::entries::{link_of, spare, Entry};
use crate::labels::{flows, may_read};
use crate::layout::*;
use crate::{need, take, Judged, Turn};
use crate::{ALREADY_LINKED, FIXED_OR_NOT, LABEL_CONDITION, MALFORMED, MASK_FORBIDS};
use crate::{NOT_ENOUGH_SPARE, WRONG_KIND};

const LARGEST_MOVE: i64 = 256;

pub fn unreference(book: &mut [u8], area: &mut [u8], caller: u64, d: u64, o: u64, value: &mut u64) -> u64 {
    take(book, area, caller, value, |turn| turn.unreference(d, o))
}

/// The entry (d1, o), into d.
pub fn link_segment(
    book: &mut [u8],
    area: &mut [u8],
    caller: u64,
    d1: u64,
    o: u64,
    d: u64,
    value: &mut u64,
) -> u64 {
    take(book, area, caller, value, |turn| turn.link_segment(d1, o, d))
}

pub fn fix_quota(book: &mut [u8], area: &mut [u8], caller: u64, d: u64, o: u64, value: &mut u64) -> u64 {
    take(book, area, caller, value, |turn| turn.fix_quota(d, o))
}

pub fn move_quota(
    book: &mut [u8],
    area: &mut [u8],
    caller: u64,
    d: u64,
    o: u64,
    n: i64,
    value: &mut u64,
) -> u64 {
    take(book, area, caller, value, |turn| turn.move_quota(d, o, n))
}

impl Turn<'_> {
    fn unreference(self, d: u64, o: u64) -> Judged {
        let entry = self.entry(d, o)?;
        need(self.may_write(entry.d), LABEL_CONDITION)?;
        cut(self.b, self.a, entry.link, entry.o);
        Ok(0)
    }

    /// W2: "8 also for call 9, when the destination's mask forbids segments."
    fn link_segment(self, d1: u64, o: u64, d: u64) -> Judged {
        let entry = self.entry(d1, o)?;
        let (o, d) = (entry.o, self.container(d)?);
        need(kind(self.b, o) == SEGMENT, WRONG_KIND)?;
        let allowed = self.may_write(d) && flows(label(self.b, o), self.clearance());
        need(allowed, LABEL_CONDITION)?;
        need(mask(self.b, d) >> (SEGMENT - THREAD) & 1 == 0, MASK_FORBIDS)?;
        need(fixed(self.b, o) == 1, FIXED_OR_NOT)?;
        need(link_of(self.b, d, o).is_none(), ALREADY_LINKED)?;
        need(quota(self.b, o) <= spare(self.b, d), NOT_ENOUGH_SPARE)?;
        add_link(self.b, d, o);
        Ok(0)
    }

    fn fix_quota(self, d: u64, o: u64) -> Judged {
        let entry = self.entry(d, o)?;
        need(kind(self.b, entry.o) == SEGMENT, WRONG_KIND)?;
        let allowed = self.may_write(entry.d) && flows(self.label(), label(self.b, entry.o));
        need(allowed, LABEL_CONDITION)?;
        set_fixed(self.b, entry.o);
        Ok(0)
    }

    fn move_quota(self, d: u64, o: u64, n: i64) -> Judged {
        need((-LARGEST_MOVE..=LARGEST_MOVE).contains(&n), MALFORMED)?;
        let Entry { d, o, .. } = self.entry(d, o)?;
        let kind = kind(self.b, o);
        need(kind == SEGMENT || kind == CONTAINER, WRONG_KIND)?;
        let target = label(self.b, o);
        let allowed = self.may_write(d)
            && flows(self.label(), target)
            && flows(target, self.clearance())
            && (n >= 0 || may_read(self.label(), target));
        need(allowed, LABEL_CONDITION)?;
        need(kind == CONTAINER || fixed(self.b, o) == 0, FIXED_OR_NOT)?;
        let from = if n < 0 { o } else { d };
        need(n.abs() <= i64::from(spare(self.b, from)), NOT_ENOUGH_SPARE)?;
        let units = i64::from(quota(self.b, o)) + n;
        set_quota(self.b, o, units as u16);
        Ok(0)
    }
}

/// RULES 8.8: "An object that is linked nowhere any more is freed, except the root."
fn cut(b: &mut Book, a: &mut Area, gone: usize, object: usize) {
    free_link(b, gone);
    if (0..LINKS).filter_map(|i| link(b, i)).any(|(_, to)| to == object) {
        return;
    }
    match kind(b, object) {
        SEGMENT => clear_blocks(b, a, object),
        CONTAINER => cut_all(b, a, object),
        _ => {}
    }
    free_row(b, object);
}

/// RULES 8.8: "If it is a container, all links in it go too, and so on downwards."
fn cut_all(b: &mut Book, a: &mut Area, container: usize) {
    for i in 0..LINKS {
        if let Some((from, object)) = link(b, i) {
            if from == container {
                cut(b, a, i, object);
            }
        }
    }
}

/// RULES 8.8: "The blocks of a freed segment are set to zero."
fn clear_blocks(b: &mut Book, a: &mut Area, segment: usize) {
    for i in 0..BLOCKS {
        if block(b, i).map_or(false, |(owner, _)| owner == segment) {
            free_block(b, i);
            a[BLOCK_LEN * i..][..BLOCK_LEN].fill(0);
        }
    }
}
