//! Calls 4 to 7: the four creates.

use crate::entries::spare;
use crate::labels::*;
use crate::layout::*;
use crate::{need, take, Judged, Turn, LABEL_CONDITION, MALFORMED, MASK_FORBIDS, NOT_ENOUGH_SPARE};

const LARGEST_MASK: u64 = 15;
const LARGEST_QUOTA: u64 = 255;
const SEGMENT_DEFAULT_QUOTA: u16 = 5;
const CONTAINER_DEFAULT_QUOTA: u16 = 8;
static NO_TEXT: [u8; TEXT_LEN] = [0; TEXT_LEN];

#[allow(clippy::too_many_arguments)]
pub fn create_container(
    book: &mut [u8],
    area: &mut [u8],
    caller: u64,
    d: u64,
    label: &[u8],
    description: &[u8],
    mask: u64,
    quota: u64,
    value: &mut u64,
) -> u64 {
    take(book, area, caller, value, |turn| {
        need(mask <= LARGEST_MASK && quota <= LARGEST_QUOTA, MALFORMED)?;
        let row = Row {
            kind: CONTAINER,
            mask: mask as u8,
            quota: quota_or(quota, CONTAINER_DEFAULT_QUOTA),
            label: turn.lent_starless(label)?,
            description: lent_text(description)?,
            ..blank(turn.number)
        };
        turn.create(d, row)
    })
}

#[allow(clippy::too_many_arguments)]
pub fn create_segment(
    book: &mut [u8],
    area: &mut [u8],
    caller: u64,
    d: u64,
    label: &[u8],
    description: &[u8],
    quota: u64,
    value: &mut u64,
) -> u64 {
    take(book, area, caller, value, |turn| {
        need(quota <= LARGEST_QUOTA, MALFORMED)?;
        let row = Row {
            kind: SEGMENT,
            quota: quota_or(quota, SEGMENT_DEFAULT_QUOTA),
            label: turn.lent_starless(label)?,
            description: lent_text(description)?,
            ..blank(turn.number)
        };
        turn.create(d, row)
    })
}

#[allow(clippy::too_many_arguments)]
pub fn create_gate(
    book: &mut [u8],
    area: &mut [u8],
    caller: u64,
    d: u64,
    label: &[u8],
    clearance: &[u8],
    entry: u64,
    closure: &[u8],
    description: &[u8],
    value: &mut u64,
) -> u64 {
    take(book, area, caller, value, |turn| {
        let row = Row {
            kind: GATE,
            entry,
            label: turn.lent_label(label)?,
            clearance: turn.lent_starless(clearance)?,
            closure: lent_text(closure)?,
            description: lent_text(description)?,
            ..blank(turn.number)
        };
        turn.create(d, row)
    })
}

#[allow(clippy::too_many_arguments)]
pub fn create_thread(
    book: &mut [u8],
    area: &mut [u8],
    caller: u64,
    d: u64,
    label: &[u8],
    clearance: &[u8],
    description: &[u8],
    value: &mut u64,
) -> u64 {
    take(book, area, caller, value, |turn| {
        let row = Row {
            kind: THREAD,
            label: turn.lent_label(label)?,
            clearance: turn.lent_starless(clearance)?,
            description: lent_text(description)?,
            ..blank(turn.number)
        };
        turn.create(d, row)
    })
}

fn blank(id: u64) -> Row<'static> {
    Row {
        id,
        kind: FREE,
        mask: 0,
        quota: 1,
        entry: 0,
        label: Label::plain(0),
        clearance: Label::plain(0),
        description: &NO_TEXT,
        closure: &NO_TEXT,
    }
}

/// RULES 3.7: ".. 0 stands for a default: .."
fn quota_or(quota: u64, default: u16) -> u16 {
    if quota == 0 {
        default
    } else {
        quota as u16
    }
}

/// RULES 1.2: ".. a description of 32 bytes." 1.4: ".. 32 closure bytes."
fn lent_text(bytes: &[u8]) -> Result<&[u8], u64> {
    need(bytes.len() == TEXT_LEN, MALFORMED)?;
    Ok(bytes)
}

impl Turn<'_> {
    fn create(self, d: u64, mut new: Row) -> Judged {
        let d = self.container(d)?;
        need(self.may_create(d, &new), LABEL_CONDITION)?;
        let forbidden = mask(self.b, d);
        need(forbidden >> (new.kind - THREAD) & 1 == 0, MASK_FORBIDS)?;
        need(new.quota <= spare(self.b, d), NOT_ENOUGH_SPARE)?;
        if new.kind == CONTAINER {
            new.mask |= forbidden;
        }
        let row = (0..ROWS).find(|row| kind(self.b, *row) == FREE).expect("units bound the rows");
        write_row(self.b, row, &new);
        add_link(self.b, d, row);
        Ok(self.number)
    }

    /// RULES 8.4: "7 unless T may write D, T flows to the new label, that flows to the new clearance if there
    /// is one, and the last of these flows to T's clearance."
    fn may_create(&self, d: usize, new: &Row) -> bool {
        let above = match new.kind {
            THREAD | GATE => flows(new.label, new.clearance) && flows(new.clearance, self.clearance()),
            _ => flows(new.label, self.clearance()),
        };
        self.may_write(d) && flows(self.label(), new.label) && above
    }
}

/// RULES 1.10: ".. the free one with the lowest number is taken, .."
pub fn add_link(b: &mut Book, container: usize, object: usize) {
    let free = (0..LINKS).find(|i| link(b, *i).is_none()).expect("units bound the links");
    set_link(b, free, container, object);
}
