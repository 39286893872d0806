//! Calls 12 to 14: a segment's bytes.

use crate::labels::may_read;
use crate::layout::*;
use crate::{need, take, Judged, Turn};
use crate::{BEYOND_THE_LENGTH, LABEL_CONDITION, MALFORMED, NOT_ENOUGH_SPARE, WRONG_KIND};

const LAST_INDEX: u64 = 253;
const LONGEST: u64 = 16_256;

/// The part's offset in the data area and its length; both 0 for an empty part and on a refusal.
#[allow(clippy::too_many_arguments)]
pub fn read(
    book: &mut [u8],
    area: &mut [u8],
    caller: u64,
    d: u64,
    s: u64,
    k: u64,
    from: u64,
    count: u64,
    place: &mut u64,
    length: &mut u64,
    value: &mut u64,
) -> u64 {
    *place = 0;
    *length = 0;
    take(book, area, caller, value, |turn| {
        let part = turn.read(d, s, k, from, count)?;
        if count > 0 {
            *place = part as u64;
            *length = count;
        }
        Ok(0)
    })
}

#[allow(clippy::too_many_arguments)]
pub fn write(
    book: &mut [u8],
    area: &mut [u8],
    caller: u64,
    d: u64,
    s: u64,
    k: u64,
    from: u64,
    count: u64,
    bytes: &[u8],
    value: &mut u64,
) -> u64 {
    take(book, area, caller, value, |turn| turn.write(d, s, k, from, count, bytes))
}

pub fn resize(
    book: &mut [u8],
    area: &mut [u8],
    caller: u64,
    d: u64,
    s: u64,
    length: u64,
    value: &mut u64,
) -> u64 {
    take(book, area, caller, value, |turn| turn.resize(d, s, length))
}

/// RULES 8.12: "4 if k is above 253, or if from + count, reckoned without overflow, is above 64."
fn part_well_formed(k: u64, from: u64, count: u64) -> bool {
    k <= LAST_INDEX && from <= BLOCK_LEN as u64 && count <= BLOCK_LEN as u64 - from
}

fn block_of(b: &Book, segment: usize, index: usize) -> Option<usize> {
    (0..BLOCKS).find(|i| block(b, *i) == Some((segment, index)))
}

impl Turn<'_> {
    fn segment(&self, d: u64, s: u64) -> Result<usize, u64> {
        let row = self.entry(d, s)?.o;
        need(kind(self.b, row) == SEGMENT, WRONG_KIND)?;
        Ok(row)
    }

    /// Where the part begins in the data area; an empty one may lie in no block.
    fn part(&self, segment: usize, k: u64, from: u64, count: u64) -> Result<usize, u64> {
        let (k, from, count) = (k as usize, from as usize, count as usize);
        need(BLOCK_LEN * k + from + count <= len(self.b, segment), BEYOND_THE_LENGTH)?;
        Ok(block_of(self.b, segment, k).map_or(0, |block| BLOCK_LEN * block + from))
    }

    fn read(self, d: u64, s: u64, k: u64, from: u64, count: u64) -> Result<usize, u64> {
        need(part_well_formed(k, from, count), MALFORMED)?;
        let segment = self.segment(d, s)?;
        need(may_read(self.label(), label(self.b, segment)), LABEL_CONDITION)?;
        self.part(segment, k, from, count)
    }

    fn write(self, d: u64, s: u64, k: u64, from: u64, count: u64, bytes: &[u8]) -> Judged {
        need(part_well_formed(k, from, count) && bytes.len() as u64 == count, MALFORMED)?;
        let segment = self.segment(d, s)?;
        need(self.may_write(segment), LABEL_CONDITION)?;
        let place = self.part(segment, k, from, count)?;
        if count > 0 {
            self.a[place..place + bytes.len()].copy_from_slice(bytes);
        }
        Ok(0)
    }

    fn resize(self, d: u64, s: u64, length: u64) -> Judged {
        need(length <= LONGEST, MALFORMED)?;
        let segment = self.segment(d, s)?;
        need(self.may_write(segment), LABEL_CONDITION)?;
        let (old, new) = (len(self.b, segment), length as usize);
        need(blocks_for(new) < usize::from(quota(self.b, segment)), NOT_ENOUGH_SPARE)?;
        let kept = blocks_for(old).min(blocks_for(new));
        set_len(self.b, segment, new);
        drop_blocks_from(self.b, self.a, segment, kept);
        if kept > 0 {
            clear_last_kept(self.b, self.a, segment, kept - 1, old.min(new), old.max(new));
        }
        for index in kept..blocks_for(new) {
            add_block(self.b, self.a, segment, index);
        }
        Ok(0)
    }
}

/// RULES 8.14: ".. bytes that it loses are set to zero in the area."
fn drop_blocks_from(b: &mut Book, a: &mut Area, segment: usize, kept: usize) {
    for i in 0..BLOCKS {
        if block(b, i).map_or(false, |(owner, index)| owner == segment && index >= kept) {
            free_block(b, i);
            a[BLOCK_LEN * i..][..BLOCK_LEN].fill(0);
        }
    }
}

/// What lies between the two lengths in the last block that stays is 0.
fn clear_last_kept(b: &Book, a: &mut Area, segment: usize, index: usize, shorter: usize, longer: usize) {
    let end = BLOCK_LEN * (index + 1);
    if shorter < end {
        let block = block_of(b, segment, index).expect("a segment has exactly its blocks");
        let first = BLOCK_LEN * block + shorter % BLOCK_LEN;
        let past = BLOCK_LEN * block + longer.min(end) - BLOCK_LEN * index;
        a[first..past].fill(0);
    }
}

/// RULES 8.14: "Blocks are gained in the order of their place in the segment.", each the lowest free one
/// (1.10), and cleared whatever stood there.
fn add_block(b: &mut Book, a: &mut Area, segment: usize, index: usize) {
    let free = (0..BLOCKS).find(|i| block(b, *i).is_none()).expect("units bound the blocks");
    set_block(b, free, segment, index);
    a[BLOCK_LEN * free..][..BLOCK_LEN].fill(0);
}
