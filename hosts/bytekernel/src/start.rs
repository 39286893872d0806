//! Start: the root container and the first thread.

use crate::labels::*;
use crate::layout::*;
use crate::{BAD_AREAS, GRANTED, MALFORMED};

const ROOT_QUOTA: u16 = 256;
const LAST_FIRST_NUMBER: u64 = PAST_THE_END - 3;

/// RULES 7.2: "It answers 1 if an area's length is wrong, and otherwise 4 if f is not in that range. It then
/// leaves both areas as lent."
pub fn start(book: &mut [u8], area: &mut [u8], first: u64) -> u64 {
    let b: &mut Book = match book.try_into() {
        Ok(b) => b,
        Err(_) => return BAD_AREAS,
    };
    if area.len() != AREA_LEN {
        return BAD_AREAS;
    }
    if !(1..=LAST_FIRST_NUMBER).contains(&first) {
        return MALFORMED;
    }
    b.fill(0);
    area.fill(0);
    set_next(b, first + 2);
    set_root(b, first);
    let texts = [0; TEXT_LEN];
    let root = Row {
        id: first,
        kind: CONTAINER,
        mask: 0,
        quota: ROOT_QUOTA,
        entry: 0,
        label: Label::plain(LEVEL_1),
        clearance: Label::plain(0),
        description: &texts,
        closure: &texts,
    };
    write_row(b, 0, &root);
    let thread = Row { id: first + 1, kind: THREAD, quota: 1, clearance: Label::plain(LEVEL_2), ..root };
    write_row(b, 1, &thread);
    set_link(b, 0, 0, 1);
    GRANTED
}
