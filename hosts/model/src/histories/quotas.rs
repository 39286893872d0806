//! Calls 9 to 11: links, fixed quotas and moves.

use super::*;
use crate::ask::*;
use crate::history::Script;
use crate::model::*;

pub fn histories() -> Vec<History> {
    vec![
        links(),
        charged_in_both(),
        labels_of_links(),
        masks_of_links(),
        moves(),
        labels_of_moves(),
        fixed_quotas(),
    ]
}

fn links() -> History {
    let mut s = Script::new("A segment is linked once its quota is fixed, once in each container", FIRST);
    let d = s.grant(INIT, container(ROOT, one(), 0, 6));
    let o = s.grant(INIT, segment(ROOT, one(), 3));
    s.refuse(FIXED_OR_NOT, INIT, link(ROOT, o, d));
    s.refuse(FIXED_OR_NOT, INIT, link(ROOT, o, ROOT));
    s.grant(INIT, fix(ROOT, o));
    s.refuse(ALREADY_LINKED, INIT, link(ROOT, o, ROOT));
    s.grant(INIT, link(ROOT, o, d));
    s.refuse(ALREADY_LINKED, INIT, link(ROOT, o, d));
    s.grant(INIT, unreference(ROOT, o));
    s.refuse(NO_ENTRY, INIT, link(ROOT, o, d));
    s.refuse(NO_ENTRY, INIT, fix(ROOT, o));
    s.grant(INIT, link(d, o, ROOT));
    s.refuse(WRONG_KIND, INIT, link(ROOT, INIT, d));
    s.refuse(WRONG_KIND, INIT, link(ROOT, d, d));
    s.end()
}

fn charged_in_both() -> History {
    let mut s =
        Script::new("A second link is charged again, whether or not one container lies in the other", FIRST);
    let d = s.grant(INIT, container(ROOT, one(), 0, 9));
    let inner = s.grant(INIT, container(d, one(), 0, 5));
    let o = s.grant(INIT, segment(inner, one(), 4));
    s.refuse(NOT_ENOUGH_SPARE, INIT, segment(inner, one(), 1));
    s.grant(INIT, fix(inner, o));
    s.refuse(NOT_ENOUGH_SPARE, INIT, link(inner, o, d));
    s.grant(INIT, move_quota(ROOT, d, 1));
    s.grant(INIT, link(inner, o, d));
    s.refuse(NOT_ENOUGH_SPARE, INIT, gate(d, one(), two(), 3));
    s.refuse(NOT_ENOUGH_SPARE, INIT, move_quota(ROOT, d, -1));
    s.grant(INIT, unreference(inner, o));
    s.grant(INIT, gate(inner, one(), two(), 3));
    s.grant(INIT, unreference(d, o));
    s.grant(INIT, move_quota(ROOT, d, -4));
    s.refuse(NOT_ENOUGH_SPARE, INIT, move_quota(ROOT, d, -1));
    s.end()
}

fn labels_of_links() -> History {
    let mut s = Script::new("Who may link and fix a segment", FIRST);
    let c = s.grant(INIT, category());
    let low = s.grant(INIT, segment(ROOT, one(), 2));
    let high = s.grant(INIT, segment(ROOT, at(c, LEVEL_3), 2));
    let d = s.grant(INIT, container(ROOT, at(c, LEVEL_3), 0, 9));
    let other = s.grant(INIT, thread(ROOT, one(), two()));
    let tainted = s.grant(INIT, thread(ROOT, at(c, LEVEL_3), cleared(c, LEVEL_3)));
    s.grant(other, fix(ROOT, high));
    s.refuse(LABEL_CONDITION, other, link(ROOT, high, ROOT));
    s.refuse(NO_ENTRY, other, link(ROOT, low, d));
    s.refuse(LABEL_CONDITION, tainted, fix(ROOT, low));
    s.refuse(LABEL_CONDITION, tainted, link(ROOT, low, ROOT));
    s.refuse(FIXED_OR_NOT, tainted, link(ROOT, low, d));
    s.grant(INIT, fix(ROOT, low));
    s.grant(tainted, link(ROOT, low, d));
    s.refuse(LABEL_CONDITION, tainted, fix(d, low));
    s.grant(tainted, link(ROOT, high, d));
    s.refuse(LABEL_CONDITION, tainted, write(d, low, 0, 0, &[]));
    s.end()
}

/// RULES 12.7: "Call 9 asks the mask of the container that the segment is to be linked in, as a create does: .."
fn masks_of_links() -> History {
    let mut s = Script::new("A container that forbids segments takes no link of one", FIRST);
    let others = s.grant(INIT, container(ROOT, one(), 11, 9));
    let masked = s.grant(INIT, container(ROOT, one(), 4, 9));
    let below = s.grant(INIT, container(masked, one(), 0, 5));
    let o = s.grant(INIT, segment(ROOT, one(), 2));
    s.refuse(MASK_FORBIDS, INIT, link(ROOT, o, masked));
    s.grant(INIT, fix(ROOT, o));
    s.refuse(MASK_FORBIDS, INIT, link(ROOT, o, masked));
    s.refuse(MASK_FORBIDS, INIT, link(ROOT, o, below));
    s.grant(INIT, link(ROOT, o, others));
    s.refuse(ALREADY_LINKED, INIT, link(ROOT, o, others));
    s.grant(INIT, unreference(ROOT, o));
    s.refuse(MASK_FORBIDS, INIT, link(others, o, masked));
    s.grant(INIT, link(others, o, ROOT));
    s.grant(INIT, thread(masked, one(), two()));
    s.refuse(MASK_FORBIDS, INIT, segment(below, one(), 1));
    s.end()
}

fn moves() -> History {
    let mut s = Script::new("Quota moves in and back as far as there is spare", FIRST);
    let d = s.grant(INIT, container(ROOT, one(), 0, 6));
    let o = s.grant(INIT, segment(d, one(), 2));
    s.grant(INIT, move_quota(d, o, 3));
    s.refuse(NOT_ENOUGH_SPARE, INIT, move_quota(d, o, 1));
    s.grant(INIT, move_quota(d, o, 0));
    s.grant(INIT, resize(d, o, 65));
    s.refuse(NOT_ENOUGH_SPARE, INIT, move_quota(d, o, -3));
    s.grant(INIT, move_quota(d, o, -2));
    s.refuse(NOT_ENOUGH_SPARE, INIT, resize(d, o, 129));
    s.refuse(NOT_ENOUGH_SPARE, INIT, move_quota(ROOT, d, -3));
    s.grant(INIT, move_quota(ROOT, d, -2));
    s.refuse(NOT_ENOUGH_SPARE, INIT, move_quota(ROOT, d, 251));
    s.grant(INIT, move_quota(ROOT, d, 250));
    s.refuse(MALFORMED, INIT, move_quota(ROOT, d, 257));
    s.refuse(MALFORMED, INIT, move_quota(ROOT, d, -257));
    s.refuse(NOT_ENOUGH_SPARE, INIT, move_quota(ROOT, d, 256));
    s.refuse(NOT_ENOUGH_SPARE, INIT, move_quota(ROOT, d, -256));
    s.end()
}

fn labels_of_moves() -> History {
    let mut s = Script::new("Only a move back asks that the object be readable", FIRST);
    let c = s.grant(INIT, category());
    let d = s.grant(INIT, container(ROOT, at(c, LEVEL_2), 0, 6));
    let o = s.grant(INIT, segment(ROOT, at(c, LEVEL_3), 2));
    let other = s.grant(INIT, thread(ROOT, one(), two()));
    s.grant(other, move_quota(ROOT, d, 0));
    s.grant(other, move_quota(ROOT, d, 2));
    s.refuse(LABEL_CONDITION, other, move_quota(ROOT, d, -1));
    s.grant(INIT, move_quota(ROOT, d, -1));
    s.refuse(LABEL_CONDITION, other, move_quota(ROOT, o, 1));
    s.refuse(WRONG_KIND, other, move_quota(ROOT, other, 1));
    s.grant(other, set_label(cleared(3, LEVEL_1)));
    s.refuse(LABEL_CONDITION, other, move_quota(ROOT, d, 1));
    s.refuse(NOT_ENOUGH_SPARE, INIT, move_quota(ROOT, o, -2));
    s.end()
}

fn fixed_quotas() -> History {
    let mut s = Script::new("A fixed quota does not move, and does not fix the length", FIRST);
    let o = s.grant(INIT, segment(ROOT, one(), 2));
    let g = s.grant(INIT, gate(ROOT, one(), two(), 1));
    s.grant(INIT, move_quota(ROOT, o, 1));
    s.grant(INIT, fix(ROOT, o));
    s.grant(INIT, fix(ROOT, o));
    s.refuse(FIXED_OR_NOT, INIT, move_quota(ROOT, o, 1));
    s.refuse(FIXED_OR_NOT, INIT, move_quota(ROOT, o, 0));
    s.refuse(FIXED_OR_NOT, INIT, move_quota(ROOT, o, -200));
    s.grant(INIT, resize(ROOT, o, 128));
    s.refuse(NOT_ENOUGH_SPARE, INIT, resize(ROOT, o, 129));
    s.grant(INIT, resize(ROOT, o, 1));
    s.refuse(WRONG_KIND, INIT, fix(ROOT, g));
    s.refuse(WRONG_KIND, INIT, fix(ROOT, INIT));
    s.refuse(WRONG_KIND, INIT, move_quota(ROOT, g, 0));
    s.end()
}
