//! The order of check: a call that fails at every number is mended one number at a time.

use super::*;
use crate::ask::*;
use crate::history::Script;
use crate::model::*;

pub fn histories() -> Vec<History> {
    vec![containers_and_segments(), gates_and_threads(), a_link(), a_move(), a_read_and_a_write(), a_resize()]
}

fn containers_and_segments() -> History {
    let mut s = Script::new("A container and a segment, mended one refusal at a time", FIRST);
    let masked = s.grant(INIT, container(ROOT, one(), 12, 2));
    let d = s.grant(INIT, container(ROOT, one(), 0, 6));
    s.refuse(NO_LIVE_THREAD, d, container(ABSENT, zero(), 16, 256));
    s.refuse(MALFORMED, INIT, container(ABSENT, zero(), 16, 255));
    s.refuse(NO_ENTRY, INIT, container(INIT, zero(), 15, 255));
    s.refuse(LABEL_CONDITION, INIT, container(masked, zero(), 15, 255));
    s.refuse(MASK_FORBIDS, INIT, container(masked, one(), 15, 255));
    s.refuse(NOT_ENOUGH_SPARE, INIT, container(d, one(), 15, 255));
    s.grant(INIT, container(d, one(), 15, 2));
    s.refuse(NO_LIVE_THREAD, ROOT, segment(ABSENT, zero(), 256));
    s.refuse(MALFORMED, INIT, segment(ABSENT, zero(), 256));
    s.refuse(NO_ENTRY, INIT, segment(ABSENT, zero(), 0));
    s.refuse(LABEL_CONDITION, INIT, segment(masked, zero(), 0));
    s.refuse(MASK_FORBIDS, INIT, segment(masked, one(), 0));
    s.refuse(NOT_ENOUGH_SPARE, INIT, segment(d, one(), 0));
    s.grant(INIT, segment(d, one(), 3));
    s.end()
}

fn gates_and_threads() -> History {
    let mut s = Script::new("A gate and a thread, mended one refusal at a time", FIRST);
    let masked = s.grant(INIT, container(ROOT, one(), 3, 1));
    let full = s.grant(INIT, container(ROOT, one(), 0, 1));
    s.refuse(NO_LIVE_THREAD, ABSENT, gate(ABSENT, zero(), cleared(3, STAR), 9));
    s.refuse(MALFORMED, INIT, gate(ABSENT, zero(), cleared(3, STAR), 9));
    s.refuse(NO_ENTRY, INIT, gate(ABSENT, zero(), three(), 9));
    s.refuse(LABEL_CONDITION, INIT, gate(masked, zero(), three(), 9));
    s.refuse(MASK_FORBIDS, INIT, gate(masked, one(), two(), 9));
    s.refuse(NOT_ENOUGH_SPARE, INIT, gate(full, one(), two(), 9));
    s.grant(INIT, gate(ROOT, one(), two(), 9));
    s.refuse(NO_LIVE_THREAD, masked, thread(ABSENT, at(0, 1), three()));
    s.refuse(MALFORMED, INIT, thread(ABSENT, at(0, 1), three()));
    s.refuse(NO_ENTRY, INIT, thread(ABSENT, one(), three()));
    s.refuse(LABEL_CONDITION, INIT, thread(masked, one(), three()));
    s.refuse(MASK_FORBIDS, INIT, thread(masked, one(), two()));
    s.refuse(NOT_ENOUGH_SPARE, INIT, thread(full, one(), two()));
    s.grant(INIT, thread(ROOT, one(), two()));
    s.end()
}

fn a_link() -> History {
    let mut s = Script::new("A link, mended one refusal at a time", FIRST);
    let o = s.grant(INIT, segment(ROOT, one(), 4));
    let masked = s.grant(INIT, container(ROOT, one(), 4, 4));
    let d = s.grant(INIT, container(ROOT, one(), 11, 4));
    let raised = s.grant(INIT, thread(ROOT, two(), two()));
    s.refuse(NO_LIVE_THREAD, o, link(ABSENT, d, ABSENT));
    s.refuse(NO_ENTRY, raised, link(ROOT, d, ABSENT));
    s.refuse(NO_ENTRY, raised, link(d, d, d));
    s.refuse(WRONG_KIND, raised, link(ROOT, d, masked));
    s.refuse(LABEL_CONDITION, raised, link(ROOT, o, masked));
    s.refuse(MASK_FORBIDS, INIT, link(ROOT, o, masked));
    s.refuse(FIXED_OR_NOT, INIT, link(ROOT, o, ROOT));
    s.grant(INIT, fix(ROOT, o));
    s.refuse(ALREADY_LINKED, INIT, link(ROOT, o, ROOT));
    s.refuse(NOT_ENOUGH_SPARE, INIT, link(ROOT, o, d));
    s.grant(INIT, move_quota(ROOT, d, 1));
    s.grant(INIT, link(ROOT, o, d));
    s.refuse(ALREADY_LINKED, INIT, link(ROOT, o, d));
    s.end()
}

fn a_move() -> History {
    let mut s = Script::new("A move, mended one refusal at a time", FIRST);
    let d = s.grant(INIT, container(ROOT, one(), 0, 8));
    let fixed = s.grant(INIT, segment(d, one(), 2));
    let o = s.grant(INIT, segment(d, one(), 2));
    let raised = s.grant(INIT, thread(ROOT, two(), two()));
    s.grant(INIT, fix(d, fixed));
    s.refuse(NO_LIVE_THREAD, ABSENT, move_quota(ABSENT, raised, 257));
    s.refuse(MALFORMED, raised, move_quota(ABSENT, raised, 257));
    s.refuse(NO_ENTRY, raised, move_quota(d, raised, 256));
    s.refuse(WRONG_KIND, raised, move_quota(ROOT, raised, 256));
    s.refuse(LABEL_CONDITION, raised, move_quota(d, fixed, 256));
    s.refuse(FIXED_OR_NOT, INIT, move_quota(d, fixed, 256));
    s.refuse(NOT_ENOUGH_SPARE, INIT, move_quota(d, o, 4));
    s.grant(INIT, move_quota(d, o, 3));
    s.refuse(LABEL_CONDITION, raised, move_quota(d, o, -256));
    s.refuse(NOT_ENOUGH_SPARE, INIT, move_quota(d, o, -5));
    s.grant(INIT, move_quota(d, o, -4));
    s.end()
}

fn a_read_and_a_write() -> History {
    let mut s = Script::new("A read and a write, mended one refusal at a time", FIRST);
    let o = s.grant(INIT, segment(ROOT, at(3, LEVEL_2), 2));
    s.grant(INIT, set_clearance(at(3, LEVEL_2)));
    let raised = s.grant(INIT, thread(ROOT, at(3, LEVEL_2), at(3, LEVEL_2)));
    s.refuse(NO_LIVE_THREAD, o, read(ABSENT, INIT, 254, 64, 1));
    s.refuse(MALFORMED, INIT, read(ABSENT, INIT, 0, 64, 1));
    s.refuse(NO_ENTRY, INIT, read(ABSENT, INIT, 0, 0, 1));
    s.refuse(WRONG_KIND, INIT, read(ROOT, INIT, 0, 0, 1));
    s.refuse(LABEL_CONDITION, INIT, read(ROOT, o, 0, 0, 1));
    s.refuse(BEYOND_THE_LENGTH, raised, read(ROOT, o, 0, 0, 1));
    s.refuse(NO_LIVE_THREAD, ABSENT, write(ABSENT, INIT, 254, 0, &[5]));
    s.refuse(MALFORMED, INIT, write(ABSENT, INIT, 254, 0, &[5]));
    s.refuse(NO_ENTRY, INIT, write(ROOT, ROOT, 0, 0, &[5]));
    s.refuse(WRONG_KIND, INIT, write(ROOT, INIT, 0, 0, &[5]));
    s.refuse(LABEL_CONDITION, INIT, write(ROOT, o, 0, 0, &[5]));
    s.refuse(BEYOND_THE_LENGTH, raised, write(ROOT, o, 0, 0, &[5]));
    s.grant(raised, resize(ROOT, o, 1));
    s.grant(raised, write(ROOT, o, 0, 0, &[5]));
    s.grant(raised, read(ROOT, o, 0, 0, 1));
    s.end()
}

fn a_resize() -> History {
    let mut s =
        Script::new("A resize, an unreference, a fix and an entry, mended one refusal at a time", FIRST);
    let o = s.grant(INIT, segment(ROOT, one(), 2));
    let raised = s.grant(INIT, thread(ROOT, two(), two()));
    let g = s.grant(INIT, gate(ROOT, one(), two(), 4));
    s.refuse(NO_LIVE_THREAD, o, resize(ABSENT, raised, 16_257));
    s.refuse(MALFORMED, raised, resize(ABSENT, raised, 16_257));
    s.refuse(NO_ENTRY, raised, resize(ABSENT, raised, 16_256));
    s.refuse(WRONG_KIND, raised, resize(ROOT, raised, 16_256));
    s.refuse(LABEL_CONDITION, raised, resize(ROOT, o, 65));
    s.refuse(NOT_ENOUGH_SPARE, INIT, resize(ROOT, o, 65));
    s.grant(INIT, resize(ROOT, o, 64));
    s.refuse(WRONG_KIND, raised, fix(ROOT, g));
    s.refuse(LABEL_CONDITION, raised, fix(ROOT, o));
    s.refuse(NO_LIVE_THREAD, ABSENT, enter(ABSENT, o, at(0, 1), one(), zero()));
    s.refuse(MALFORMED, raised, enter(ABSENT, o, at(0, 1), one(), zero()));
    s.refuse(NO_ENTRY, raised, enter(ABSENT, o, zero(), one(), zero()));
    s.refuse(WRONG_KIND, raised, enter(ROOT, o, zero(), one(), zero()));
    s.refuse(LABEL_CONDITION, raised, enter(ROOT, g, zero(), one(), zero()));
    s.grant(raised, enter(ROOT, g, two(), two(), two()));
    s.refuse(LABEL_CONDITION, raised, unreference(ROOT, raised));
    s.grant(INIT, unreference(ROOT, raised));
    s.end()
}
