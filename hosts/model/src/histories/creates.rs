//! Calls 4 to 8: creating and unreferencing.

use super::*;
use crate::ask::*;
use crate::history::Script;
use crate::model::*;

pub fn histories() -> Vec<History> {
    vec![
        granted_room(),
        the_mask(),
        exact_fits(),
        labels_of_new_objects(),
        malformed_creates(),
        down_the_tree(),
        the_caller_goes(),
    ]
}

fn granted_room() -> History {
    let mut s = Script::new("Room granted to a container is not used by a neighbour", FIRST);
    let c = s.grant(INIT, category());
    let d = s.grant(INIT, container(ROOT, at(c, LEVEL_3), 0, 20));
    let o = s.grant(INIT, segment(d, at(c, LEVEL_3), 3));
    s.grant(INIT, resize(d, o, 128));
    s.refuse(NOT_ENOUGH_SPARE, INIT, resize(d, o, 129));
    let other = s.grant(INIT, thread(ROOT, one(), two()));
    s.refuse(NO_ENTRY, other, read(d, o, 0, 0, 1));
    s.refuse(LABEL_CONDITION, other, set_label(at(c, LEVEL_3)));
    s.refuse(NOT_ENOUGH_SPARE, other, segment(ROOT, one(), 234));
    let greedy = s.grant(other, segment(ROOT, one(), 233));
    s.refuse(NOT_ENOUGH_SPARE, INIT, move_quota(ROOT, d, 1));
    s.grant(INIT, segment(d, at(c, LEVEL_3), 16));
    s.refuse(NOT_ENOUGH_SPARE, INIT, segment(d, at(c, LEVEL_3), 1));
    s.grant(INIT, unreference(ROOT, greedy));
    s.refuse(NO_LIVE_THREAD, greedy, category());
    s.grant(INIT, move_quota(ROOT, d, 1));
    s.grant(INIT, segment(d, at(c, LEVEL_3), 1));
    s.end()
}

fn the_mask() -> History {
    let mut s =
        Script::new("The mask forbids kinds, is handed down, and is judged at creation and at a link", FIRST);
    let all = s.grant(INIT, container(ROOT, one(), 15, 9));
    s.refuse(MASK_FORBIDS, INIT, thread(all, one(), two()));
    s.refuse(MASK_FORBIDS, INIT, gate(all, one(), two(), 1));
    s.refuse(MASK_FORBIDS, INIT, segment(all, one(), 1));
    s.refuse(MASK_FORBIDS, INIT, container(all, one(), 0, 1));
    let some = s.grant(INIT, container(ROOT, one(), 5, 30));
    s.refuse(MASK_FORBIDS, INIT, thread(some, one(), two()));
    s.grant(INIT, gate(some, one(), two(), 1));
    let inner = s.grant(INIT, container(some, one(), 2, 9));
    s.refuse(MASK_FORBIDS, INIT, gate(inner, one(), two(), 1));
    s.refuse(MASK_FORBIDS, INIT, segment(inner, one(), 1));
    s.grant(INIT, container(inner, one(), 0, 2));
    let o = s.grant(INIT, segment(ROOT, one(), 2));
    s.grant(INIT, fix(ROOT, o));
    s.refuse(MASK_FORBIDS, INIT, link(ROOT, o, all));
    s.refuse(MASK_FORBIDS, INIT, link(ROOT, o, inner));
    s.end()
}

fn exact_fits() -> History {
    let mut s = Script::new("Creates fit exactly or not at all", FIRST);
    let d = s.grant(INIT, container(ROOT, one(), 0, 22));
    s.refuse(NOT_ENOUGH_SPARE, INIT, container(d, one(), 0, 22));
    s.grant(INIT, container(d, one(), 0, CONTAINER_QUOTA_BEFORE_W7));
    s.refuse(NOT_ENOUGH_SPARE, INIT, container(d, one(), 0, CONTAINER_QUOTA_BEFORE_W7));
    s.grant(INIT, segment(d, one(), 0));
    s.refuse(NOT_ENOUGH_SPARE, INIT, segment(d, one(), 1));
    s.refuse(NOT_ENOUGH_SPARE, INIT, gate(d, one(), two(), 0));
    s.refuse(NOT_ENOUGH_SPARE, INIT, thread(d, one(), two()));
    s.grant(INIT, move_quota(ROOT, d, 2));
    s.grant(INIT, gate(d, one(), two(), 0));
    s.grant(INIT, thread(d, one(), two()));
    s.refuse(NOT_ENOUGH_SPARE, INIT, thread(d, one(), two()));
    s.refuse(NOT_ENOUGH_SPARE, INIT, container(ROOT, one(), 0, 255));
    s.end()
}

fn labels_of_new_objects() -> History {
    let mut s = Script::new("A new label lies between the caller's label and its clearance", FIRST);
    let c = s.grant(INIT, category());
    s.refuse(LABEL_CONDITION, INIT, container(ROOT, zero(), 0, 0));
    s.refuse(LABEL_CONDITION, INIT, container(ROOT, three(), 0, 0));
    s.refuse(LABEL_CONDITION, INIT, segment(ROOT, at(3, LEVEL_0), 0));
    s.refuse(LABEL_CONDITION, INIT, segment(ROOT, at(3, LEVEL_3), 0));
    s.grant(INIT, segment(ROOT, at(c, LEVEL_3), 1));
    s.grant(INIT, segment(ROOT, at(c, LEVEL_0), 1));
    s.refuse(LABEL_CONDITION, INIT, gate(ROOT, two(), one(), 0));
    s.refuse(LABEL_CONDITION, INIT, gate(ROOT, at(3, STAR), two(), 0));
    s.refuse(LABEL_CONDITION, INIT, thread(ROOT, one(), cleared(3, LEVEL_3)));
    s.refuse(LABEL_CONDITION, INIT, thread(ROOT, at(3, STAR), two()));
    let other = s.grant(INIT, thread(ROOT, at(c, STAR), cleared(c, LEVEL_3)));
    s.grant(other, gate(ROOT, at(c, STAR), cleared(c, LEVEL_3), 0));
    let d = s.grant(other, container(ROOT, two(), 0, 5));
    s.refuse(NO_ENTRY, INIT, segment(d, two(), 1));
    s.grant(other, set_label(two()));
    s.grant(other, segment(d, two(), 1));
    s.end()
}

fn malformed_creates() -> History {
    let mut s = Script::new("Creates with malformed arguments", FIRST);
    let label = one().to_bytes();
    let clearance = two().to_bytes();
    let short = vec![0; 3];
    let d = ABSENT;
    s.refuse(MALFORMED, INIT, container(d, one(), 16, 0));
    s.refuse(MALFORMED, INIT, container(d, one(), 0, 256));
    s.refuse(MALFORMED, INIT, container(d, at(3, STAR), 0, 0));
    let call = Call::CreateContainer { d, label, description: short.clone(), mask: 0, quota: 0 };
    s.refuse(MALFORMED, INIT, call);
    s.refuse(MALFORMED, INIT, segment(d, one(), 256));
    s.refuse(MALFORMED, INIT, segment(d, at(3, STAR), 0));
    let call = Call::CreateSegment { d, label: short.clone(), description: zeros32(), quota: 0 };
    s.refuse(MALFORMED, INIT, call);
    s.refuse(MALFORMED, INIT, gate(d, one(), cleared(3, STAR), 0));
    s.refuse(MALFORMED, INIT, gate(d, at(20, STAR), two(), 0));
    s.refuse(MALFORMED, INIT, gate_with(d, one(), two(), 0, short.clone()));
    s.refuse(MALFORMED, INIT, thread(d, one(), cleared(3, STAR)));
    s.refuse(MALFORMED, INIT, thread(d, Label::plain(STAR), two()));
    let label = one().to_bytes();
    s.refuse(MALFORMED, INIT, Call::CreateThread { d, label, clearance, description: short });
    s.refuse(NO_ENTRY, INIT, container(d, one(), 15, 255));
    s.refuse(NO_ENTRY, INIT, thread(d, at(3, STAR), two()));
    s.end()
}

fn down_the_tree() -> History {
    let mut s =
        Script::new("Unreferencing a container takes all below it, but not what is linked elsewhere", FIRST);
    let d = s.grant(INIT, container(ROOT, one(), 0, 40));
    let inner = s.grant(INIT, container(d, one(), 0, 20));
    let job = s.grant(INIT, thread(inner, one(), two()));
    let kept = s.grant(INIT, segment(inner, one(), 2));
    let lost = s.grant(job, segment(inner, one(), 2));
    s.grant(job, resize(inner, kept, 2));
    s.grant(job, write(inner, kept, 0, 0, &[8, 9]));
    s.grant(INIT, fix(inner, kept));
    s.grant(INIT, link(inner, kept, ROOT));
    s.grant(INIT, link(inner, kept, d));
    s.grant(INIT, unreference(ROOT, d));
    s.refuse(NO_LIVE_THREAD, job, category());
    s.refuse(NO_ENTRY, INIT, read(inner, lost, 0, 0, 0));
    s.refuse(NO_ENTRY, INIT, unreference(ROOT, d));
    s.grant(INIT, read(ROOT, kept, 0, 0, 2));
    s.grant(INIT, unreference(ROOT, kept));
    s.refuse(NO_ENTRY, INIT, read(ROOT, kept, 0, 0, 2));
    s.grant(INIT, segment(ROOT, one(), 254));
    s.end()
}

fn the_caller_goes() -> History {
    let mut s = Script::new("A caller frees its home, and another frees itself", FIRST);
    let home = s.grant(INIT, container(ROOT, one(), 0, 8));
    let job = s.grant(INIT, thread(home, one(), two()));
    let c = s.grant(job, category());
    let secret = s.grant(job, segment(ROOT, at(c, LEVEL_3), 2));
    s.refuse(LABEL_CONDITION, INIT, read(ROOT, secret, 0, 0, 0));
    s.grant(job, unreference(ROOT, home));
    s.refuse(NO_LIVE_THREAD, job, resize(ROOT, secret, 1));
    s.grant(INIT, unreference(ROOT, secret));
    s.refuse(NO_ENTRY, INIT, unreference(ROOT, ROOT));
    s.grant(INIT, unreference(ROOT, INIT));
    s.refuse(NO_LIVE_THREAD, INIT, unreference(ROOT, INIT));
    s.end()
}
