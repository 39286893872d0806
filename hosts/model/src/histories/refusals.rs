//! Refusals that every call has in common.

use super::*;
use crate::ask::*;
use crate::history::Script;
use crate::model::*;

pub fn histories() -> Vec<History> {
    vec![a_dead_caller(), an_unreadable_container(), large_arguments(), the_last_number(), near_the_end()]
}

/// All sixteen calls on what is in the root.
fn every_call(root: u64, label: Label, o: u64, g: u64, d: u64) -> Vec<Call> {
    vec![
        category(),
        set_label(label),
        set_clearance(two()),
        container(root, label, 0, 1),
        segment(root, label, 1),
        gate(root, label, two(), 1),
        thread(root, label, two()),
        unreference(root, d),
        link(root, o, d),
        fix(root, o),
        move_quota(root, d, 1),
        read(root, o, 0, 0, 0),
        write(root, o, 0, 0, &[]),
        resize(root, o, 1),
        enter(root, g, label, two(), label),
        look(root, o),
    ]
}

fn a_dead_caller() -> History {
    let mut s = Script::new("A thread that has been freed calls no more", FIRST);
    let o = s.grant(INIT, segment(ROOT, one(), 2));
    let g = s.grant(INIT, gate(ROOT, one(), two(), 1));
    let d = s.grant(INIT, container(ROOT, one(), 0, 9));
    let job = s.grant(INIT, thread(d, one(), two()));
    s.grant(job, fix(ROOT, o));
    s.grant(INIT, unreference(d, job));
    for call in every_call(ROOT, one(), o, g, d) {
        s.refuse(NO_LIVE_THREAD, job, call);
    }
    s.refuse(NO_LIVE_THREAD, g, category());
    s.grant(INIT, category());
    s.end()
}

/// Every call that names a container, all on D and on an object that it holds or seems to hold.
fn on_container(d: u64, o: u64) -> Vec<Call> {
    vec![
        container(d, one(), 0, 1),
        segment(d, one(), 1),
        gate(d, one(), two(), 1),
        thread(d, one(), two()),
        unreference(d, o),
        link(d, o, ROOT),
        link(ROOT, INIT, d),
        fix(d, o),
        move_quota(d, o, 1),
        read(d, o, 0, 0, 0),
        write(d, o, 0, 0, &[]),
        resize(d, o, 1),
        enter(d, o, one(), two(), one()),
        look(d, o),
        look(d, d),
    ]
}

fn an_unreadable_container() -> History {
    let mut s = Script::new("An unreadable container answers as an absent one does", FIRST);
    let c = s.grant(INIT, category());
    let d = s.grant(INIT, container(ROOT, at(c, LEVEL_3), 0, 9));
    let o = s.grant(INIT, segment(d, at(c, LEVEL_3), 1));
    let other = s.grant(INIT, thread(ROOT, one(), two()));
    for call in on_container(d, o) {
        s.refuse(NO_ENTRY, other, call);
    }
    s.grant(INIT, read(d, o, 0, 0, 0));
    s.end()
}

fn large_arguments() -> History {
    let mut s = Script::new("Arguments as large as numbers go", FIRST);
    let last = u64::MAX;
    let o = s.grant(INIT, segment(ROOT, one(), 2));
    s.refuse(NO_LIVE_THREAD, last, category());
    s.refuse(MALFORMED, INIT, container(ROOT, one(), last, 1));
    s.refuse(MALFORMED, INIT, segment(ROOT, one(), last));
    s.refuse(NO_ENTRY, INIT, unreference(ROOT, last));
    s.refuse(NO_ENTRY, INIT, look(last, last));
    s.refuse(MALFORMED, INIT, move_quota(ROOT, o, i64::MAX));
    s.refuse(MALFORMED, INIT, move_quota(ROOT, o, i64::MIN));
    s.refuse(MALFORMED, INIT, read(ROOT, o, last, 0, 0));
    s.refuse(MALFORMED, INIT, read(ROOT, o, 0, last, 1));
    s.refuse(MALFORMED, INIT, read(ROOT, o, 0, 1, last));
    let call = Call::Write { d: ROOT, s: o, k: 0, from: last - 1, count: 2, bytes: vec![1, 2] };
    s.refuse(MALFORMED, INIT, call);
    s.refuse(MALFORMED, INIT, resize(ROOT, o, last));
    s.refuse(MALFORMED, INIT, set_label(Label { default: 2, words: [last, 0, 0, 0, 0, 0, 0, 0] }));
    let g = s.grant(INIT, gate(ROOT, one(), two(), last));
    assert_eq!(s.grant(INIT, enter(ROOT, g, one(), two(), one())), last);
    s.end()
}

fn the_last_number() -> History {
    let root = LAST_FIRST_NUMBER;
    let init = root + 1;
    let mut s = Script::new("The last number there is, and every call after it", root);
    let c = s.grant(init, category());
    for call in every_call(root, at(c, STAR), init, init, root) {
        s.refuse(NUMBERS_ENDED, init, call);
    }
    s.refuse(NUMBERS_ENDED, ABSENT, Call::SetLabel { label: Vec::new() });
    s.end()
}

fn near_the_end() -> History {
    let root = LAST_FIRST_NUMBER - 9;
    let init = root + 1;
    let mut s = Script::new("Categories and ids near the end of the numbers", root);
    let c = s.grant(init, category());
    let o = s.grant(init, segment(root, at(c, LEVEL_3), 2));
    s.grant(init, resize(root, o, 1));
    s.grant(init, write(root, o, 0, 0, &[1]));
    let other = s.grant(init, thread(root, one(), two()));
    s.refuse(LABEL_CONDITION, other, read(root, o, 0, 0, 1));
    s.refuse(MALFORMED, other, set_label(at(PAST_THE_END - 1, LEVEL_2)));
    s.grant(init, read(root, o, 0, 0, 1));
    s.refuse(MALFORMED, init, set_label(at(PAST_THE_END - 1, LEVEL_2)));
    s.grant(init, category());
    s.refuse(NUMBERS_ENDED, init, category());
    s.refuse(NUMBERS_ENDED, other, read(root, o, 0, 0, 1));
    s.end()
}
