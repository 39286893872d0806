//! Calls 15 and 16: gates, and looking at objects.

use super::*;
use crate::ask::*;
use crate::history::Script;
use crate::model::*;

pub fn histories() -> Vec<History> {
    vec![ownership(), conditions_of_a_gate(), verify_label(), sixteen_names(), malformed_entries(), looks()]
}

fn ownership() -> History {
    let mut s = Script::new("A gate passes on ownership, its entry number and its closure", FIRST);
    let c = s.grant(INIT, category());
    let owner = at(c, STAR);
    let closure: Vec<u8> = (1..33).collect();
    let g = s.grant(INIT, gate_with(ROOT, owner, two(), 77, closure));
    let o = s.grant(INIT, segment(ROOT, at(c, LEVEL_0), 2));
    let other = s.grant(INIT, thread(ROOT, one(), two()));
    s.refuse(LABEL_CONDITION, other, resize(ROOT, o, 1));
    s.refuse(LABEL_CONDITION, other, set_label(owner));
    assert_eq!(s.grant(other, enter(ROOT, g, owner, two(), one())), 77);
    s.grant(other, resize(ROOT, o, 1));
    s.grant(other, write(ROOT, o, 0, 0, &[3]));
    s.refuse(LABEL_CONDITION, other, segment(ROOT, at(c, LEVEL_3), 1));
    s.grant(other, set_clearance(cleared(c, LEVEL_3)));
    s.grant(other, segment(ROOT, at(c, LEVEL_3), 1));
    s.grant(other, set_label(one()));
    s.refuse(LABEL_CONDITION, other, write(ROOT, o, 0, 0, &[4]));
    s.end()
}

fn conditions_of_a_gate() -> History {
    let mut s = Script::new("Each condition of a gate in turn", FIRST);
    let c = s.grant(INIT, category());
    let g = s.grant(INIT, gate(ROOT, at(3, LEVEL_2), cleared(4, LEVEL_1), 1));
    let deep = s.grant(INIT, gate(ROOT, one(), cleared(c, LEVEL_3), 2));
    let other = s.grant(INIT, thread(ROOT, one(), two()));
    let tainted = s.grant(INIT, thread(ROOT, at(4, LEVEL_2), two()));
    s.refuse(LABEL_CONDITION, tainted, enter(ROOT, g, two(), two(), two()));
    s.refuse(LABEL_CONDITION, other, enter(ROOT, g, two(), two(), zero()));
    s.refuse(LABEL_CONDITION, other, enter(ROOT, g, one(), two(), two()));
    s.refuse(LABEL_CONDITION, other, enter(ROOT, g, two(), one(), two()));
    s.refuse(LABEL_CONDITION, other, enter(ROOT, g, two(), three(), two()));
    s.refuse(LABEL_CONDITION, other, enter(ROOT, g, two(), cleared(c, LEVEL_3), two()));
    s.refuse(LABEL_CONDITION, other, enter(ROOT, g, at(c, STAR), two(), two()));
    assert_eq!(s.grant(other, enter(ROOT, deep, one(), cleared(c, LEVEL_3), one())), 2);
    s.grant(other, set_label(at(c, LEVEL_3)));
    s.refuse(LABEL_CONDITION, other, enter(ROOT, g, at(c, LEVEL_3), cleared(c, LEVEL_3), at(c, LEVEL_3)));
    s.grant(INIT, enter(ROOT, g, at(3, LEVEL_2), two(), one()));
    s.refuse(LABEL_CONDITION, INIT, set_label(at(c, STAR)));
    s.end()
}

fn verify_label() -> History {
    let mut s = Script::new("The verify label proves a star without giving it away", FIRST);
    let c = s.grant(INIT, category());
    let owner = at(c, STAR);
    let g = s.grant(INIT, gate(ROOT, one(), two(), 5));
    let other = s.grant(INIT, thread(ROOT, one(), two()));
    s.refuse(LABEL_CONDITION, other, enter(ROOT, g, one(), two(), owner));
    s.grant(other, enter(ROOT, g, one(), two(), one()));
    s.refuse(LABEL_CONDITION, INIT, enter(ROOT, g, at(c, LEVEL_0), two(), at(3, STAR)));
    s.grant(INIT, enter(ROOT, g, owner, two(), owner));
    s.refuse(LABEL_CONDITION, INIT, thread(ROOT, one(), cleared(c, LEVEL_3)));
    s.grant(INIT, set_clearance(cleared(c, LEVEL_3)));
    s.grant(INIT, enter(ROOT, g, one(), two(), owner));
    s.refuse(LABEL_CONDITION, INIT, enter(ROOT, g, one(), two(), owner));
    s.end()
}

fn sixteen_names() -> History {
    let mut s = Script::new("Floor and join are compared though they name sixteen categories", 17);
    let low = eight(LEVEL_1, 1, LEVEL_2);
    let high = eight(LEVEL_1, 9, LEVEL_2);
    let g = s.grant(18, gate(17, low, two(), 1));
    let narrow = s.grant(18, gate(17, one(), eight(LEVEL_2, 1, LEVEL_1), 2));
    let a = s.grant(18, thread(17, high, two()));
    let b = s.grant(18, thread(17, one(), eight(LEVEL_2, 9, LEVEL_1)));
    s.refuse(LABEL_CONDITION, a, enter(17, g, low, two(), high));
    s.refuse(LABEL_CONDITION, a, enter(17, g, high, two(), high));
    s.refuse(NINTH_PAIR, a, category());
    s.grant(a, enter(17, g, two(), two(), high));
    s.refuse(LABEL_CONDITION, b, set_clearance(two()));
    s.grant(b, enter(17, narrow, one(), two(), one()));
    s.grant(b, set_clearance(low));
    s.refuse(LABEL_CONDITION, b, set_clearance(high));
    s.end()
}

fn malformed_entries() -> History {
    let mut s = Script::new("Gates entered with malformed arguments, and what is no gate", FIRST);
    let g = s.grant(INIT, gate(ROOT, one(), two(), 1));
    let o = s.grant(INIT, segment(ROOT, one(), 1));
    let d = s.grant(INIT, container(ROOT, one(), 0, 1));
    s.refuse(MALFORMED, INIT, enter(ROOT, g, one(), cleared(3, STAR), one()));
    s.refuse(MALFORMED, INIT, enter(ROOT, g, at(20, LEVEL_2), two(), one()));
    s.refuse(MALFORMED, INIT, enter(ROOT, g, one(), two(), at(3, LEVEL_1)));
    let (label_r, clearance_r, label_v) = (one().to_bytes(), two().to_bytes(), one().to_bytes());
    s.refuse(MALFORMED, INIT, Call::EnterGate { d: ROOT, g, label_r, clearance_r, label_v, output_len: 31 });
    let (label_r, clearance_r, label_v) = (one().to_bytes(), two().to_bytes(), Vec::new());
    s.refuse(MALFORMED, INIT, Call::EnterGate { d: ROOT, g, label_r, clearance_r, label_v, output_len: 32 });
    s.refuse(WRONG_KIND, INIT, enter(ROOT, INIT, zero(), two(), one()));
    s.refuse(WRONG_KIND, INIT, enter(ROOT, o, one(), two(), one()));
    s.refuse(WRONG_KIND, INIT, enter(ROOT, d, one(), two(), one()));
    s.refuse(NO_ENTRY, INIT, enter(d, g, one(), two(), one()));
    s.refuse(NO_ENTRY, INIT, enter(ROOT, ROOT, one(), two(), one()));
    s.grant(INIT, enter(ROOT, g, one(), two(), one()));
    s.end()
}

fn looks() -> History {
    let mut s = Script::new("A look shows every label but an unreadable thread's", FIRST);
    let c = s.grant(INIT, category());
    let tainted = at(c, LEVEL_3);
    let o = s.grant(INIT, segment(ROOT, tainted, 1));
    let job = s.grant(INIT, thread(ROOT, tainted, tainted));
    let other = s.grant(INIT, thread(ROOT, one(), two()));
    let description: Vec<u8> = (101..133).collect();
    let label = one().to_bytes();
    let d = s.grant(INIT, Call::CreateContainer { d: ROOT, label, description, mask: 0, quota: 3 });
    s.refuse(MALFORMED, other, Call::Look { d: ROOT, o, output_len: 103 });
    s.grant(other, look(ROOT, o));
    s.grant(other, look(ROOT, job));
    s.grant(INIT, look(ROOT, job));
    s.grant(other, look(d, d));
    s.refuse(NO_ENTRY, other, look(o, o));
    s.refuse(NO_ENTRY, other, look(d, o));
    s.refuse(NO_ENTRY, other, look(d, ROOT));
    s.end()
}
