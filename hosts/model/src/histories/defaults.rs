//! Calls 4 and 5 with quota 0.

use super::*;
use crate::ask::*;
use crate::history::Script;
use crate::model::*;

pub fn histories() -> Vec<History> {
    vec![quota_0()]
}

/// RULES 3.7: ".. 0 stands for a default: 8 for a container, 5 for a segment."
fn quota_0() -> History {
    let mut s = Script::new("A container made with quota 0 has 8 units, and one made with 16 has 16", FIRST);
    let d = s.grant(INIT, container(ROOT, one(), 0, 0));
    s.refuse(NOT_ENOUGH_SPARE, INIT, container(d, one(), 0, 0)); // 7 to spare
    s.grant(INIT, move_quota(ROOT, d, 1));
    let inner = s.grant(INIT, container(d, one(), 0, 0)); // 8 to spare
    s.refuse(NOT_ENOUGH_SPARE, INIT, gate(d, one(), two(), 0)); // none left
    s.grant(INIT, thread(inner, one(), two()));
    s.grant(INIT, gate(inner, one(), two(), 0));
    s.grant(INIT, container(inner, one(), 0, 1));
    for _ in 0..4 {
        s.grant(INIT, segment(inner, one(), 1));
    }
    s.refuse(NOT_ENOUGH_SPARE, INIT, segment(inner, one(), 1)); // the eighth
    let large = s.grant(INIT, container(ROOT, one(), 0, CONTAINER_QUOTA_BEFORE_W7));
    s.refuse(NOT_ENOUGH_SPARE, INIT, container(large, one(), 0, CONTAINER_QUOTA_BEFORE_W7)); // 15 to spare
    s.grant(INIT, container(large, one(), 0, 0));
    s.refuse(NOT_ENOUGH_SPARE, INIT, container(large, one(), 0, 0)); // 7 left
    s.grant(INIT, segment(large, one(), 0));
    s.refuse(NOT_ENOUGH_SPARE, INIT, segment(large, one(), 3)); // 2 left
    s.grant(INIT, segment(large, one(), 2));
    s.end()
}
