//! Calls 12 to 14: the bytes of segments.

use super::*;
use crate::ask::*;
use crate::history::Script;
use crate::model::*;

pub fn histories() -> Vec<History> {
    vec![bytes_stay(), cut_off_and_grown(), edges_of_parts(), who_reads_and_writes()]
}

fn bytes_stay() -> History {
    let mut s = Script::new("What a read shows is what the writes left", FIRST);
    let a = s.grant(INIT, segment(ROOT, one(), 3));
    let b = s.grant(INIT, segment(ROOT, one(), 3));
    s.grant(INIT, resize(ROOT, a, 4));
    s.grant(INIT, resize(ROOT, b, 66));
    s.grant(INIT, write(ROOT, a, 0, 0, &[1, 2, 3, 4]));
    s.grant(INIT, write(ROOT, b, 1, 0, &[5, 6]));
    s.grant(INIT, write(ROOT, a, 0, 1, &[7, 8]));
    s.grant(INIT, read(ROOT, a, 0, 0, 4));
    s.grant(INIT, resize(ROOT, a, 70));
    s.grant(INIT, write(ROOT, a, 1, 4, &[255, 9]));
    s.grant(INIT, read(ROOT, b, 0, 62, 2));
    s.grant(INIT, read(ROOT, b, 1, 0, 2));
    s.grant(INIT, read(ROOT, a, 1, 2, 4));
    s.grant(INIT, read(ROOT, a, 0, 2, 3));
    s.end()
}

fn cut_off_and_grown() -> History {
    let mut s =
        Script::new("New bytes are zero, also in a block that stayed and in a freed segment's room", FIRST);
    let a = s.grant(INIT, segment(ROOT, one(), 3));
    s.grant(INIT, resize(ROOT, a, 68));
    s.grant(INIT, write(ROOT, a, 0, 60, &[4, 4, 4, 4]));
    s.grant(INIT, write(ROOT, a, 1, 0, &[3, 3, 3, 3]));
    s.grant(INIT, resize(ROOT, a, 62));
    s.grant(INIT, resize(ROOT, a, 68));
    s.grant(INIT, read(ROOT, a, 0, 59, 5));
    s.grant(INIT, read(ROOT, a, 1, 0, 4));
    s.grant(INIT, write(ROOT, a, 1, 0, &[2, 2]));
    s.grant(INIT, unreference(ROOT, a));
    let b = s.grant(INIT, segment(ROOT, one(), 3));
    s.grant(INIT, resize(ROOT, b, 66));
    s.grant(INIT, read(ROOT, b, 0, 60, 4));
    s.grant(INIT, read(ROOT, b, 1, 0, 2));
    s.end()
}

fn edges_of_parts() -> History {
    let mut s = Script::new("Parts at the edge of a block and of the length", FIRST);
    let o = s.grant(INIT, segment(ROOT, one(), 3));
    s.grant(INIT, read(ROOT, o, 0, 0, 0));
    s.refuse(BEYOND_THE_LENGTH, INIT, read(ROOT, o, 0, 0, 1));
    s.refuse(BEYOND_THE_LENGTH, INIT, read(ROOT, o, 0, 1, 0));
    s.refuse(BEYOND_THE_LENGTH, INIT, write(ROOT, o, 0, 64, &[]));
    s.grant(INIT, resize(ROOT, o, 64));
    s.grant(INIT, write(ROOT, o, 0, 64, &[]));
    s.grant(INIT, write(ROOT, o, 0, 63, &[6]));
    s.grant(INIT, read(ROOT, o, 0, 63, 1));
    s.grant(INIT, read(ROOT, o, 1, 0, 0));
    s.refuse(BEYOND_THE_LENGTH, INIT, write(ROOT, o, 1, 0, &[1]));
    s.refuse(BEYOND_THE_LENGTH, INIT, read(ROOT, o, 253, 0, 0));
    s.refuse(MALFORMED, INIT, read(ROOT, o, 254, 0, 0));
    s.refuse(MALFORMED, INIT, read(ROOT, o, 0, 64, 1));
    s.refuse(MALFORMED, INIT, read(ROOT, o, 0, 65, 0));
    s.refuse(MALFORMED, INIT, write(ROOT, o, 0, 63, &[1, 2]));
    let call = Call::Write { d: ROOT, s: o, k: 0, from: 0, count: 2, bytes: vec![1] };
    s.refuse(MALFORMED, INIT, call);
    let call = Call::Write { d: ROOT, s: o, k: 0, from: 0, count: 1, bytes: vec![1, 2] };
    s.refuse(MALFORMED, INIT, call);
    s.refuse(MALFORMED, INIT, resize(ROOT, o, 16_257));
    s.refuse(NOT_ENOUGH_SPARE, INIT, resize(ROOT, o, 16_256));
    s.end()
}

fn who_reads_and_writes() -> History {
    let mut s = Script::new("Readers, writers and owners of a segment", FIRST);
    let c = s.grant(INIT, category());
    let low = s.grant(INIT, segment(ROOT, one(), 2));
    let high = s.grant(INIT, segment(ROOT, at(c, LEVEL_3), 2));
    let guarded = s.grant(INIT, segment(ROOT, at(c, LEVEL_0), 2));
    let other = s.grant(INIT, thread(ROOT, one(), two()));
    let tainted = s.grant(INIT, thread(ROOT, at(c, LEVEL_3), cleared(c, LEVEL_3)));
    s.grant(INIT, resize(ROOT, high, 2));
    s.grant(INIT, resize(ROOT, guarded, 2));
    s.refuse(LABEL_CONDITION, other, read(ROOT, high, 0, 0, 1));
    s.refuse(LABEL_CONDITION, other, resize(ROOT, high, 0));
    s.refuse(LABEL_CONDITION, other, write(ROOT, guarded, 0, 0, &[1]));
    s.grant(other, read(ROOT, guarded, 0, 0, 1));
    s.grant(tainted, write(ROOT, high, 0, 0, &[7]));
    s.refuse(LABEL_CONDITION, tainted, write(ROOT, low, 0, 0, &[]));
    s.refuse(LABEL_CONDITION, tainted, resize(ROOT, low, 1));
    s.grant(tainted, read(ROOT, low, 0, 0, 0));
    s.grant(INIT, read(ROOT, high, 0, 0, 2));
    s.grant(INIT, write(ROOT, guarded, 0, 1, &[9]));
    s.grant(other, read(ROOT, guarded, 0, 0, 2));
    s.end()
}
