//! Mistakes that are easily made: RULES 10.3.

use crate::ask::*;
use crate::history::Script;
use crate::labels::*;
use crate::model::*;

fn one() -> Label {
    Label::plain(LEVEL_1)
}

/// RULES 10.3: "(a) to answer 7 where a container may not be read and 5 where there is none, which tells that
/// it exists;"
#[test]
fn an_unreadable_container_answers_as_an_absent_one() {
    let mut s = Script::new("existence", 5);
    let secret = s.grant(6, category());
    let tainted = Label::of(LEVEL_1, &[(secret, LEVEL_3)]);
    let d = s.grant(6, container(5, tainted, 0, 30));
    let o = s.grant(6, segment(d, tainted, 0));
    let other = s.grant(6, thread(5, one(), Label::plain(LEVEL_2)));
    for d in [d, 999].iter() {
        s.refuse(NO_ENTRY, other, segment(*d, one(), 0));
        s.refuse(NO_ENTRY, other, unreference(*d, o));
        s.refuse(NO_ENTRY, other, link(*d, o, 5));
        s.refuse(NO_ENTRY, other, link(5, other, *d));
        s.refuse(NO_ENTRY, other, read(*d, o, 0, 0, 0));
        s.refuse(NO_ENTRY, other, look(*d, *d));
    }
}

/// RULES 10.3: "(b) to compare labels only at the categories that they name;"
#[test]
fn the_defaults_are_compared() {
    let mut s = Script::new("defaults", 5);
    s.refuse(LABEL_CONDITION, 6, set_label(Label::plain(LEVEL_3)));
    s.refuse(LABEL_CONDITION, 6, segment(5, Label::of(LEVEL_0, &[(3, LEVEL_1)]), 0));
    s.grant(6, segment(5, Label::of(LEVEL_2, &[(3, LEVEL_1)]), 0));
}

/// RULES 10.3: "(c) to give the number of a refused call to the next one;"
#[test]
fn a_refused_call_takes_its_number() {
    let mut s = Script::new("numbers", 5);
    s.refuse(NO_ENTRY, 6, segment(999, one(), 0));
    assert_eq!(s.grant(6, segment(5, one(), 0)), 8);
}

/// RULES 10.3: "(d) to set a block to zero when it is freed, and rely on that when it is taken again;" New
/// bytes are zero whatever happened.
#[test]
fn new_bytes_are_zero() {
    let mut s = Script::new("zeros", 5);
    let o = s.grant(6, segment(5, one(), 0));
    s.grant(6, resize(5, o, 64));
    s.grant(6, write(5, o, 0, 0, &[7; 64]));
    s.grant(6, resize(5, o, 10));
    s.grant(6, resize(5, o, 64));
    assert_eq!(s.output(6, read(5, o, 0, 8, 4)), vec![7, 7, 0, 0]);
    s.grant(6, unreference(5, o));
    let new = s.grant(6, segment(5, one(), 0));
    s.grant(6, resize(5, new, 64));
    assert_eq!(s.output(6, read(5, new, 0, 0, 64)), vec![0; 64]);
}

/// RULES 10.3: "(e) to charge a segment that is linked twice only once.": it is charged in both containers,
/// also where one lies in the other.
#[test]
fn a_second_link_is_charged_again() {
    let mut s = Script::new("charges", 5);
    let a = s.grant(6, container(5, one(), 0, 10));
    let o = s.grant(6, segment(a, one(), 6));
    s.grant(6, fix(a, o));
    assert_eq!((s.world.spare(a), s.world.spare(5)), (3, 244));
    s.grant(6, link(a, o, 5));
    assert_eq!((s.world.spare(a), s.world.spare(5)), (3, 238));
    let b = s.grant(6, container(a, one(), 0, 3));
    s.refuse(NOT_ENOUGH_SPARE, 6, link(a, o, b));
    s.grant(6, unreference(a, o));
    assert_eq!((s.world.spare(a), s.world.spare(5)), (6, 238));
}
