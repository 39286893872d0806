//! Quota 0 in a create. RULES 3.7: ".. 0 stands for a default: 8 for a container, 5 for a segment." Before W7
//! it was 16 for a container.

use crate::ask::*;
use crate::history::Script;
use crate::labels::*;
use crate::ledger::Ledger;
use crate::model::*;

fn one() -> Label {
    Label::plain(LEVEL_1)
}

fn two() -> Label {
    Label::plain(LEVEL_2)
}

/// A create of each kind, all of one unit.
fn of_one_unit(d: u64) -> Vec<Call> {
    vec![thread(d, one(), two()), gate(d, one(), two(), 1), segment(d, one(), 1), container(d, one(), 0, 1)]
}

/// So many creates of one unit fit into the container, and then none of any kind.
fn takes_exactly(s: &mut Script, d: u64, units: usize) {
    for call in of_one_unit(d).into_iter().cycle().take(units) {
        s.grant(6, call);
    }
    assert_eq!(s.world.spare(d), 0);
    for call in of_one_unit(d) {
        s.refuse(NOT_ENOUGH_SPARE, 6, call);
    }
}

fn quota_and_spare(s: &Script, id: u64) -> (u64, u64) {
    (s.world.objects[&id].quota, s.world.spare(id))
}

#[test]
fn a_container_made_with_0_has_8_units_and_7_to_spare() {
    let mut s = Script::new("8 units", 5);
    let d = s.grant(6, container(5, one(), 0, 0));
    assert_eq!(quota_and_spare(&s, d), (8, 7));
    assert_eq!(s.world.spare(5), 246);
    takes_exactly(&mut s, d, 7);
}

#[test]
fn a_container_made_with_0_is_one_made_with_8() {
    let mut by_default = Script::new("by default", 5);
    let mut asked = Script::new("asked for", 5);
    by_default.grant(6, container(5, one(), 9, 0));
    asked.grant(6, container(5, one(), 9, 8));
    assert_eq!(by_default.world, asked.world);
}

#[test]
fn a_container_of_quota_0_fits_into_a_spare_of_8_and_not_of_7() {
    let mut s = Script::new("8 and not 7", 5);
    let d = s.grant(6, container(5, one(), 0, 8));
    assert_eq!(s.world.spare(d), 7);
    s.refuse(NOT_ENOUGH_SPARE, 6, container(d, one(), 0, 0));
    s.grant(6, move_quota(5, d, 1));
    assert_eq!(s.world.spare(d), 8);
    let inner = s.grant(6, container(d, one(), 0, 0));
    assert_eq!(quota_and_spare(&s, inner), (8, 7));
    assert_eq!(s.world.spare(d), 0);
}

#[test]
fn a_container_of_quota_0_fits_into_the_roots_last_8_units_and_not_into_7() {
    let mut s = Script::new("the root", 5);
    let o = s.grant(6, segment(5, one(), 247));
    assert_eq!(s.world.spare(5), 7);
    s.refuse(NOT_ENOUGH_SPARE, 6, container(5, one(), 0, 0));
    s.grant(6, move_quota(5, o, -1));
    assert_eq!(s.world.spare(5), 8);
    s.grant(6, container(5, one(), 0, 0));
    assert_eq!(s.world.spare(5), 0);
}

#[test]
fn a_container_made_with_16_has_16_units() {
    let mut s = Script::new("16 units", 5);
    let d = s.grant(6, container(5, one(), 0, CONTAINER_QUOTA_BEFORE_W7));
    assert_eq!(quota_and_spare(&s, d), (16, 15));
    assert_eq!(s.world.spare(5), 238);
    takes_exactly(&mut s, d, 15);
}

/// A world in which a container was made with 0 before W7: it has 16 units, as if they had been asked for.
fn from_before() -> (Script, u64) {
    let mut s = Script::new("from before", 5);
    let d = s.grant(6, container(5, one(), 0, 0));
    s.world.objects.get_mut(&d).unwrap().quota = 16;
    let mut asked = Script::new("asked for", 5);
    asked.grant(6, container(5, one(), 0, CONTAINER_QUOTA_BEFORE_W7));
    assert_eq!(s.world, asked.world);
    (s, d)
}

#[test]
fn a_container_from_before_keeps_its_16_units() {
    let (mut s, d) = from_before();
    assert!(s.world.sound());
    assert_eq!(quota_and_spare(&s, d), (16, 15));
    takes_exactly(&mut s, d, 15);
    assert_eq!(quota_and_spare(&s, d), (16, 0));
}

#[test]
fn calls_on_a_container_from_before_go_on() {
    let (mut s, d) = from_before();
    s.refuse(NOT_ENOUGH_SPARE, 6, container(d, one(), 0, CONTAINER_QUOTA_BEFORE_W7));
    let inner = s.grant(6, container(d, one(), 0, 0)); // 8 of 15
    assert_eq!((quota_and_spare(&s, inner), quota_and_spare(&s, d)), ((8, 7), (16, 7)));
    s.refuse(NOT_ENOUGH_SPARE, 6, container(d, one(), 0, 0));
    s.grant(6, segment(d, one(), 0)); // 5 of 7
    s.refuse(NOT_ENOUGH_SPARE, 6, segment(d, one(), 3));
    s.grant(6, segment(d, one(), 2));
    assert_eq!(quota_and_spare(&s, d), (16, 0));
    s.refuse(NOT_ENOUGH_SPARE, 6, move_quota(5, d, -1));
    s.grant(6, unreference(d, inner));
    assert_eq!(quota_and_spare(&s, d), (16, 8));
    s.refuse(NOT_ENOUGH_SPARE, 6, move_quota(5, d, -9));
    s.grant(6, move_quota(5, d, -8));
    assert_eq!(quota_and_spare(&s, d), (8, 0));
    assert_eq!(s.world.spare(5), 246);
    s.grant(6, unreference(5, d));
    assert_eq!(s.world.spare(5), 254);
}

#[test]
fn a_segment_made_with_0_has_5_units_as_before() {
    let mut s = Script::new("5 units", 5);
    let d = s.grant(6, container(5, one(), 0, 5));
    assert_eq!(s.world.spare(d), 4);
    s.refuse(NOT_ENOUGH_SPARE, 6, segment(d, one(), 0));
    s.grant(6, move_quota(5, d, 1));
    let o = s.grant(6, segment(d, one(), 0));
    assert_eq!(quota_and_spare(&s, o), (5, 4));
    assert_eq!(s.world.spare(d), 0);
    s.grant(6, resize(d, o, 256));
    s.refuse(NOT_ENOUGH_SPARE, 6, resize(d, o, 257));
}

#[test]
fn the_ledger_takes_0_for_8_and_5() {
    let mut s = Script::new("ledger", 5);
    let mut ledger = Ledger::start(5);
    for call in [container(5, one(), 0, 0), segment(5, one(), 0)] {
        let outcome = s.take(6, call.clone());
        ledger.note(&call, &outcome, &s.world);
    }
    assert_eq!((ledger.spare(7), ledger.spare(5)), (7, 241));
}
