//! Readings on effects (docs/DECISIONS.md), and what demand 3 (docs/DEMANDS.md) says over histories.

use crate::ask::*;
use crate::history::Script;
use crate::labels::*;
use crate::model::*;

fn one() -> Label {
    Label::plain(LEVEL_1)
}

fn two() -> Label {
    Label::plain(LEVEL_2)
}

#[test]
fn call_8_may_free_the_caller_itself() {
    let mut s = Script::new("caller", 5);
    s.grant(6, unreference(5, 6));
    s.refuse(NO_LIVE_THREAD, 6, category());
}

#[test]
fn call_8_may_free_the_container_that_the_caller_lives_in() {
    let mut s = Script::new("home", 5);
    let home = s.grant(6, container(5, one(), 0, 0));
    let inner = s.grant(6, container(home, one(), 0, 4));
    let other = s.grant(6, thread(inner, one(), two()));
    s.grant(other, unreference(5, home));
    s.refuse(NO_LIVE_THREAD, other, category());
    assert_eq!(s.world.objects.keys().copied().collect::<Vec<u64>>(), vec![5, 6]);
    assert_eq!(s.world.spare(5), 254);
}

#[test]
fn one_of_several_links_goes_and_the_segment_stays() {
    let mut s = Script::new("links", 5);
    let d = s.grant(6, container(5, one(), 0, 0));
    let o = s.grant(6, segment(d, one(), 0));
    s.grant(6, resize(d, o, 3));
    s.grant(6, write(d, o, 0, 0, &[1, 2, 3]));
    s.grant(6, fix(d, o));
    s.grant(6, link(d, o, 5));
    s.grant(6, unreference(5, d));
    assert_eq!(s.output(6, read(5, o, 0, 0, 3)), vec![1, 2, 3]);
    s.grant(6, unreference(5, o));
    s.refuse(NO_ENTRY, 6, read(5, o, 0, 0, 3));
}

#[test]
fn a_segment_linked_twice_in_one_tree_is_freed_with_it() {
    let mut s = Script::new("tree", 5);
    let d = s.grant(6, container(5, one(), 0, 30));
    let inner = s.grant(6, container(d, one(), 0, 10));
    let o = s.grant(6, segment(inner, one(), 0));
    s.grant(6, fix(inner, o));
    s.grant(6, link(inner, o, d));
    s.grant(6, unreference(5, d));
    assert!(!s.world.objects.contains_key(&o));
    assert_eq!(s.world.links.len(), 1);
}

#[test]
fn bytes_cut_off_come_back_as_zeros_also_in_a_block_that_stayed() {
    let mut s = Script::new("zeros", 5);
    let o = s.grant(6, segment(5, one(), 0));
    s.grant(6, resize(5, o, 130));
    s.grant(6, write(5, o, 0, 60, &[9; 4]));
    s.grant(6, write(5, o, 1, 0, &[8; 64]));
    s.grant(6, write(5, o, 2, 0, &[7, 7]));
    s.grant(6, resize(5, o, 66));
    s.grant(6, resize(5, o, 130));
    assert_eq!(s.output(6, read(5, o, 0, 59, 5)), vec![0, 9, 9, 9, 9]);
    assert_eq!(s.output(6, read(5, o, 1, 0, 4)), vec![8, 8, 0, 0]);
    assert_eq!(s.output(6, read(5, o, 2, 0, 2)), vec![0, 0]);
}

#[test]
fn the_defaults_of_a_create_are_5_and_8() {
    let mut s = Script::new("defaults", 5);
    let o = s.grant(6, segment(5, one(), 0));
    let d = s.grant(6, container(5, one(), 0, 0));
    assert_eq!((s.world.objects[&o].quota, s.world.objects[&d].quota), (5, 8));
}

#[test]
fn a_create_asks_that_the_label_flow_to_the_clearance_and_it_to_the_callers() {
    let mut s = Script::new("creates", 5);
    s.refuse(LABEL_CONDITION, 6, thread(5, Label::plain(LEVEL_0), two()));
    s.refuse(LABEL_CONDITION, 6, thread(5, two(), one()));
    s.refuse(LABEL_CONDITION, 6, thread(5, one(), Label::plain(LEVEL_3)));
    s.refuse(LABEL_CONDITION, 6, gate(5, one(), Label::plain(LEVEL_3), 0));
    s.refuse(LABEL_CONDITION, 6, segment(5, Label::plain(LEVEL_3), 0));
    s.grant(6, thread(5, two(), two()));
    s.grant(6, set_label(two()));
    s.refuse(LABEL_CONDITION, 6, segment(5, two(), 0));
}

#[test]
fn a_new_object_has_the_calls_own_number_and_what_was_lent() {
    let mut s = Script::new("new objects", 5);
    let description: Vec<u8> = (100..132).collect();
    let call = Call::CreateContainer {
        d: 5,
        label: two().to_bytes(),
        description: description.clone(),
        mask: 9,
        quota: 7,
    };
    assert_eq!(s.grant(6, call), 7);
    let made = Object { label: two(), description, quota: 7, body: Body::Container { mask: 9 } };
    assert_eq!(s.world.objects[&7], made);
    assert_eq!(s.world.holders_of(7), vec![5]);
}

#[test]
fn call_1_gives_star_and_clearance_3_at_its_own_number() {
    let mut s = Script::new("category", 5);
    assert_eq!(s.grant(6, category()), 7);
    assert_eq!(s.world.objects[&6].label, Label::of(LEVEL_1, &[(7, STAR)]));
    assert_eq!(s.world.objects[&6].clearance(), Some(Label::of(LEVEL_2, &[(7, LEVEL_3)])));
}

#[test]
fn a_clearance_rises_as_far_as_the_callers_stars() {
    let mut s = Script::new("clearance", 5);
    let c = s.grant(6, category());
    s.grant(6, set_clearance(Label::of(LEVEL_2, &[(c, LEVEL_0)])));
    s.grant(6, set_clearance(Label::of(LEVEL_2, &[(c, LEVEL_3)])));
    s.refuse(LABEL_CONDITION, 6, set_clearance(Label::of(LEVEL_2, &[(3, LEVEL_3)])));
    s.refuse(LABEL_CONDITION, 6, set_clearance(Label::plain(LEVEL_0)));
}
