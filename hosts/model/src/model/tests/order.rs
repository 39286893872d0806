//! Readings on the order of check (docs/DECISIONS.md), from answer 5 on.

use crate::ask::*;
use crate::history::Script;
use crate::labels::*;
use crate::model::*;

fn one() -> Label {
    Label::plain(LEVEL_1)
}

fn two() -> Label {
    Label::plain(LEVEL_2)
}

/// Categories `first` to `first + 7`, all at one level.
fn eight(first: u64, code: u8) -> Label {
    let pairs: Vec<(u64, u8)> = (first..first + 8).map(|c| (c, code)).collect();
    Label::of(LEVEL_1, &pairs)
}

#[test]
fn the_caller_comes_before_the_arguments_and_they_before_the_entry() {
    let mut s = Script::new("order", 5);
    s.refuse(NO_LIVE_THREAD, 999, container(999, one(), 16, 256));
    s.refuse(MALFORMED, 6, container(999, one(), 16, 256));
    s.refuse(NO_ENTRY, 6, container(999, one(), 15, 255));
}

#[test]
fn five_comes_before_6_and_7_whatever_the_object_is() {
    let mut s = Script::new("5 first", 5);
    let d = s.grant(6, container(5, one(), 0, 0));
    s.grant(6, set_label(two()));
    s.refuse(NO_ENTRY, 6, read(d, 6, 0, 0, 0));
    s.refuse(WRONG_KIND, 6, read(5, 6, 0, 0, 0));
    s.refuse(WRONG_KIND, 6, fix(5, d));
    s.refuse(LABEL_CONDITION, 6, unreference(5, d));
}

#[test]
fn the_pair_of_a_container_with_itself_is_an_entry_only_for_call_16() {
    let mut s = Script::new("(D, D)", 5);
    s.refuse(NO_ENTRY, 6, unreference(5, 5));
    s.refuse(NO_ENTRY, 6, move_quota(5, 5, 1));
    s.refuse(NO_ENTRY, 6, read(5, 5, 0, 0, 0));
    s.refuse(NO_ENTRY, 6, fix(5, 5));
    s.refuse(NO_ENTRY, 6, enter(5, 5, one(), two(), one()));
    s.grant(6, look(5, 5));
    s.refuse(NO_ENTRY, 6, look(6, 6));
}

#[test]
fn call_9_judges_both_containers_by_5_and_9_before_10() {
    let mut s = Script::new("call 9", 5);
    let d = s.grant(6, container(5, one(), 0, 6));
    let o = s.grant(6, segment(5, one(), 5));
    s.refuse(NO_ENTRY, 6, link(999, o, d));
    s.refuse(NO_ENTRY, 6, link(d, o, d));
    s.refuse(NO_ENTRY, 6, link(5, o, 999));
    s.refuse(NO_ENTRY, 6, link(5, o, o));
    s.refuse(WRONG_KIND, 6, link(5, 6, d));
    s.refuse(FIXED_OR_NOT, 6, link(5, o, 5));
    s.grant(6, fix(5, o));
    s.refuse(ALREADY_LINKED, 6, link(5, o, 5));
    s.grant(6, link(5, o, d));
    s.refuse(ALREADY_LINKED, 6, link(5, o, d));
    assert_eq!(s.world.spare(d), 0);
}

#[test]
fn the_mask_is_judged_at_creation_and_at_a_link() {
    let mut s = Script::new("mask", 5);
    let d = s.grant(6, container(5, one(), 4, 20));
    let o = s.grant(6, segment(5, one(), 5));
    s.refuse(MASK_FORBIDS, 6, segment(d, one(), 5));
    s.grant(6, fix(5, o));
    s.refuse(MASK_FORBIDS, 6, link(5, o, d));
    let inner = s.grant(6, container(d, one(), 1, 5));
    assert_eq!(s.world.objects[&inner].mask(), 5);
    s.refuse(MASK_FORBIDS, 6, segment(inner, one(), 255));
    s.refuse(MASK_FORBIDS, 6, link(5, o, inner));
}

/// READINGS-02, W2: "8 stands between 7 and 9 at call 9".
#[test]
fn call_9_asks_the_destinations_mask_after_7_and_before_9() {
    let mut s = Script::new("8 at call 9", 5);
    let secret = s.grant(6, category());
    let tainted = Label::of(LEVEL_1, &[(secret, LEVEL_3)]);
    let masked = s.grant(6, container(5, one(), 4, 3));
    let hidden = s.grant(6, container(5, tainted, 4, 9));
    let o = s.grant(6, segment(5, one(), 4));
    let high = s.grant(6, segment(5, tainted, 1));
    let other = s.grant(6, thread(5, one(), two()));
    let raised = s.grant(6, thread(5, two(), two()));
    s.refuse(NO_LIVE_THREAD, o, link(5, o, masked));
    s.refuse(NO_ENTRY, 6, link(999, o, masked));
    s.refuse(NO_ENTRY, 6, link(masked, o, masked));
    s.refuse(NO_ENTRY, other, link(5, o, hidden));
    s.refuse(WRONG_KIND, raised, link(5, raised, masked));
    s.refuse(WRONG_KIND, 6, link(5, masked, masked));
    s.refuse(LABEL_CONDITION, raised, link(5, o, masked));
    s.refuse(LABEL_CONDITION, other, link(5, high, masked));
    let before = s.world.next;
    s.refuse(MASK_FORBIDS, 6, link(5, o, masked)); // unfixed, and too large
    assert_eq!(s.world.next, before + 1);
    s.refuse(MASK_FORBIDS, 6, link(5, o, hidden));
    s.grant(6, fix(5, o));
    s.refuse(MASK_FORBIDS, other, link(5, o, masked)); // too large
    s.grant(6, move_quota(5, masked, 2));
    s.refuse(MASK_FORBIDS, 6, link(5, o, masked)); // nothing else against it
    let others_forbidden = s.grant(6, container(5, one(), 11, 5));
    s.grant(6, link(5, o, others_forbidden));
}

/// W2: "Links already there stay, and a book holding them is still sound." READINGS-02: "only the
/// destination's mask counts, not that of the container it comes from."
#[test]
fn a_segment_from_before_stays_in_a_container_that_forbids_segments() {
    let mut s = Script::new("a link from before", 5);
    let masked = s.grant(6, container(5, one(), 4, 20));
    let d = s.grant(6, container(5, one(), 0, 20));
    let o = s.grant(6, segment(5, one(), 3));
    let unfixed = s.grant(6, segment(5, one(), 2));
    s.grant(6, fix(5, o));
    s.world.links.insert((masked, o));
    s.world.links.remove(&(5, unfixed));
    s.world.links.insert((masked, unfixed));
    assert!(s.world.sound());
    assert_eq!(s.world.spare(masked), 14);
    s.refuse(MASK_FORBIDS, 6, link(5, o, masked)); // already there
    s.refuse(MASK_FORBIDS, 6, link(masked, o, masked)); // already there
    s.refuse(MASK_FORBIDS, 6, link(masked, unfixed, masked)); // already there, and unfixed
    s.refuse(FIXED_OR_NOT, 6, link(masked, unfixed, d));
    s.refuse(ALREADY_LINKED, 6, link(masked, o, 5));
    s.grant(6, link(masked, o, d));
    s.refuse(ALREADY_LINKED, 6, link(masked, o, d));
    s.grant(6, resize(masked, o, 2));
    s.grant(6, write(masked, o, 0, 0, &[7, 8]));
    assert_eq!(s.output(6, read(masked, o, 0, 0, 2)), [7, 8]);
    s.refuse(FIXED_OR_NOT, 6, move_quota(masked, o, 1));
    s.grant(6, move_quota(masked, unfixed, 1));
    s.grant(6, fix(masked, unfixed));
    s.refuse(NOT_ENOUGH_SPARE, 6, container(masked, one(), 0, 14)); // both still charged
    s.refuse(MASK_FORBIDS, 6, segment(masked, one(), 1));
    s.grant(6, unreference(5, o));
    s.grant(6, unreference(d, o));
    s.grant(6, link(masked, o, 5));
    s.grant(6, unreference(masked, o));
    s.refuse(MASK_FORBIDS, 6, link(5, o, masked)); // it does not come back
}

#[test]
fn the_roots_mask_counts_at_call_9_too() {
    let mut s = Script::new("the root's mask", 5);
    let o = s.grant(6, segment(5, one(), 3));
    s.world.objects.get_mut(&5).unwrap().body = Body::Container { mask: 4 };
    let d = s.grant(6, container(5, one(), 0, 9));
    s.refuse(MASK_FORBIDS, 6, link(5, o, 5));
    s.grant(6, fix(5, o));
    s.refuse(MASK_FORBIDS, 6, link(5, o, 5));
    s.refuse(MASK_FORBIDS, 6, link(5, o, d));
}

#[test]
fn call_11_with_0_is_judged_like_a_positive_one_and_needs_no_room() {
    let mut s = Script::new("call 11", 5);
    let d = s.grant(6, container(5, one(), 0, 6));
    let o = s.grant(6, segment(d, one(), 5));
    assert_eq!(s.world.spare(d), 0);
    let before = s.world.objects.clone();
    s.grant(6, move_quota(d, o, 0));
    assert_eq!(s.world.objects, before);
    s.refuse(NOT_ENOUGH_SPARE, 6, move_quota(d, o, 1));
    s.grant(6, fix(d, o));
    s.refuse(FIXED_OR_NOT, 6, move_quota(d, o, 0));
    s.refuse(WRONG_KIND, 6, move_quota(5, 6, 0));
}

#[test]
fn only_a_move_back_asks_that_the_object_be_readable() {
    let mut s = Script::new("move back", 5);
    let secret = s.grant(6, category());
    let d = s.grant(6, container(5, Label::of(LEVEL_1, &[(secret, LEVEL_2)]), 0, 6));
    let other = s.grant(6, thread(5, one(), two()));
    s.grant(other, move_quota(5, d, 0));
    s.grant(other, move_quota(5, d, 1));
    s.refuse(LABEL_CONDITION, other, move_quota(5, d, -1));
    s.grant(6, move_quota(5, d, -1));
}

#[test]
fn a_move_back_looks_at_the_objects_own_spare() {
    let mut s = Script::new("own spare", 5);
    let o = s.grant(6, segment(5, one(), 5));
    s.grant(6, resize(5, o, 65));
    s.refuse(NOT_ENOUGH_SPARE, 6, move_quota(5, o, -3));
    s.grant(6, move_quota(5, o, -2));
    assert_eq!(s.world.objects[&o].quota, 3);
    let d = s.grant(6, container(5, one(), 0, 4));
    s.grant(6, segment(d, one(), 2));
    s.refuse(NOT_ENOUGH_SPARE, 6, move_quota(5, d, -2));
    s.grant(6, move_quota(5, d, -1));
}

#[test]
fn the_new_quota_needs_no_limit_of_its_own() {
    let mut s = Script::new("no limit", 5);
    let d = s.grant(6, container(5, one(), 0, 1));
    s.refuse(NOT_ENOUGH_SPARE, 6, move_quota(5, d, 254));
    s.grant(6, move_quota(5, d, 253));
    assert_eq!(s.world.objects[&d].quota, 254);
}

#[test]
fn from_64_with_count_0_is_well_formed_and_11_decides() {
    let mut s = Script::new("from 64", 5);
    let o = s.grant(6, segment(5, one(), 5));
    s.grant(6, read(5, o, 0, 0, 0));
    s.refuse(BEYOND_THE_LENGTH, 6, read(5, o, 0, 1, 0));
    s.refuse(BEYOND_THE_LENGTH, 6, read(5, o, 0, 64, 0));
    s.refuse(BEYOND_THE_LENGTH, 6, write(5, o, 0, 64, &[]));
    s.grant(6, resize(5, o, 64));
    s.grant(6, read(5, o, 0, 64, 0));
    s.grant(6, write(5, o, 0, 64, &[]));
    s.grant(6, read(5, o, 1, 0, 0));
    s.refuse(BEYOND_THE_LENGTH, 6, read(5, o, 1, 0, 1));
}

#[test]
fn call_8_has_no_condition_on_the_object() {
    let mut s = Script::new("call 8", 5);
    let secret = s.grant(6, category());
    let o = s.grant(6, segment(5, Label::of(LEVEL_1, &[(secret, LEVEL_3)]), 5));
    let other = s.grant(6, thread(5, one(), two()));
    s.refuse(LABEL_CONDITION, other, read(5, o, 0, 0, 0));
    s.grant(other, unreference(5, o));
    assert!(!s.world.objects.contains_key(&o));
}

#[test]
fn call_16_shows_every_label_but_an_unreadable_threads() {
    let mut s = Script::new("call 16", 5);
    let secret = s.grant(6, category());
    let tainted = Label::of(LEVEL_1, &[(secret, LEVEL_3)]);
    let o = s.grant(6, segment(5, tainted, 5));
    let hidden = s.grant(6, thread(5, tainted, tainted));
    let other = s.grant(6, thread(5, one(), two()));
    let mut shown = vec![0; 32];
    shown.extend_from_slice(&[3, 1, 2, 0, 0, 0, 0, 0]);
    shown.extend_from_slice(&tainted.to_bytes()[1..]);
    assert_eq!(s.output(other, look(5, o)), shown);
    let mut zeros = vec![0; 104];
    zeros[32] = 1;
    assert_eq!(s.output(other, look(5, hidden)), zeros);
    let mut read = shown;
    read[32] = 1;
    assert_eq!(s.output(6, look(5, hidden)), read);
}

#[test]
fn answer_12_is_given_for_a_full_label_or_a_full_clearance() {
    let mut s = Script::new("full label", 20);
    s.grant(21, set_label(eight(1, LEVEL_2)));
    s.refuse(NINTH_PAIR, 21, category());
    let mut s = Script::new("full clearance", 20);
    s.grant(21, set_clearance(Label { default: LEVEL_2, ..eight(1, LEVEL_1) }));
    s.refuse(NINTH_PAIR, 21, category());
}

#[test]
fn a_clearance_default_of_level_3_needs_no_pair() {
    let mut s = Script::new("default 3", 5);
    let clearance = Label { default: LEVEL_3, ..eight(1, LEVEL_2) };
    s.world.next = 20;
    s.world.objects.get_mut(&6).unwrap().body = Body::Thread { clearance };
    s.grant(6, category());
    assert_eq!(s.world.objects[&6].clearance(), Some(clearance));
    assert_eq!(s.world.objects[&6].label, Label::of(LEVEL_1, &[(20, STAR)]));
}

#[test]
fn floor_and_join_are_compared_though_they_name_sixteen_categories() {
    let mut s = Script::new("sixteen", 30);
    let clearance = Label { default: LEVEL_2, ..eight(9, LEVEL_1) };
    let g = s.grant(31, gate(30, eight(1, LEVEL_2), two(), 1));
    s.grant(31, set_label(eight(17, LEVEL_2)));
    s.refuse(LABEL_CONDITION, 31, enter(30, g, eight(1, LEVEL_2), two(), two()));
    s.grant(31, enter(30, g, two(), two(), two()));
    s.grant(31, set_clearance(two()));
    s.refuse(LABEL_CONDITION, 31, set_clearance(clearance));
}

#[test]
fn a_join_of_sixteen_is_not_put_into_eight_words() {
    let mut s = Script::new("join of sixteen", 40);
    for _ in 0..8 {
        s.grant(41, category());
    }
    let lowered = Label { default: LEVEL_2, ..eight(9, LEVEL_1) };
    s.grant(41, set_clearance(lowered));
    s.refuse(LABEL_CONDITION, 41, set_clearance(two()));
    s.grant(41, set_clearance(Label { default: LEVEL_1, ..eight(42, LEVEL_3) }));
}

#[test]
fn call_14_of_a_fixed_segment_is_judged_like_any_other() {
    let mut s = Script::new("call 14", 5);
    let o = s.grant(6, segment(5, one(), 2));
    s.grant(6, fix(5, o));
    s.grant(6, fix(5, o));
    s.grant(6, resize(5, o, 64));
    s.refuse(NOT_ENOUGH_SPARE, 6, resize(5, o, 65));
    s.grant(6, resize(5, o, 1));
}

#[test]
fn a_gate_passes_on_ownership() {
    let mut s = Script::new("gate", 5);
    let c = s.grant(6, category());
    let owner = Label::of(LEVEL_1, &[(c, STAR)]);
    let closure: Vec<u8> = (1..33).collect();
    let g = s.grant(6, gate_with(5, owner, two(), 77, closure.clone()));
    let other = s.grant(6, thread(5, one(), two()));
    let outcome = s.take(other, enter(5, g, owner, two(), one()));
    assert_eq!(outcome, Outcome { answer: GRANTED, value: 77, output: closure });
    assert_eq!(s.world.objects[&other].label, owner);
    assert_eq!(s.world.objects[&other].clearance(), Some(two()));
}
