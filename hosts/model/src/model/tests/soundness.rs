//! What the check of soundness finds, and what it leaves free.

use crate::ask::*;
use crate::history::Script;
use crate::labels::*;
use crate::model::*;

const ROOT: u64 = 5;
const INIT: u64 = 6;
const BOX: u64 = 7;
const SEGMENT: u64 = 8;
const GATE: u64 = 9;

/// A root with its thread, a container, in it a segment, and a gate.
fn world() -> World {
    let mut s = Script::new("sound", ROOT);
    s.grant(INIT, container(ROOT, Label::plain(LEVEL_1), 2, 20));
    s.grant(INIT, segment(BOX, Label::plain(LEVEL_1), 5));
    s.grant(INIT, gate(ROOT, Label::plain(LEVEL_1), Label::plain(LEVEL_2), 1));
    s.world
}

fn changed(change: impl Fn(&mut World)) -> World {
    let mut world = world();
    assert!(world.sound());
    change(&mut world);
    world
}

fn unsound(change: impl Fn(&mut World)) {
    assert!(!changed(change).sound());
}

fn object(world: &mut World, id: u64) -> &mut Object {
    world.objects.get_mut(&id).unwrap()
}

#[test]
fn ids_lie_below_the_next_number_and_it_ends() {
    unsound(|w| w.next = GATE);
    unsound(|w| w.next = PAST_THE_END + 1);
    assert!(changed(|w| w.next = PAST_THE_END).sound());
}

#[test]
fn labels_are_well_formed_against_the_next_number() {
    unsound(|w| object(w, BOX).label = Label::of(LEVEL_1, &[(10, LEVEL_2)]));
    unsound(|w| object(w, BOX).label = Label::of(LEVEL_1, &[(3, STAR)]));
    unsound(|w| object(w, INIT).label = Label::plain(STAR));
    assert!(changed(|w| object(w, INIT).label = Label::of(LEVEL_1, &[(9, STAR)])).sound());
}

#[test]
fn thread_and_gate_labels_flow_to_their_clearances() {
    unsound(|w| object(w, INIT).label = Label::plain(LEVEL_3));
    unsound(|w| object(w, GATE).label = Label::plain(LEVEL_3));
}

#[test]
fn quotas_lie_in_their_ranges_and_cover_the_use() {
    unsound(|w| object(w, ROOT).quota = 255);
    unsound(|w| object(w, GATE).quota = 2);
    unsound(|w| object(w, SEGMENT).quota = 0);
    unsound(|w| object(w, BOX).quota = 5);
    unsound(|w| object(w, SEGMENT).quota = 20);
    unsound(|w| object(w, SEGMENT).body = Body::Segment { bytes: vec![0; 257], fixed: false });
}

fn without_link(d: u64, o: u64) {
    unsound(|w| w.links.retain(|link| *link != (d, o)));
}

fn with_link(d: u64, o: u64) {
    unsound(|w| w.links.extend([(d, o)]));
}

#[test]
fn every_object_but_the_root_has_a_link_and_only_a_fixed_segment_has_more() {
    without_link(ROOT, GATE);
    without_link(ROOT, BOX);
    with_link(ROOT, SEGMENT);
    with_link(BOX, GATE);
    with_link(BOX, ROOT);
    with_link(BOX, BOX);
    with_link(GATE, SEGMENT);
    unsound(|w| w.objects.retain(|id, _| *id != GATE));
    let fixed = changed(|w| {
        object(w, SEGMENT).body = Body::Segment { bytes: Vec::new(), fixed: true };
        w.links.insert((ROOT, SEGMENT));
    });
    assert!(fixed.sound());
}

#[test]
fn a_childs_mask_includes_its_parents() {
    unsound(|w| object(w, ROOT).body = Body::Container { mask: 4 });
    unsound(|w| object(w, BOX).body = Body::Container { mask: 16 });
    assert!(changed(|w| object(w, ROOT).body = Body::Container { mask: 2 }).sound());
}

#[test]
fn the_roots_label_mask_and_description_are_free() {
    let free = changed(|w| {
        object(w, ROOT).label = Label::of(LEVEL_3, &[(3, LEVEL_0)]);
        object(w, ROOT).description = vec![9; 32];
    });
    assert!(free.sound());
}
