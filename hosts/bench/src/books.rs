//! Books of a given number of objects, built by calls of the proved kernel: groups of a container with seven objects
//! in it, three groups in a chain, and what is over in the root.

use crate::asking::{proved, Areas, Given};
use flytewood_model::ask;
use flytewood_model::labels::*;
use flytewood_model::model::{Call, Kind, GRANTED};

pub const ROOT: u64 = 100;
pub const CALLER: u64 = ROOT + 1;
/// The caller owns three categories, issued by its first three calls.
const CATEGORIES: [u64; 3] = [CALLER + 1, CALLER + 2, CALLER + 3];

const GROUP: usize = 8;
const CHAIN: usize = 3;
/// Rows freed again in the making, so that later ids stand in earlier rows.
const FREED: usize = 4;
/// A segment with room for two blocks.
const ROOMY_QUOTA: u64 = 3;

/// How the units are laid out.
#[derive(Clone, Copy, PartialEq, Eq)]
pub enum Units {
    /// Segments with blocks, some linked twice, and room left in every container.
    Roomy,
    /// Every object has the least quota that holds it; what is over stays in the root.
    Tight,
    /// As tight, but the subject segment has one block.
    OneBlock,
}

/// An object to be made, and what became of it.
#[derive(Clone)]
struct Planned {
    kind: Kind,
    parent: Option<usize>,
    second: Option<usize>,
    quota: u64,
    length: u64,
    id: u64,
}

/// A book, and entries in it that the calls are asked about.
#[derive(Clone)]
pub struct Made {
    pub areas: Areas,
    pub objects: usize,
    /// A container in the middle of the book, and objects in it; the last is a segment with its quota fixed.
    pub container: u64,
    pub thread: u64,
    pub gate: u64,
    pub segment: u64,
    pub fixed: u64,
    /// The container in the root under which that one is.
    pub top: u64,
}

pub fn plain() -> Label {
    Label::plain(LEVEL_1)
}

/// Label {1}, clearance {2}, as RULES 7.3 gives them to the first thread.
pub fn plain_clearance() -> Label {
    Label::plain(LEVEL_2)
}

/// Labels without star of no pair up to three, all of which the caller may write.
pub fn some_label(i: usize) -> Label {
    let [a, b, c] = CATEGORIES;
    let pairs = [(a, LEVEL_3), (b, LEVEL_0), (c, LEVEL_3)];
    Label::of(LEVEL_1, &pairs[..i % 4])
}

/// A thread's or gate's: its first category is owned.
pub fn some_owners_label(i: usize) -> Label {
    let [a, b, c] = CATEGORIES;
    let pairs = [(a, STAR), (b, LEVEL_0), (c, LEVEL_2)];
    Label::of(LEVEL_1, &pairs[..1 + i % 3])
}

pub fn some_clearance(i: usize) -> Label {
    let [a, b, c] = CATEGORIES;
    let pairs = [(a, LEVEL_3), (b, LEVEL_3), (c, LEVEL_3)];
    Label::of(LEVEL_2, &pairs[..1 + i % 3])
}

/// The caller's own, once it has its categories.
pub fn callers_label() -> Label {
    Label::of(LEVEL_1, &CATEGORIES.map(|c| (c, STAR)))
}

pub fn callers_clearance() -> Label {
    Label::of(LEVEL_2, &CATEGORIES.map(|c| (c, LEVEL_3)))
}

fn granted(areas: &mut Areas, call: &Call) -> u64 {
    let mut given = Given::nothing();
    proved(areas, CALLER, call, &mut given);
    assert_eq!(given.reply.answer, GRANTED, "building: {:?}", call);
    given.reply.value
}

/// Just after Start.
pub fn started() -> Areas {
    let mut areas = Areas::new();
    let mut kernel = flytewood_kernel::Kernel::over(&mut areas.book, &mut areas.area);
    assert_eq!(kernel.start(ROOT), GRANTED);
    areas
}

/// Start and a few granted calls; gives the value of each.
pub fn started_with(calls: &[Call]) -> (Areas, Vec<u64>) {
    let mut areas = started();
    let values = calls.iter().map(|call| granted(&mut areas, call)).collect();
    (areas, values)
}

/// As many containers as can be, each in the one before: the root holds the thread too, so the first has 254 units.
pub const LONGEST_CHAIN: u64 = 254;

/// So many containers, each in the one before; and the first of them.
pub fn chain(length: u64) -> (Areas, u64) {
    let mut areas = started();
    let (mut d, mut first) = (ROOT, ROOT);
    for quota in (1..=length).rev() {
        let made = granted(&mut areas, &ask::container(d, plain(), 0, quota));
        first = if d == ROOT { made } else { first };
        d = made;
    }
    (areas, first)
}

fn kind_in_group(place: usize) -> Kind {
    match place {
        0 => Kind::Container,
        1 | 5 => Kind::Thread,
        2 | 7 => Kind::Gate,
        _ => Kind::Segment,
    }
}

/// The objects beyond the root and the caller, in the order in which they are made.
fn plan(count: usize, units: Units) -> Vec<Planned> {
    let groups = count / GROUP;
    let mut planned: Vec<Planned> = Vec::new();
    for i in 0..count {
        let (group, place) = (i / GROUP, i % GROUP);
        let in_root = group == groups || (place == 0 && group % CHAIN == 0);
        let parent = match (in_root, place) {
            (true, _) => None,
            (false, 0) => Some((group - 1) * GROUP),
            (false, _) => Some(group * GROUP),
        };
        let kind = if group == groups { kind_in_group(1 + place) } else { kind_in_group(place) };
        planned.push(Planned { kind, parent, second: None, quota: 1, length: 0, id: 0 });
    }
    if units == Units::Roomy {
        give_room(&mut planned, groups);
    }
    if units == Units::OneBlock {
        let subject = subject_group(groups) * GROUP + 3;
        planned[subject].quota = 2;
        planned[subject].length = 64;
    }
    charge(&mut planned, if units == Units::Roomy { 2 } else { 0 });
    planned
}

/// Segments get blocks, and the last of each second group is linked into the group before too.
fn give_room(planned: &mut [Planned], groups: usize) {
    for (i, object) in planned.iter_mut().enumerate() {
        if object.kind == Kind::Segment {
            object.quota = ROOMY_QUOTA;
            object.length = [64, 0, 100][i % 3];
        }
    }
    for group in (1..groups).step_by(2) {
        planned[group * GROUP + 6].second = Some((group - 1) * GROUP);
    }
}

/// A container's quota is what it holds, and some room more. What is in it was planned after it.
fn charge(planned: &mut [Planned], room: u64) {
    for i in (0..planned.len()).rev() {
        if planned[i].kind == Kind::Container {
            let inside = |object: &&Planned| object.parent == Some(i) || object.second == Some(i);
            let held: u64 = planned.iter().filter(inside).map(|object| object.quota).sum();
            planned[i].quota = 1 + held + room;
        }
    }
}

fn subject_group(groups: usize) -> usize {
    groups / 2
}

/// A book of so many objects.
pub fn made(objects: usize, units: Units) -> Made {
    let mut planned = plan(objects - 2, units);
    let groups = planned.len() / GROUP;
    let (mut areas, _) = started_with(&[ask::category(), ask::category(), ask::category()]);
    let freed: Vec<u64> = (0..FREED).map(|_| granted(&mut areas, &ask::segment(ROOT, plain(), 1))).collect();
    for i in 0..planned.len() {
        if i == planned.len() / 3 {
            for o in &freed {
                granted(&mut areas, &ask::unreference(ROOT, *o));
            }
        }
        make(&mut areas, &mut planned, i);
    }
    for object in &planned {
        link_again(&mut areas, &planned, object);
    }
    let subject = subject_group(groups) * GROUP;
    let id = |place: usize| planned[subject + place].id;
    fix(&mut areas, id(0), id(4));
    let top = subject_group(groups) / CHAIN * CHAIN * GROUP;
    Made {
        areas,
        objects,
        container: id(0),
        thread: id(1),
        gate: id(2),
        segment: id(3),
        fixed: id(4),
        top: planned[top].id,
    }
}

fn make(areas: &mut Areas, planned: &mut [Planned], i: usize) {
    let d = planned[i].parent.map_or(ROOT, |parent| planned[parent].id);
    let quota = planned[i].quota;
    let call = match planned[i].kind {
        Kind::Container => ask::container(d, some_label(i / GROUP), 0, quota),
        Kind::Segment => ask::segment(d, some_label(i), quota),
        Kind::Gate => ask::gate(d, some_owners_label(i), some_clearance(i), i as u64),
        Kind::Thread => ask::thread(d, some_owners_label(i), some_clearance(i)),
    };
    planned[i].id = granted(areas, &call);
    if planned[i].length > 0 {
        granted(areas, &ask::resize(d, planned[i].id, planned[i].length));
    }
}

fn fix(areas: &mut Areas, d: u64, o: u64) {
    granted(areas, &ask::fix(d, o));
}

fn link_again(areas: &mut Areas, planned: &[Planned], object: &Planned) {
    if let (Some(parent), Some(second)) = (object.parent, object.second) {
        let (d1, d) = (planned[parent].id, planned[second].id);
        fix(areas, d1, object.id);
        granted(areas, &ask::link(d1, object.id, d));
    }
}
