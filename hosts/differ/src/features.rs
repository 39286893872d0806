//! What the histories must have reached, and how often they did.

use flytewood_model::book::positions::Positions;
use flytewood_model::labels::{Label, STAR, WORDS};
use flytewood_model::model::{
    Body, Call, Kind, Object, Outcome, World, GRANTED, MASK_FORBIDS, NOT_ENOUGH_SPARE, NUMBERS_ENDED,
};
use std::collections::BTreeSet;

/// One call that both sides agreed on.
pub struct Done<'a> {
    pub before: &'a World,
    pub after: &'a World,
    pub was: &'a Positions,
    pub is: &'a Positions,
    pub caller: u64,
    pub call: &'a Call,
    pub outcome: &'a Outcome,
}

type Feature = (&'static str, fn(&Done) -> bool);

pub const FEATURES: [Feature; 31] = [
    ("the root full to its last unit", |done| done.granted() && done.root_spare() == 0),
    ("256 objects", |done| done.after.objects.len() == 256),
    ("255 links", |done| done.after.links.len() == 255),
    ("255 links among fewer than 100 objects", |done| {
        done.after.links.len() == 255 && done.after.objects.len() < 100
    }),
    ("a thread's label of eight pairs", |done| done.made_eight(&[Kind::Thread])),
    ("a gate's label of eight pairs", |done| done.made_eight(&[Kind::Gate])),
    ("a container's or segment's label of eight pairs", |done| {
        done.made_eight(&[Kind::Container, Kind::Segment])
    }),
    ("a clearance of eight pairs", |done| done.changed().any(|object| full(object.clearance()))),
    ("a segment linked a second time", |done| done.links_of_linked() == Some(2)),
    ("a segment linked a tenth time", |done| done.links_of_linked() == Some(10)),
    ("one of several links removed", |done| done.unreferenced().map_or(false, |o| done.is_live(o))),
    ("a gate that passes ownership", |done| done.gained_star()),
    ("a subtree of 3 or more cut", |done| done.cut() >= 3),
    ("a subtree of 100 or more cut", |done| done.cut() >= 100),
    ("a segment that outlives the subtree it was in", |done| done.a_segment_outlives()),
    ("a caller that frees itself", |done| done.granted() && !done.is_live(done.caller)),
    ("the numbers ended", |done| done.outcome.answer == NUMBERS_ENDED),
    ("a segment of 253 blocks", |done| done.changed().any(|object| object.bytes().len() > 252 * 64)),
    ("a segment cut within a block that stays", |done| done.cut_within_a_block()),
    ("a thread's label that is not shown", |done| done.label_not_shown()),
    ("units taken back from a container", |done| done.took_back() == Some(Kind::Container)),
    ("units taken back from a segment", |done| done.took_back() == Some(Kind::Segment)),
    ("a row taken below one in use", |done| taken_below(&done.was.rows, &done.is.rows)),
    ("a link taken below one in use", |done| taken_below(&done.was.links, &done.is.links)),
    ("a block taken below one in use", |done| taken_below(&done.was.blocks, &done.is.blocks)),
    ("a call granted where a segment stands in a container that forbids segments (W2)", |done| {
        done.granted() && done.has_old_link()
    }),
    ("8 for a further link into such a container", |done| {
        done.masked_link().map_or(false, |(d, _)| done.holds_forbidden(d))
    }),
    ("8 for a segment that stands in it already", |done| {
        done.masked_link().map_or(false, |link| done.before.links.contains(&link))
    }),
    ("a link out of such a container", |done| done.linked_from().map_or(false, |d| done.holds_forbidden(d))),
    ("a container of quota 0 (W7) where 8 units are left, and not one more", |done| {
        done.granted() && done.left_for_a_default() == Some(8)
    }),
    ("13 for a container of quota 0 where 7 are left", |done| {
        done.outcome.answer == NOT_ENOUGH_SPARE && done.left_for_a_default() == Some(7)
    }),
];

/// Whether a free place was taken that has one in use above it.
fn taken_below<T>(was: &[Option<T>], is: &[Option<T>]) -> bool {
    let taken = (0..was.len()).find(|i| was[*i].is_none() && is[*i].is_some());
    taken.map_or(false, |place| was[place..].iter().any(|one| one.is_some()))
}

/// Whether the link puts a segment into a container that forbids segments.
fn forbidden(world: &World, (d, o): &(u64, u64)) -> bool {
    world.objects[o].kind() == Kind::Segment && world.objects[d].mask() & Kind::Segment.mask_bit() != 0
}

fn full(label: Option<Label>) -> bool {
    label.map_or(false, |label| label.used_words().len() == WORDS)
}

impl Done<'_> {
    fn granted(&self) -> bool {
        self.outcome.answer == GRANTED
    }

    fn is_live(&self, id: u64) -> bool {
        self.after.objects.contains_key(&id)
    }

    fn root_spare(&self) -> u64 {
        let linked: BTreeSet<u64> = self.after.links.iter().map(|(_, o)| *o).collect();
        let root = self.after.containers().into_iter().find(|id| !linked.contains(id));
        self.after.spare(root.expect("a container that no link leads to"))
    }

    /// The objects that are new, or no more what they were.
    fn changed(&self) -> impl Iterator<Item = &Object> {
        let same = move |id: &u64, object: &Object| self.before.objects.get(id) == Some(object);
        self.after.objects.iter().filter(move |(id, object)| !same(id, object)).map(|(_, object)| object)
    }

    fn made_eight(&self, kinds: &[Kind]) -> bool {
        self.changed().any(|object| kinds.contains(&object.kind()) && full(Some(object.label)))
    }

    fn links_of_linked(&self) -> Option<usize> {
        match self.call {
            Call::LinkSegment { o, .. } if self.granted() => Some(self.after.holders_of(*o).len()),
            _ => None,
        }
    }

    /// The container and the segment of a link that was refused for the mask.
    fn masked_link(&self) -> Option<(u64, u64)> {
        match self.call {
            Call::LinkSegment { o, d, .. } if self.outcome.answer == MASK_FORBIDS => Some((*d, *o)),
            _ => None,
        }
    }

    /// The container that a granted link names the segment with.
    fn linked_from(&self) -> Option<u64> {
        match self.call {
            Call::LinkSegment { d1, .. } if self.granted() => Some(*d1),
            _ => None,
        }
    }

    /// Whether a container that forbids segments holds one: by a link from before W2 (RULES 12.8).
    fn holds_forbidden(&self, d: u64) -> bool {
        self.before.links.iter().any(|link| link.0 == d && forbidden(self.before, link))
    }

    fn has_old_link(&self) -> bool {
        self.before.links.iter().any(|link| forbidden(self.before, link))
    }

    /// The spare of the container in which a container of quota 0 is asked for.
    fn left_for_a_default(&self) -> Option<u64> {
        match self.call {
            Call::CreateContainer { d, quota: 0, .. } if self.before.containers().contains(d) => {
                Some(self.before.spare(*d))
            }
            _ => None,
        }
    }

    fn unreferenced(&self) -> Option<u64> {
        match self.call {
            Call::Unreference { o, .. } if self.granted() => Some(*o),
            _ => None,
        }
    }

    /// How many objects went with the container that was unreferenced.
    fn cut(&self) -> usize {
        let container = |o: u64| self.before.objects[&o].kind() == Kind::Container;
        match self.unreferenced() {
            Some(o) if container(o) => self.before.objects.len() - self.after.objects.len(),
            _ => 0,
        }
    }

    fn a_segment_outlives(&self) -> bool {
        let lost_a_link = |(d, o): &(u64, u64)| !self.after.links.contains(&(*d, *o)) && self.is_live(*o);
        self.cut() > 0 && self.before.links.iter().any(lost_a_link)
    }

    fn thread_label(&self, world: &World) -> Option<Label> {
        match world.objects.get(&self.caller) {
            Some(Object { label, body: Body::Thread { .. }, .. }) => Some(*label),
            _ => None,
        }
    }

    fn gained_star(&self) -> bool {
        let entered = matches!(self.call, Call::EnterGate { .. }) && self.granted();
        match (self.thread_label(self.before), self.thread_label(self.after)) {
            (Some(old), Some(new)) if entered => {
                new.categories().into_iter().any(|c| new.level(c) == STAR && old.level(c) != STAR)
            }
            _ => false,
        }
    }

    fn cut_within_a_block(&self) -> bool {
        match self.call {
            Call::Resize { s, length, .. } if self.granted() => {
                let old = self.before.objects[s].bytes().len() as u64;
                *length < old && length % 64 != 0
            }
            _ => false,
        }
    }

    fn label_not_shown(&self) -> bool {
        let look = matches!(self.call, Call::Look { .. });
        look && self.granted() && self.outcome.output[33] == 0
    }

    fn took_back(&self) -> Option<Kind> {
        match self.call {
            Call::MoveQuota { o, n, .. } if self.granted() && *n < 0 => Some(self.before.objects[o].kind()),
            _ => None,
        }
    }
}
