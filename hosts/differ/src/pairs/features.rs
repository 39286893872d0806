//! What the pairs must have reached, and how often they did.

use super::leaks::containers_named;
use super::untainted::{untainted, untainted_thread};
use crate::ask::Given;
use flytewood_model::model::*;

/// One turn of both histories; for what is asked of each, 0 is the first and 1 the second.
pub struct Turn<'a> {
    pub v: u64,
    pub caller: u64,
    /// Whether the caller's level in v is at most 1, so that both make the same call.
    pub untainted: bool,
    pub calls: [&'a Call; 2],
    pub given: [&'a Given; 2],
    pub before: [&'a World; 2],
    pub after: [&'a World; 2],
}

type Feature = (&'static str, fn(&Turn) -> bool);

pub const FEATURES: [Feature; 45] = [
    ("untainted: a look at a tainted thread, whose label is not shown", |turn| turn.hidden_look()),
    ("untainted: a look at a thread whose hidden label differs in the two", |turn| {
        turn.hidden_look() && turn.differs(turn.object())
    }),
    ("untainted: a look at a tainted segment", |turn| turn.looked_at_tainted(Kind::Segment)),
    ("untainted: a look at a tainted gate", |turn| turn.looked_at_tainted(Kind::Gate)),
    ("untainted: a look at a tainted container", |turn| turn.looked_at_tainted(Kind::Container)),
    ("untainted: a look at something tainted that differs in the two", |turn| {
        turn.looked() && turn.differs(turn.object())
    }),
    ("untainted: a container named that is unreadable in one and absent in the other", |turn| {
        turn.untainted && turn.names_a_container_of_one()
    }),
    ("untainted: a container named that is tainted in both", |turn| {
        turn.untainted && turn.named_containers().any(|d| [0, 1].iter().all(|i| turn.tainted_room(*i, d)))
    }),
    ("untainted: a tainted container cut that holds different things", |turn| turn.cut_a_differing_room()),
    ("untainted: a tainted container cut that more than 20 objects go with", |turn| {
        turn.cut_a_differing_room() && turn.before[0].objects.len() > turn.after[0].objects.len() + 20
    }),
    ("untainted: a segment's last link here cut, it lives on in one of the two only", |turn| {
        turn.granted(8) && turn.untainted && turn.lives(0, turn.object()) != turn.lives(1, turn.object())
    }),
    ("untainted: a segment's last link here cut, it lives on unreached in both", |turn| turn.lost_to_both()),
    ("untainted: a create with more than 10 objects between the two", |turn| {
        turn.created() && turn.objects_between() > 10
    }),
    ("untainted: a create with more than 80 objects between the two", |turn| {
        turn.created() && turn.objects_between() > 80
    }),
    ("untainted: a create with more than 120 objects in either", |turn| {
        turn.created() && turn.before.iter().all(|world| world.objects.len() > 120)
    }),
    ("untainted: a tainted thread created", |turn| turn.created_tainted(Kind::Thread)),
    ("untainted: a tainted container created", |turn| turn.created_tainted(Kind::Container)),
    ("untainted: units moved into a tainted container that is used differently", |turn| {
        turn.untainted && turn.granted(11) && turn.moved() > 0 && turn.room_used_differently()
    }),
    ("untainted: units not taken back where one of the two had them to spare", |turn| turn.not_taken_back()),
    ("untainted: a tainted segment linked", |turn| {
        turn.untainted && turn.granted(9) && turn.object_tainted(0)
    }),
    ("untainted: a tainted segment's quota fixed", |turn| {
        turn.untainted && turn.granted(10) && turn.object_tainted(0)
    }),
    ("untainted: bytes read that lie at another place", |turn| {
        turn.untainted && turn.given[0].place != turn.given[1].place
    }),
    ("untainted: a segment read, written or resized that a tainted room of one only holds too", |turn| {
        let bytes = turn.granted(12) || turn.granted(13) || turn.granted(14);
        turn.untainted && bytes && turn.in_rooms(0) != turn.in_rooms(1)
    }),
    ("untainted: taints itself by its label", |turn| turn.granted(2) && turn.taints_itself()),
    ("untainted: taints itself by a gate", |turn| turn.granted(15) && turn.taints_itself()),
    ("untainted: an untainted gate entered", |turn| {
        turn.untainted && turn.granted(15) && !turn.object_tainted(0)
    }),
    ("untainted: frees itself", |turn| turn.untainted && !turn.lives(0, turn.caller)),
    ("untainted: the numbers have ended", |turn| turn.untainted && turn.given[0].answer == NUMBERS_ENDED),
    ("tainted: a category in one only", |turn| turn.in_one_only(&[1])),
    ("tainted: a label set in one only", |turn| turn.in_one_only(&[2])),
    ("tainted: a level in v raised in one only", |turn| !turn.untainted && turn.rises(0) != turn.rises(1)),
    ("tainted: a level in v raised in one only, by a thread in an untainted container", |turn| {
        !turn.untainted && turn.rises(0) != turn.rises(1) && [0, 1].iter().any(|i| turn.lives_outside(*i))
    }),
    ("tainted: a clearance set in one only", |turn| turn.in_one_only(&[3])),
    ("tainted: a create in one only", |turn| turn.in_one_only(&[4, 5, 6, 7])),
    ("tainted: different creates in the two", |turn| {
        !turn.untainted && turn.granted_in_both() && [0, 1].iter().all(|i| turn.is_create(*i))
    }),
    ("tainted: a container unreferenced in one only", |turn| {
        turn.in_one_only(&[8]) && [0, 1].iter().any(|i| turn.unreferenced_a_room(*i))
    }),
    ("tainted: a caller that frees itself in one only", |turn| turn.frees_itself_in_one_only()),
    ("tainted: an untainted segment linked into a room, in one only", |turn| {
        turn.in_one_only(&[9]) && [0, 1].iter().any(|i| turn.linked_untainted(*i))
    }),
    ("tainted: a quota fixed in one only", |turn| turn.in_one_only(&[10])),
    ("tainted: units moved in one only", |turn| turn.in_one_only(&[11])),
    ("tainted: bytes written in one only", |turn| turn.in_one_only(&[13])),
    ("tainted: a resize in one only", |turn| turn.in_one_only(&[14])),
    ("tainted: a gate entered in one only", |turn| turn.in_one_only(&[15])),
    ("a caller that is a live thread in one only", |turn| {
        !turn.untainted && turn.is_thread(0) != turn.is_thread(1)
    }),
    ("a caller that is no live thread in either", |turn| !turn.is_thread(0) && !turn.is_thread(1)),
];

impl Turn<'_> {
    /// Both made this call and it was granted.
    fn granted(&self, number: u64) -> bool {
        self.granted_in_both() && self.calls.iter().all(|call| call.number() == number)
    }

    fn granted_in_both(&self) -> bool {
        self.given.iter().all(|given| given.answer == GRANTED)
    }

    /// A tainted caller was granted one of these calls in one history, and none of them in the other.
    fn in_one_only(&self, numbers: &[u64]) -> bool {
        let granted = |i: usize| self.given[i].answer == GRANTED && numbers.contains(&self.calls[i].number());
        !self.untainted && granted(0) != granted(1)
    }

    fn lives(&self, i: usize, id: u64) -> bool {
        self.after[i].objects.contains_key(&id)
    }

    fn is_thread(&self, i: usize) -> bool {
        let object = self.before[i].objects.get(&self.caller);
        object.map_or(false, |object| object.kind() == Kind::Thread)
    }

    /// The object that the first history's call names; 0 if it names none.
    fn object(&self) -> u64 {
        object_named(self.calls[0]).unwrap_or(0)
    }

    fn object_tainted(&self, i: usize) -> bool {
        let object = self.before[i].objects.get(&self.object());
        object.map_or(false, |object| !untainted(object, self.v))
    }

    /// Whether what has this id before the call is not the same in the two.
    fn differs(&self, id: u64) -> bool {
        self.before[0].objects.get(&id) != self.before[1].objects.get(&id)
    }

    fn looked(&self) -> bool {
        self.untainted && self.granted(16) && self.object_tainted(0)
    }

    fn hidden_look(&self) -> bool {
        self.looked() && self.given[0].output[33] == 0
    }

    fn looked_at_tainted(&self, kind: Kind) -> bool {
        self.looked() && self.before[0].objects[&self.object()].kind() == kind
    }

    fn named_containers(&self) -> impl Iterator<Item = u64> {
        containers_named(self.calls[0]).into_iter()
    }

    fn tainted_room(&self, i: usize, d: u64) -> bool {
        let room = |object: &Object| object.kind() == Kind::Container && !untainted(object, self.v);
        self.before[i].objects.get(&d).map_or(false, room)
    }

    fn names_a_container_of_one(&self) -> bool {
        let absent = |i: usize, d: u64| !self.before[i].objects.contains_key(&d);
        self.named_containers()
            .any(|d| (self.tainted_room(0, d) && absent(1, d)) || (self.tainted_room(1, d) && absent(0, d)))
    }

    fn cut_a_differing_room(&self) -> bool {
        let o = self.object();
        let held = |i: usize| self.before[i].linked_in(o);
        self.untainted && self.granted(8) && self.tainted_room(0, o) && held(0) != held(1)
    }

    fn lost_to_both(&self) -> bool {
        let o = self.object();
        let tainted = |i: usize, d: &u64| !untainted(&self.after[i].objects[d], self.v);
        let lost = |i: usize| self.lives(i, o) && self.after[i].holders_of(o).iter().all(|d| tainted(i, d));
        self.untainted && self.granted(8) && lost(0) && lost(1)
    }

    fn is_create(&self, i: usize) -> bool {
        (4..=7).contains(&self.calls[i].number())
    }

    fn objects_between(&self) -> usize {
        self.before[0].objects.len().abs_diff(self.before[1].objects.len())
    }

    fn created(&self) -> bool {
        self.untainted && self.granted_in_both() && self.is_create(0)
    }

    fn created_tainted(&self, kind: Kind) -> bool {
        let made = self.after[0].objects.get(&self.given[0].value);
        self.created() && made.map_or(false, |object| object.kind() == kind && !untainted(object, self.v))
    }

    fn moved(&self) -> i64 {
        match self.calls[0] {
            Call::MoveQuota { n, .. } => *n,
            _ => 0,
        }
    }

    fn room_used_differently(&self) -> bool {
        let o = self.object();
        let room = self.tainted_room(0, o) && self.tainted_room(1, o);
        room && self.before[0].uses(o) != self.before[1].uses(o)
    }

    fn not_taken_back(&self) -> bool {
        let o = self.object();
        let enough = |i: usize| self.before[i].spare(o) >= self.moved().unsigned_abs();
        let refused = self.untainted && self.given[0].answer == LABEL_CONDITION && self.moved() < 0;
        refused && self.tainted_room(0, o) && self.tainted_room(1, o) && enough(0) != enough(1)
    }

    /// Whether the object that is named is linked in a tainted container too.
    fn in_rooms(&self, i: usize) -> bool {
        let holders = self.before[i].holders_of(self.object());
        holders.into_iter().any(|d| self.tainted_room(i, d))
    }

    fn taints_itself(&self) -> bool {
        self.untainted && !untainted_thread(self.after[0], self.caller, self.v) && self.lives(0, self.caller)
    }

    fn rises(&self, i: usize) -> bool {
        let level = |world: &World| world.objects.get(&self.caller).map(|object| object.label.level(self.v));
        self.is_thread(i) && level(self.before[i]) < level(self.after[i])
    }

    /// Whether the caller lives in an untainted container.
    fn lives_outside(&self, i: usize) -> bool {
        let holders = self.before[i].holders_of(self.caller);
        holders.into_iter().any(|d| !self.tainted_room(i, d))
    }

    fn unreferenced_a_room(&self, i: usize) -> bool {
        let o = object_named(self.calls[i]).unwrap_or(0);
        self.given[i].answer == GRANTED && self.tainted_room(i, o) && !self.lives(i, o)
    }

    fn frees_itself_in_one_only(&self) -> bool {
        let frees = |i: usize| self.is_thread(i) && !self.lives(i, self.caller);
        !self.untainted && frees(0) != frees(1)
    }

    fn linked_untainted(&self, i: usize) -> bool {
        let o = object_named(self.calls[i]).and_then(|o| self.before[i].objects.get(&o));
        let granted = self.given[i].answer == GRANTED && self.calls[i].number() == 9;
        granted && o.map_or(false, |object| untainted(object, self.v))
    }
}

/// The object of the entry that a call names.
fn object_named(call: &Call) -> Option<u64> {
    match call {
        Call::Unreference { o, .. } | Call::LinkSegment { o, .. } | Call::FixQuota { o, .. } => Some(*o),
        Call::MoveQuota { o, .. } | Call::Look { o, .. } | Call::EnterGate { g: o, .. } => Some(*o),
        Call::Read { s, .. } | Call::Write { s, .. } | Call::Resize { s, .. } => Some(*s),
        _ => None,
    }
}
