//! The kernel of page 01 (the user's rules, which docs/RULES.md restates) as plain data: objects by id,
//! links, and the bytes of segments. It has no rows, no blocks and no book, so answer 1 is not its business.

mod creates;
mod gates;
mod objects;
mod quotas;
mod segments;
mod sound;
mod threads;

pub use creates::{DEFAULT_CONTAINER_QUOTA, DEFAULT_SEGMENT_QUOTA};
pub use flytewood_calls::Call;
pub use objects::{segment_use, Body, Kind, Object};

use crate::labels::*;
use std::collections::{BTreeMap, BTreeSet};

pub const GRANTED: u64 = 0;
pub const NUMBERS_ENDED: u64 = 2;
pub const NO_LIVE_THREAD: u64 = 3;
pub const MALFORMED: u64 = 4;
pub const NO_ENTRY: u64 = 5;
pub const WRONG_KIND: u64 = 6;
pub const LABEL_CONDITION: u64 = 7;
pub const MASK_FORBIDS: u64 = 8;
pub const FIXED_OR_NOT: u64 = 9;
pub const ALREADY_LINKED: u64 = 10;
pub const BEYOND_THE_LENGTH: u64 = 11;
pub const NINTH_PAIR: u64 = 12;
pub const NOT_ENOUGH_SPARE: u64 = 13;

/// RULES 7.1: "Start takes a first number f, at least 1 and at most 2305843009213693949."
pub const LAST_FIRST_NUMBER: u64 = PAST_THE_END - 3;
/// RULES 3.6: "The root's quota is 256 for good."
pub const ROOT_QUOTA: u64 = 256;
pub const DESCRIPTION_LEN: usize = 32;
pub const CLOSURE_LEN: usize = 32;
pub const LOOK_LEN: usize = 104;

#[derive(Clone, Debug, PartialEq, Eq)]
pub struct World {
    /// The number that the next call takes.
    pub next: u64,
    pub objects: BTreeMap<u64, Object>,
    /// (container, object).
    pub links: BTreeSet<(u64, u64)>,
}

/// What a call hands back; value 0 and no output on a refusal.
#[derive(Clone, Debug, PartialEq, Eq)]
pub struct Outcome {
    pub answer: u64,
    pub value: u64,
    pub output: Vec<u8>,
}

/// A granted call's value and output, or the refusal number.
type Judged = Result<(u64, Vec<u8>), u64>;

/// T, as it is when the call comes in, and the call's own number.
#[derive(Clone, Copy, Debug)]
struct Caller {
    id: u64,
    number: u64,
    label: Label,
    clearance: Label,
}

fn need(holds: bool, refusal: u64) -> Result<(), u64> {
    if holds {
        Ok(())
    } else {
        Err(refusal)
    }
}

fn granted(value: u64) -> Judged {
    Ok((value, Vec::new()))
}

/// A lent label that may hold star.
fn lent_label(bytes: &[u8], number: u64) -> Result<Label, u64> {
    lent(bytes, number, true)
}

/// A lent clearance, or a lent label of a container or segment. RULES 2.15, of star: "It may stand in no
/// clearance, and in no label of a segment or container."
fn lent_starless(bytes: &[u8], number: u64) -> Result<Label, u64> {
    lent(bytes, number, false)
}

fn lent(bytes: &[u8], number: u64, star_allowed: bool) -> Result<Label, u64> {
    match Label::parse(bytes) {
        Some(label) if label.well_formed(number, star_allowed) => Ok(label),
        _ => Err(MALFORMED),
    }
}

impl World {
    /// RULES 7.3: "Container f becomes the root, with label {1}, quota 256 and mask 0; thread f + 1 is linked
    /// in it, with label {1} and clearance {2}; both descriptions are zeros." 7.4: "The next number is f +
    /// 2." 7.2: ".. 4 if f is not in that range."
    pub fn start(first: u64) -> Result<World, u64> {
        need((1..=LAST_FIRST_NUMBER).contains(&first), MALFORMED)?;
        let label = Label::plain(LEVEL_1);
        let description = vec![0; DESCRIPTION_LEN];
        let root = Object {
            label,
            description: description.clone(),
            quota: ROOT_QUOTA,
            body: Body::Container { mask: 0 },
        };
        let clearance = Label::plain(LEVEL_2);
        let thread = Object { label, description, quota: 1, body: Body::Thread { clearance } };
        let mut world = World { next: first + 2, objects: BTreeMap::new(), links: BTreeSet::new() };
        world.objects.insert(first, root);
        world.objects.insert(first + 1, thread);
        world.links.insert((first, first + 1));
        Ok(world)
    }

    /// RULES 4.2: "Each call uses up its number, granted or refused, and the next number is then one higher.
    /// Only answers 1 and 2 use up none."
    pub fn call(&mut self, caller: u64, call: &Call) -> Outcome {
        if self.next >= PAST_THE_END {
            return Outcome { answer: NUMBERS_ENDED, value: 0, output: Vec::new() };
        }
        let number = self.next;
        self.next += 1;
        match self.judge(caller, number, call) {
            Ok((value, output)) => Outcome { answer: GRANTED, value, output },
            Err(answer) => Outcome { answer, value: 0, output: Vec::new() },
        }
    }

    fn judge(&mut self, caller: u64, number: u64, call: &Call) -> Judged {
        let t = self.live_thread(caller, number)?;
        match call {
            Call::CreateCategory => self.create_category(&t),
            Call::SetLabel { label } => self.set_label(&t, label),
            Call::SetClearance { clearance } => self.set_clearance(&t, clearance),
            Call::CreateContainer { d, label, description, mask, quota } => {
                self.create_container(&t, *d, label, description, *mask, *quota)
            }
            Call::CreateSegment { d, label, description, quota } => {
                self.create_segment(&t, *d, label, description, *quota)
            }
            Call::CreateGate { d, label, clearance, entry, closure, description } => {
                self.create_gate(&t, *d, label, clearance, *entry, closure, description)
            }
            Call::CreateThread { d, label, clearance, description } => {
                self.create_thread(&t, *d, label, clearance, description)
            }
            Call::Unreference { d, o } => self.unreference(&t, *d, *o),
            Call::LinkSegment { d1, o, d } => self.link_segment(&t, *d1, *o, *d),
            Call::FixQuota { d, o } => self.fix_quota(&t, *d, *o),
            Call::MoveQuota { d, o, n } => self.move_quota(&t, *d, *o, *n),
            Call::Read { d, s, k, from, count } => self.read(&t, *d, *s, *k, *from, *count),
            Call::Write { d, s, k, from, count, bytes } => self.write(&t, *d, *s, *k, *from, *count, bytes),
            Call::Resize { d, s, length } => self.resize(&t, *d, *s, *length),
            Call::EnterGate { d, g, label_r, clearance_r, label_v, output_len } => {
                self.enter_gate(&t, *d, *g, [label_r, clearance_r, label_v], *output_len)
            }
            Call::Look { d, o, output_len } => self.look(&t, *d, *o, *output_len),
        }
    }

    fn live_thread(&self, caller: u64, number: u64) -> Result<Caller, u64> {
        match self.objects.get(&caller) {
            Some(Object { label, body: Body::Thread { clearance }, .. }) => {
                Ok(Caller { id: caller, number, label: *label, clearance: *clearance })
            }
            _ => Err(NO_LIVE_THREAD),
        }
    }

    /// RULES 6.5: "A container that the call names does not exist, is an object of another kind, or may not
    /// be read by the caller; ..": one answer, whichever it is.
    fn readable_container(&self, t: &Caller, d: u64) -> Result<&Object, u64> {
        match self.objects.get(&d) {
            Some(object) if object.kind() == Kind::Container && may_read(&t.label, &object.label) => {
                Ok(object)
            }
            _ => Err(NO_ENTRY),
        }
    }

    /// The object of the entry (D, O). RULES 8.16: ".. no other call takes (D, D) for an entry.": no
    /// container is linked in itself.
    fn entry(&self, t: &Caller, d: u64, o: u64) -> Result<&Object, u64> {
        self.readable_container(t, d)?;
        match self.objects.get(&o) {
            Some(object) if self.links.contains(&(d, o)) => Ok(object),
            _ => Err(NO_ENTRY),
        }
    }

    fn may_write_container(&self, t: &Caller, d: u64) -> bool {
        self.objects.get(&d).map_or(false, |object| may_write(&t.label, &object.label))
    }

    /// A live object's units in use. RULES 3.3: "A container uses 1 unit and the quotas of all that is linked
    /// in it."
    pub fn uses(&self, id: u64) -> u64 {
        match &self.objects[&id].body {
            Body::Thread { .. } | Body::Gate { .. } => 1,
            Body::Segment { bytes, .. } => segment_use(bytes.len() as u64),
            Body::Container { .. } => {
                1 + self.linked_in(id).into_iter().map(|o| self.objects[&o].quota).sum::<u64>()
            }
        }
    }

    /// RULES 3.4: "An object's spare is its quota minus the units it uses."
    pub fn spare(&self, id: u64) -> u64 {
        self.objects[&id].quota - self.uses(id)
    }

    /// The objects linked in a container.
    pub fn linked_in(&self, container: u64) -> Vec<u64> {
        self.links.iter().filter(|(d, _)| *d == container).map(|(_, o)| *o).collect()
    }

    /// The containers that an object is linked in.
    pub fn holders_of(&self, object: u64) -> Vec<u64> {
        self.links.iter().filter(|(_, o)| *o == object).map(|(d, _)| *d).collect()
    }
}

#[cfg(test)]
mod tests;
