//! When a book is sound (section 5 of docs/RULES.md), as far as it concerns objects, links, labels, quotas
//! and masks.

use super::{Body, Kind, Object, World, CLOSURE_LEN, DESCRIPTION_LEN, ROOT_QUOTA};
use crate::labels::*;
use std::collections::BTreeSet;

impl World {
    pub fn sound(&self) -> bool {
        self.flaws().is_empty()
    }

    /// What is not sound, in words.
    pub fn flaws(&self) -> Vec<String> {
        let mut flaws = Vec::new();
        if self.next > PAST_THE_END {
            flaws.push(format!("the next number is {}", self.next));
        }
        if self.roots().len() != 1 {
            flaws.push(format!("roots: {:?}", self.roots()));
        }
        for (id, object) in &self.objects {
            let found = self.object_flaws(*id, object).into_iter();
            flaws.extend(found.map(|flaw| format!("object {}: {}", id, flaw)));
        }
        for (d, o) in &self.links {
            flaws.extend(self.link_flaw(*d, *o).map(|flaw| format!("link ({}, {}): {}", d, o, flaw)));
        }
        flaws
    }

    /// The root is the one container without a link.
    fn roots(&self) -> Vec<u64> {
        let unlinked = |id: &u64| self.holders_of(*id).is_empty();
        self.containers().into_iter().filter(unlinked).collect()
    }

    pub fn containers(&self) -> Vec<u64> {
        let container = |object: &Object| object.kind() == Kind::Container;
        self.objects.iter().filter(|(_, object)| container(object)).map(|(id, _)| *id).collect()
    }

    fn object_flaws(&self, id: u64, object: &Object) -> Vec<&'static str> {
        let checks = [
            (1 <= id && id < self.next, "its id is out of range"),
            (object.description.len() == DESCRIPTION_LEN, "its description has not 32 bytes"),
            (self.labels_suit(object), "a label is malformed or over the clearance"),
            (self.body_in_range(object), "a field is out of range"),
            (self.quota_in_range(id, object), "its quota is out of range"),
            (self.links_suit(id, object), "it has too few or too many links"),
            (self.links_are_live(id) && self.uses(id) <= object.quota, "it uses more than its quota"),
            (self.held(id) <= object.quota, "its tree holds more than its quota"),
        ];
        checks.iter().filter(|(holds, _)| !holds).map(|(_, flaw)| *flaw).collect()
    }

    /// RULES 5.3: "Each label and clearance is well formed below the next number." 5.4: "The label of a
    /// thread or gate flows to its clearance."
    fn labels_suit(&self, object: &Object) -> bool {
        match object.clearance() {
            Some(clearance) => {
                object.label.well_formed(self.next, true)
                    && clearance.well_formed(self.next, false)
                    && flows(&object.label, &clearance)
            }
            None => object.label.well_formed(self.next, false),
        }
    }

    fn body_in_range(&self, object: &Object) -> bool {
        match &object.body {
            Body::Thread { .. } => true,
            Body::Gate { closure, .. } => closure.len() == CLOSURE_LEN,
            Body::Segment { bytes, .. } => bytes.len() <= 16_256,
            Body::Container { mask } => *mask <= 15,
        }
    }

    /// RULES 5.1: ".. a thread or gate has quota 1, the root 256, anything else 1 to 255; .."
    fn quota_in_range(&self, id: u64, object: &Object) -> bool {
        match object.kind() {
            Kind::Thread | Kind::Gate => object.quota == 1,
            Kind::Container if self.holders_of(id).is_empty() => object.quota == ROOT_QUOTA,
            _ => 1 <= object.quota && object.quota <= 255,
        }
    }

    /// RULES 5.6: "Any other object is linked somewhere. Only a segment whose quota is fixed may be linked in
    /// more than one container."
    fn links_suit(&self, id: u64, object: &Object) -> bool {
        let links = self.holders_of(id).len();
        links == 1 || (links == 0 && object.kind() == Kind::Container) || (links > 1 && object.is_fixed())
    }

    fn links_are_live(&self, id: u64) -> bool {
        self.linked_in(id).iter().all(|o| self.objects.contains_key(o))
    }

    /// A link joins a live container and a live object. RULES 5.9: "A container's mask has all bits of the
    /// mask of the container that it is linked in."
    fn link_flaw(&self, d: u64, o: u64) -> Option<&'static str> {
        match (self.objects.get(&d), self.objects.get(&o)) {
            (Some(parent), Some(child)) => {
                let container = child.kind() == Kind::Container;
                if parent.kind() != Kind::Container {
                    Some("it does not start at a container")
                } else if container && child.mask() & parent.mask() != parent.mask() {
                    Some("the child's mask lacks a bit")
                } else {
                    None
                }
            }
            _ => Some("an end is not live"),
        }
    }

    /// Demand 3 (docs/DEMANDS.md): "the objects in its tree, each counted once". Held are 1, or a segment's
    /// use.
    pub fn held(&self, id: u64) -> u64 {
        let mut tree = BTreeSet::new();
        self.gather(id, &mut tree);
        tree.into_iter().filter_map(|o| self.objects.get(&o)).map(held_alone).sum()
    }

    fn gather(&self, id: u64, tree: &mut BTreeSet<u64>) {
        if tree.insert(id) {
            for inner in self.linked_in(id) {
                self.gather(inner, tree);
            }
        }
    }
}

/// RULES 3.5: "A segment holds the units that it uses; a thread, a gate or a container holds 1."
fn held_alone(object: &Object) -> u64 {
    match &object.body {
        Body::Segment { bytes, .. } => super::segment_use(bytes.len() as u64),
        _ => 1,
    }
}
