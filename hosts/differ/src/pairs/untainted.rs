//! What W5 (docs/RULES.md, section 12) says of one world: who is tainted in v, what is reached, and what must
//! be the same in both.

use crate::bench::{need, Checked};
use flytewood_model::labels::{Label, LEVEL_1, STAR, WORDS};
use flytewood_model::model::{Kind, Object, World};
use std::collections::{BTreeMap, BTreeSet};

/// RULES 12.1: ".. at most 1 (code 2 or less), .."
pub fn untainted(object: &Object, v: u64) -> bool {
    object.label.level(v) <= LEVEL_1
}

/// RULES 12.1: "A caller is untainted or tainted by its label at the time; if it is no live thread, it is
/// neither."
pub fn untainted_thread(world: &World, id: u64, v: u64) -> bool {
    let suits = |object: &Object| object.kind() == Kind::Thread && untainted(object, v);
    world.objects.get(&id).map_or(false, suits)
}

pub fn threads(world: &World) -> Vec<u64> {
    let thread = |object: &Object| object.kind() == Kind::Thread;
    world.objects.iter().filter(|(_, object)| thread(object)).map(|(id, _)| *id).collect()
}

pub fn untainted_threads(world: &World, v: u64) -> Vec<u64> {
    threads(world).into_iter().filter(|id| untainted(&world.objects[id], v)).collect()
}

/// The label with this level at v; nothing where a ninth pair would be needed.
pub fn with_level(label: &Label, v: u64, code: u8) -> Option<Label> {
    let others: Vec<(u64, u8)> = label.pairs().into_iter().filter(|(category, _)| *category != v).collect();
    let label = Label::of(label.default, &others);
    if code == label.default {
        Some(label)
    } else if others.len() < WORDS {
        label.insert(v, code)
    } else {
        None
    }
}

/// RULES 12.2: ".. v is less than the next number, no object has star at v, and untainted objects are linked
/// in untainted containers only."
pub fn the_three_terms(world: &World, v: u64) -> Checked {
    need(1 <= v && v < world.next, || format!("v is {} and the next number {}", v, world.next))?;
    let owner = world.objects.iter().find(|(_, object)| object.label.level(v) == STAR);
    need(owner.is_none(), || format!("object {:?} holds star in v", owner.map(|(id, _)| id)))?;
    let of = |id: &u64| untainted(&world.objects[id], v);
    let stray = world.links.iter().find(|(d, o)| of(o) && !of(d));
    need(stray.is_none(), || {
        format!("link {:?} leads from a tainted container to an untainted object", stray)
    })
}

/// From the root by links of containers whose level in v is at most 1; if the root's is above, nothing is
/// reached (RULES 12.5).
pub fn reached(world: &World, root: u64, v: u64) -> BTreeSet<u64> {
    let mut found = BTreeSet::new();
    let mut open = vec![root];
    while let Some(d) = open.pop() {
        let leads_on = untainted(&world.objects[&d], v) && world.objects[&d].kind() == Kind::Container;
        if leads_on {
            open.extend(links_of(world, d).map(|(_, o)| o).filter(|o| !found.contains(o)));
        }
        if leads_on || d != root {
            found.insert(d);
        }
    }
    found
}

fn links_of(world: &World, d: u64) -> impl Iterator<Item = (u64, u64)> + '_ {
    world.links.range((d, 0)..=(d, u64::MAX)).copied()
}

/// What is the same in both histories.
pub struct Shown<'a> {
    next: u64,
    root: u64,
    threads: Vec<u64>,
    reached: BTreeSet<u64>,
    /// RULES 12.5: ".. each untainted object that is reached from the root through untainted containers .."
    /// and ".. the same links in those containers."
    objects: BTreeMap<u64, &'a Object>,
    links: BTreeSet<(u64, u64)>,
}

impl Shown<'_> {
    pub fn of(world: &World, root: u64, v: u64) -> Shown<'_> {
        let reached = reached(world, root, v);
        let object = |id: &u64| (*id, &world.objects[id]);
        let objects: BTreeMap<u64, &Object> =
            reached.iter().map(object).filter(|(_, object)| untainted(object, v)).collect();
        let links = objects.keys().flat_map(|d| links_of(world, *d)).collect();
        Shown { next: world.next, root, threads: untainted_threads(world, v), reached, objects, links }
    }

    /// An error says what is not the same.
    pub fn same_as(&self, other: &Shown) -> Checked {
        need(self.next == other.next, || format!("the next numbers are {} and {}", self.next, other.next))?;
        need(self.root == other.root, || format!("the roots are {} and {}", self.root, other.root))?;
        let ids: BTreeSet<&u64> = self.objects.keys().chain(other.objects.keys()).collect();
        let object = ids.into_iter().find(|id| self.objects.get(id) != other.objects.get(id));
        need(object.is_none(), || differing_objects(self, other, object.copied()))?;
        let link = self.links.symmetric_difference(&other.links).next();
        need(link.is_none(), || format!("the untainted link {:?} is in one of the two only", link))?;
        let one = self.reached.symmetric_difference(&other.reached).next();
        need(one.is_none(), || format!("object {:?} is reached in one of the two only", one))?;
        need(self.threads == other.threads, || {
            format!("the untainted threads are {:?} and {:?}", self.threads, other.threads)
        })
    }
}

fn differing_objects(one: &Shown, other: &Shown, id: Option<u64>) -> String {
    let of = |shown: &Shown| id.and_then(|id| shown.objects.get(&id).map(|object| format!("{:?}", object)));
    let absent = || "absent".to_string();
    let (first, second) = (of(one).unwrap_or_else(absent), of(other).unwrap_or_else(absent));
    format!("the untainted object {} is\n  {}\nand\n  {}", id.unwrap_or(0), first, second)
}

#[cfg(test)]
mod tests {
    use super::*;
    use flytewood_model::ask::*;
    use flytewood_model::labels::{LEVEL_2, LEVEL_3};

    const V: u64 = 102;

    fn high() -> Label {
        Label::of(LEVEL_1, &[(V, LEVEL_3)])
    }

    fn one() -> Label {
        Label::plain(LEVEL_1)
    }

    /// Category 102; container 103 in the root and 104 in that, both tainted; container 105 and in it the
    /// fixed segment 106, which call 108 links into 103; thread 109 in 103.
    fn world() -> World {
        let mut world = World::start(100).expect("a first number that a start takes");
        let clearance = Label::of(LEVEL_2, &[(V, LEVEL_3)]);
        let calls = [
            category(),
            container(100, high(), 0, 40),
            container(103, high(), 0, 20),
            container(100, one(), 0, 20),
            segment(105, one(), 3),
            fix(105, 106),
            link(105, 106, 103),
            thread(103, high(), clearance),
        ];
        for call in calls.iter() {
            assert_eq!(world.call(101, call).answer, 0);
        }
        world
    }

    #[test]
    fn what_is_reached_stops_at_tainted_containers() {
        let found: Vec<u64> = reached(&world(), 100, V).into_iter().collect();
        assert_eq!(found, [100, 101, 103, 105, 106]);
        let mut other = world();
        other.objects.get_mut(&100).expect("the root").label = high();
        assert!(reached(&other, 100, V).is_empty());
    }

    #[test]
    fn each_of_the_three_terms_is_asked_for() {
        let mut world = world();
        assert!(the_three_terms(&world, V).unwrap_err().contains("holds star"));
        assert_eq!(world.call(101, &set_label(one())).answer, 0);
        assert!(the_three_terms(&world, V).unwrap_err().contains("(103, 106)"));
        assert!(world.links.remove(&(103, 106)));
        assert_eq!(the_three_terms(&world, V), Ok(()));
        assert!(the_three_terms(&world, world.next).is_err());
        assert!(the_three_terms(&world, 0).is_err());
    }

    #[test]
    fn only_untainted_things_must_be_the_same() {
        let (world, mut other) = (world(), world());
        let differ =
            |one: &World, two: &World| Shown::of(one, 100, V).same_as(&Shown::of(two, 100, V)).is_err();
        other.objects.remove(&109);
        other.links.remove(&(103, 109));
        other.objects.get_mut(&103).expect("a tainted container").description[0] = 1;
        assert!(!differ(&world, &other));
        let mut changed = other.clone();
        changed.objects.get_mut(&105).expect("an untainted container").description[31] = 1;
        assert!(differ(&world, &changed));
        let mut changed = other.clone();
        changed.links.remove(&(100, 103));
        assert!(differ(&world, &changed));
        let mut changed = other.clone();
        changed.next += 1;
        assert!(differ(&world, &changed));
    }

    #[test]
    fn a_level_is_put_in_its_place() {
        let label = Label::of(LEVEL_1, &[(3, LEVEL_2), (7, LEVEL_3)]);
        assert_eq!(with_level(&label, 5, LEVEL_3).map(|l| l.categories()), Some(vec![3, 5, 7]));
        assert_eq!(with_level(&label, 7, LEVEL_1), Some(Label::of(LEVEL_1, &[(3, LEVEL_2)])));
        let full: Vec<(u64, u8)> = (1..=8).map(|category| (category, LEVEL_2)).collect();
        assert_eq!(with_level(&Label::of(LEVEL_1, &full), 9, LEVEL_2), None);
    }
}
