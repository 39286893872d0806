//! What the starts are built with: real calls, each by a thread that may make it.

use super::side::Side;
use super::untainted::{untainted, with_level};
use crate::ask::Given;
use crate::bench::{need, Checked};
use crate::mixture::fill_in;
use flytewood_model::ask::*;
use flytewood_model::labels::*;
use flytewood_model::model::{Body, Call, Kind, Object, World, GRANTED};
use flytewood_model::random::Random;

pub struct Opening<'a> {
    pub side: Side,
    pub random: &'a mut Random,
    pub root: u64,
    /// The thread that the start makes.
    pub owner: u64,
    pub v: u64,
    /// The labels that things get here, by their level in v.
    pub plain: Vec<Label>,
    pub tainted: Vec<Label>,
    pub clearances: Vec<Label>,
}

pub fn one() -> Label {
    Label::plain(LEVEL_1)
}

pub fn two() -> Label {
    Label::plain(LEVEL_2)
}

impl<'a> Opening<'a> {
    pub fn start(first: u64, random: &'a mut Random) -> Result<Opening<'a>, String> {
        let side = Side::start(first, random.draw() as u8)?;
        let (plain, clearances) = (vec![one()], vec![two()]);
        Ok(Opening { side, random, root: first, owner: first + 1, v: 0, plain, tainted: vec![], clearances })
    }

    pub fn world(&self) -> &World {
        &self.side.world
    }

    pub fn take(&mut self, caller: u64, mut call: Call) -> Result<Given, String> {
        fill_in(self.random, &mut call);
        Ok(self.side.ask(caller, &call)?.given)
    }

    /// A call that the opening needs; gives its value.
    pub fn grant(&mut self, caller: u64, call: Call) -> Result<u64, String> {
        let asked = format!("{:?}", call);
        let given = self.take(caller, call)?;
        need(given.answer == GRANTED, || format!("an opening counts on {}: {}", asked, given.answer))?;
        Ok(given.value)
    }

    /// The owner gets v, and with it labels of level 0, 2 and 3 there.
    pub fn issue(&mut self) -> Checked {
        let v = self.grant(self.owner, category())?;
        self.v = v;
        let at = |code: u8| Label::of(LEVEL_1, &[(v, code)]);
        self.plain = vec![one(), one(), one(), one(), one(), at(LEVEL_0)];
        self.tainted = vec![at(LEVEL_2), at(LEVEL_3), at(LEVEL_3)];
        self.clearances =
            vec![Label::of(LEVEL_2, &[(v, LEVEL_3)]), Label::of(LEVEL_2, &[(v, LEVEL_3)]), two()];
        Ok(())
    }

    /// Some category of which the owner keeps star, so that labels differ in more than v.
    pub fn issue_another(&mut self) -> Checked {
        let w = self.grant(self.owner, category())?;
        let level = self.random.pick(&[LEVEL_0, LEVEL_2, LEVEL_3]);
        let more = |label: &Label| label.insert(w, level).unwrap_or(*label);
        let (plain, tainted) = (more(&self.plain[0]), more(&self.tainted[0]));
        self.plain.push(plain);
        self.tainted.push(tainted);
        let clearance = self.clearances[0].insert(w, LEVEL_3).unwrap_or(self.clearances[0]);
        self.clearances = vec![clearance, clearance, self.clearances[0], two()];
        Ok(())
    }

    pub fn plain_label(&mut self) -> Label {
        self.random.pick(&self.plain)
    }

    pub fn tainted_label(&mut self) -> Label {
        self.random.pick(&self.tainted)
    }

    /// A clearance that the label flows to; the label itself if there is no other.
    fn clearance_over(&mut self, label: &Label) -> Label {
        let over: Vec<Label> = self.clearances.iter().copied().filter(|c| flows(label, c)).collect();
        if over.is_empty() {
            *label
        } else {
            self.random.pick(&over)
        }
    }

    /// A thread that may put something with this label, and this clearance or label over it, into d.
    fn maker(&self, d: u64, label: &Label, top: &Label) -> Option<u64> {
        let into = self.world().objects[&d].label;
        self.thread_that(|own, clearance| {
            may_write(own, &into) && flows(own, label) && flows(label, top) && flows(top, clearance)
        })
    }

    /// The owner, or else the lowest one.
    fn thread_that(&self, suits: impl Fn(&Label, &Label) -> bool) -> Option<u64> {
        let able = |object: &Object| match &object.body {
            Body::Thread { clearance } => suits(&object.label, clearance),
            _ => false,
        };
        self.world().objects.iter().find(|(_, object)| able(object)).map(|(id, _)| *id)
    }

    /// Puts it in if somebody may and there is room; gives its id.
    fn put(&mut self, d: u64, label: &Label, top: &Label, call: Call) -> Result<Option<u64>, String> {
        match self.maker(d, label, top) {
            None => Ok(None),
            Some(maker) => {
                let given = self.take(maker, call)?;
                Ok(if given.answer == GRANTED { Some(given.value) } else { None })
            }
        }
    }

    pub fn container(&mut self, d: u64, label: Label, mask: u64, quota: u64) -> Result<Option<u64>, String> {
        self.put(d, &label, &label, container(d, label, mask, quota))
    }

    pub fn thread(&mut self, d: u64, label: Label) -> Result<Option<u64>, String> {
        let clearance = self.clearance_over(&label);
        self.put(d, &label, &clearance, thread(d, label, clearance))
    }

    pub fn gate(&mut self, d: u64, label: Label) -> Result<Option<u64>, String> {
        let clearance = self.clearance_over(&label);
        self.put(d, &label, &clearance, gate(d, label, clearance, 7))
    }

    /// With some bytes in it, as many as fit.
    pub fn segment(&mut self, d: u64, label: Label, quota: u64) -> Result<Option<u64>, String> {
        let made = self.put(d, &label, &label, segment(d, label, quota))?;
        if let Some(s) = made {
            let length = self.random.between(0, (quota - 1) * 64);
            self.fill(d, s, length)?;
        }
        Ok(made)
    }

    fn fill(&mut self, d: u64, s: u64, length: u64) -> Checked {
        let (into, label) = (self.world().objects[&d].label, self.world().objects[&s].label);
        let writer = self.thread_that(|own, _| may_read(own, &into) && may_write(own, &label));
        if let Some(writer) = writer {
            self.grant(writer, resize(d, s, length))?;
            let bytes: Vec<u8> = (0..length.min(40)).map(|_| self.random.draw() as u8).collect();
            self.grant(writer, write(d, s, 0, 0, &bytes))?;
        }
        Ok(())
    }

    /// Fixes a segment's quota, by whoever may.
    pub fn fix(&mut self, d: u64, s: u64) -> Checked {
        let (into, label) = (self.world().objects[&d].label, self.world().objects[&s].label);
        if let Some(t) = self.thread_that(|own, _| may_write(own, &into) && flows(own, &label)) {
            self.grant(t, fix(d, s))?;
        }
        Ok(())
    }

    /// Links a fixed segment into d, if somebody may and there is room.
    pub fn link(&mut self, d1: u64, s: u64, d: u64) -> Checked {
        let label = |id: u64| self.world().objects[&id].label;
        let (from, into, own) = (label(d1), label(d), label(s));
        let linker = self.thread_that(|t, c| may_read(t, &from) && may_write(t, &into) && flows(&own, c));
        if let Some(t) = linker {
            self.take(t, link(d1, s, d))?;
        }
        Ok(())
    }

    pub fn untainted(&self, id: u64) -> bool {
        untainted(&self.world().objects[&id], self.v)
    }

    /// Threads of either sort beside each other, a room for the tainted ones, segments for either, and an
    /// untainted one with its quota fixed, which anybody may link.
    pub fn household(&mut self) -> Checked {
        let root = self.root;
        for label in [one(), one()].iter().chain(self.tainted.clone().iter()) {
            self.thread(root, *label)?;
        }
        let shelf = self.container(root, one(), 0, 30)?.ok_or("no shelf")?;
        let fixed = self.segment(root, one(), 3)?.ok_or("no segment in the root")?;
        self.fix(root, fixed)?;
        self.segment(shelf, one(), 4)?;
        let label = self.tainted_label();
        let quota = self.random.between(25, 60);
        let room = self.container(root, label, 0, quota)?.ok_or("no room")?;
        self.thread(room, label)?;
        self.thread(room, label)?;
        self.segment(room, label, 5)?;
        let seen_from_outside = self.random.pick(&[root, shelf]);
        self.segment(seen_from_outside, label, 3)?;
        self.thread(shelf, label)?;
        Ok(())
    }

    /// So many things more, wherever there is room.
    pub fn furnish(&mut self, count: u64) -> Checked {
        for _ in 0..count {
            let world = self.world();
            let open: Vec<u64> = world.containers().into_iter().filter(|d| world.spare(*d) > 0).collect();
            if !open.is_empty() {
                let d = self.random.pick(&open);
                self.furnish_one(d)?;
            }
        }
        Ok(())
    }

    /// RULES 12.2: ".. untainted objects are linked in untainted containers only."
    fn furnish_one(&mut self, d: u64) -> Checked {
        let plain = self.untainted(d) && self.random.chance(60);
        let label = if plain { self.plain_label() } else { self.tainted_label() };
        let spare = self.world().spare(d);
        match self.random.below(10) {
            0..=2 => {
                let quota = self.random.between(1, (spare * 2 / 3).clamp(1, 60));
                let mask = if self.random.chance(20) { self.random.below(16) } else { 0 };
                self.container(d, label, mask, quota)?;
            }
            3..=5 => {
                let quota = self.random.between(1, spare.min(6));
                self.segment(d, label, quota)?;
            }
            6 | 7 => drop(self.thread(d, label)?),
            8 => drop(self.gate(d, label)?),
            _ => self.share_one(d)?,
        }
        Ok(())
    }

    /// Fixes some segment and links it into d.
    fn share_one(&mut self, d: u64) -> Checked {
        let segment = |o: &u64| self.world().objects[o].kind() == Kind::Segment;
        let may_be_in = |o: &u64| self.untainted(d) || !self.untainted(*o);
        let links = self.world().links.iter().copied();
        let all: Vec<(u64, u64)> = links.filter(|(_, o)| segment(o) && may_be_in(o)).collect();
        if !all.is_empty() {
            let (d1, s) = self.random.pick(&all);
            self.fix(d1, s)?;
            self.link(d1, s, d)?;
        }
        Ok(())
    }

    /// RULES 12.2: ".. no object has star at v, ..": the owner keeps some level there.
    pub fn give_up(&mut self) -> Checked {
        let level = self.random.pick(&[LEVEL_1, LEVEL_1, LEVEL_1, LEVEL_1, LEVEL_0, LEVEL_2, LEVEL_3]);
        let label = with_level(&self.world().objects[&self.owner].label, self.v, level);
        self.grant(self.owner, set_label(label.ok_or("no room for v in the owner's label")?))?;
        Ok(())
    }
}
