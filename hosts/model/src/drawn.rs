//! Draws calls that suit a world: mostly live callers, entries that exist and labels near the caller's own, with some
//! of everything else.

use crate::ask::*;
use crate::labels::*;
use crate::model::{Body, Call, Kind, Object, World};
use crate::random::Random;

pub struct Drawer<'a> {
    pub random: &'a mut Random,
    pub world: &'a World,
    /// The longest segment to ask for.
    pub longest: u64,
}

/// The caller that was drawn, with plain labels where it is no live thread.
struct Drawn {
    id: u64,
    label: Label,
    clearance: Label,
}

impl Drawn {
    fn plain(id: u64) -> Drawn {
        Drawn { id, label: Label::plain(LEVEL_1), clearance: Label::plain(LEVEL_2) }
    }
}

impl Drawer<'_> {
    pub fn turn(&mut self) -> (u64, Call) {
        let t = self.caller();
        let number = self.random.between(1, 16);
        let call = self.call(&t, number);
        (t.id, call)
    }

    /// This call, 1 to 16, of this caller.
    pub fn call_of(&mut self, id: u64, number: u64) -> Call {
        let t = self.drawn(id);
        self.call(&t, number)
    }

    fn call(&mut self, t: &Drawn, number: u64) -> Call {
        match number {
            1 => category(),
            2 => Call::SetLabel { label: self.owners_label(t) },
            3 => Call::SetClearance { clearance: self.clearance(t) },
            4..=7 => self.create(t, number),
            8 => {
                let (d, o) = self.entry(t, &[]);
                unreference(d, o)
            }
            9 => {
                let (d1, o) = self.entry(t, &[Kind::Segment]);
                link(d1, o, self.container_of(t))
            }
            10 => {
                let (d, o) = self.entry(t, &[Kind::Segment]);
                fix(d, o)
            }
            11 => {
                let (d, o) = self.entry(t, &[Kind::Segment, Kind::Container]);
                let n = self.random.pick(&[-257, -256, -4, -2, -1, -1, 0, 1, 1, 2, 3, 8, 40, 256, 257]);
                move_quota(d, o, n)
            }
            12..=14 => self.bytes_call(t, number),
            15 => self.enter(t),
            _ => {
                let (d, o) = self.entry(t, &[]);
                let o = if self.random.chance(15) { d } else { o };
                let output_len = if self.random.chance(20) { 103 } else { 104 };
                Call::Look { d, o, output_len }
            }
        }
    }

    fn create(&mut self, t: &Drawn, number: u64) -> Call {
        let d = self.container_of(t);
        let description = self.description();
        let quota = self.random.pick(&[0, 1, 1, 2, 2, 3, 4, 6, 9, 20, 60, 250, 255, 256]);
        match number {
            4 => {
                let mask = self.random.pick(&[0, 0, 0, 0, 1, 2, 4, 8, 15, 16]);
                Call::CreateContainer { d, label: self.plain_label(t), description, mask, quota }
            }
            5 => Call::CreateSegment { d, label: self.plain_label(t), description, quota },
            6 => {
                let entry = self.random.below(9);
                let closure = self.description();
                let (label, clearance) = (self.owners_label(t), self.clearance(t));
                Call::CreateGate { d, label, clearance, entry, closure, description }
            }
            _ => {
                let (label, clearance) = (self.owners_label(t), self.clearance(t));
                Call::CreateThread { d, label, clearance, description }
            }
        }
    }

    fn bytes_call(&mut self, t: &Drawn, number: u64) -> Call {
        let (d, s) = self.entry(t, &[Kind::Segment]);
        if number == 14 {
            let length = if self.random.chance(10) { 16_257 } else { self.length() };
            return resize(d, s, length);
        }
        let k = self.random.pick(&[0, 0, 0, 0, 0, 1, 1, 2, 253, 254]);
        let from = self.random.pick(&[0, 0, 0, 1, 2, 60, 63, 64, 65]);
        let count = self.random.below(5);
        if number == 12 {
            return read(d, s, k, from, count);
        }
        let lent = if self.random.chance(10) { count + 1 } else { count };
        let bytes = (0..lent).map(|_| self.random.between(1, 255) as u8).collect();
        Call::Write { d, s, k, from, count, bytes }
    }

    fn enter(&mut self, t: &Drawn) -> Call {
        let (d, g) = self.entry(t, &[Kind::Gate]);
        let gate_label = self.world.objects.get(&g).map_or(t.label, |object| object.label);
        let label_r = match self.random.below(4) {
            0 => self.owners_label(t),
            1 => gate_label.to_bytes(),
            _ => floor_of(&t.label, &gate_label).to_bytes(),
        };
        let clearance_r = self.clearance(t);
        let label_v = if self.random.chance(70) { t.label.to_bytes() } else { self.owners_label(t) };
        let output_len = if self.random.chance(7) { 31 } else { 32 };
        Call::EnterGate { d, g, label_r, clearance_r, label_v, output_len }
    }

    fn caller(&mut self) -> Drawn {
        let threads = self.of_kinds(&[Kind::Thread]);
        if threads.is_empty() || self.random.chance(6) {
            return Drawn::plain(self.any_id());
        }
        let id = self.random.pick(&threads);
        self.drawn(id)
    }

    fn drawn(&self, id: u64) -> Drawn {
        match self.world.objects.get(&id) {
            Some(Object { label, body: Body::Thread { clearance }, .. }) => {
                Drawn { id, label: *label, clearance: *clearance }
            }
            _ => Drawn::plain(id),
        }
    }

    fn of_kinds(&self, kinds: &[Kind]) -> Vec<u64> {
        let suits = |kind| kinds.contains(&kind);
        self.world.objects.iter().filter(|(_, object)| suits(object.kind())).map(|(id, _)| *id).collect()
    }

    fn any_id(&mut self) -> u64 {
        let live: Vec<u64> = self.world.objects.keys().copied().collect();
        let past = self.world.next;
        let low = past.max(12) - 12;
        match self.random.below(4) {
            0 => self.random.between(low, past + 1),
            1 => 0,
            _ => self.random.pick(&live),
        }
    }

    /// Mostly a container that the caller may read.
    fn container_of(&mut self, t: &Drawn) -> u64 {
        let all = self.world.containers();
        let label = |id: &u64| self.world.objects[id].label;
        let readable: Vec<u64> = all.iter().copied().filter(|id| may_read(&t.label, &label(id))).collect();
        match self.random.below(20) {
            0 | 1 => self.random.pick(&all),
            2 => self.any_id(),
            _ if readable.is_empty() => self.any_id(),
            _ => self.random.pick(&readable),
        }
    }

    /// Mostly an entry that exists, of a kind that suits (any, if none is named).
    fn entry(&mut self, t: &Drawn, kinds: &[Kind]) -> (u64, u64) {
        let links: Vec<(u64, u64)> = self.world.links.iter().copied().collect();
        let kind = |o: &u64| self.world.objects[o].kind();
        let suiting: Vec<(u64, u64)> =
            links.iter().copied().filter(|(_, o)| kinds.is_empty() || kinds.contains(&kind(o))).collect();
        match self.random.below(10) {
            0 => (self.container_of(t), self.any_id()),
            n if n > 1 && !suiting.is_empty() => self.random.pick(&suiting),
            _ if !links.is_empty() => self.random.pick(&links),
            _ => (self.container_of(t), self.any_id()),
        }
    }

    fn description(&mut self) -> Vec<u8> {
        if self.random.chance(4) {
            vec![1, 2]
        } else {
            zeros32()
        }
    }

    fn length(&mut self) -> u64 {
        let usual = [0, 1, 2, 5, 62, 63, 64, 65, 66, 67, 128, 129, 130];
        let drawn = self.random.between(0, self.longest);
        if self.random.chance(80) {
            self.random.pick(&usual)
        } else {
            drawn
        }
    }

    /// A label without star for a container or segment.
    fn plain_label(&mut self, t: &Drawn) -> Vec<u8> {
        let label = match self.random.below(10) {
            0..=4 => self.without_star(&t.label),
            5 => Label::plain(LEVEL_1),
            6 => Label::plain(LEVEL_2),
            7 => self.odd_label(),
            _ => {
                let near = self.someones_label();
                self.without_star(&near)
            }
        };
        self.lend(label)
    }

    /// A label that may hold star.
    fn owners_label(&mut self, t: &Drawn) -> Vec<u8> {
        let label = match self.random.below(10) {
            0..=3 => t.label,
            4 | 5 => self.without_star(&t.label),
            6 => Label::plain(LEVEL_1),
            7 => Label::plain(LEVEL_2),
            8 => self.someones_label(),
            _ => self.odd_label(),
        };
        self.lend(label)
    }

    fn clearance(&mut self, t: &Drawn) -> Vec<u8> {
        let clearance = match self.random.below(10) {
            0..=3 => t.clearance,
            4 | 5 => Label::plain(LEVEL_2),
            6 => Label::plain(LEVEL_1),
            7 => self.without_star(&t.label),
            8 => self.someones_label(),
            _ => self.odd_label(),
        };
        self.lend(clearance)
    }

    fn someones_label(&mut self) -> Label {
        let live: Vec<u64> = self.world.objects.keys().copied().collect();
        let id = self.random.pick(&live);
        self.world.objects[&id].label
    }

    /// Each star becomes some level, or goes.
    fn without_star(&mut self, label: &Label) -> Label {
        let mut pairs = Vec::new();
        for (category, code) in label.pairs() {
            let new = if code == STAR { self.random.between(1, 4) as u8 } else { code };
            if new != label.default {
                pairs.push((category, new));
            }
        }
        Label::of(label.default, &pairs)
    }

    /// Few pairs of any codes, at categories that somebody names or that nobody does.
    fn odd_label(&mut self) -> Label {
        let default = self.random.pick(&[LEVEL_0, LEVEL_1, LEVEL_1, LEVEL_1, LEVEL_2, LEVEL_2, LEVEL_3]);
        let mut named: Vec<u64> =
            self.world.objects.values().flat_map(|object| object.label.categories()).collect();
        named.push(3);
        named.push(self.world.next);
        named.sort_unstable();
        named.dedup();
        let count = self.random.below(3).min(named.len() as u64) as usize;
        let mut label = Label::plain(default);
        for category in self.random.choose(&named, count) {
            let code = self.random.between(0, 4) as u8;
            if code != default {
                label = label.insert(category, code).expect("few pairs");
            }
        }
        label
    }

    /// Mostly as it is; now and then too short, or with a default or a pair that is none.
    fn lend(&mut self, mut label: Label) -> Vec<u8> {
        match self.random.below(60) {
            0 => return vec![label.default],
            1 => label.default = self.random.pick(&[STAR, HIGH_STAR]),
            2 => label.words[0] = self.random.pick(&[word(0, 3), word(2, 7), word(self.world.next, 3)]),
            3 => label.words.swap(0, 1),
            _ => {}
        }
        label.to_bytes()
    }
}

/// floor(X, Y) as a label, leaving out what has no room.
fn floor_of(x: &Label, y: &Label) -> Label {
    let mut result = Label::plain(floor(x.default, y.default));
    let mut categories = x.categories();
    categories.extend(y.categories());
    categories.sort_unstable();
    categories.dedup();
    for category in categories {
        let code = floor(x.level(category), y.level(category));
        if code != result.default {
            result = result.insert(category, code).unwrap_or(result);
        }
    }
    result
}
