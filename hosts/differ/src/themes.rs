//! The histories' openings: each reaches something that calls drawn at random hardly would.

use crate::bench::{need, Bench, Checked};
use crate::run::{Run, Tally};
use flytewood_model::ask::*;
use flytewood_model::labels::*;
use flytewood_model::model::{Call, Kind, LAST_FIRST_NUMBER, MASK_FORBIDS, NOT_ENOUGH_SPARE};
use flytewood_model::random::Random;

type Opening = fn(&mut Run) -> Checked;

const THEMES: [(&str, Opening); 14] = [
    ("mixture", nothing),
    ("the root filled", fill_the_root),
    ("256 objects", crowd),
    ("a chain of containers", chain),
    ("segments linked often", share),
    ("labels of eight pairs", eight_pairs),
    ("gates that pass ownership", pass_ownership),
    ("one large segment", large_segment),
    ("a tree cut in parts", cut_subtrees),
    ("a host that scribbles", scribble),
    ("the numbers end", nothing),
    ("labels apart", apart),
    ("links from before W2", old_links),
    ("containers of quota 0", defaults),
];

/// The history of this seed; gives the bench as it stands after it.
pub fn history(seed: u64, tally: &mut Tally) -> Result<Bench, String> {
    let (name, opening) = THEMES[(seed % THEMES.len() as u64) as usize];
    let told = |error: String| format!("history {} ({}): {}", seed, name, error);
    let first = first_number(seed, name);
    let mut run = Run::start(first, seed, tally).map_err(told)?;
    opening(&mut run).map_err(told)?;
    run.finish().map_err(told)?;
    Ok(run.bench)
}

/// Low, middling or high; for the numbers to end, so high that they do within the history.
fn first_number(seed: u64, name: &str) -> u64 {
    let mut random = Random::new(!seed);
    if name == "the numbers end" {
        return LAST_FIRST_NUMBER - random.below(300);
    }
    match random.below(5) {
        0 => 1,
        1 => 100,
        2 => random.between(2, 1 << 20),
        3 => random.between(1 << 32, LAST_FIRST_NUMBER - 1000),
        _ => LAST_FIRST_NUMBER - random.between(500, 5000),
    }
}

fn one() -> Label {
    Label::plain(LEVEL_1)
}

fn two() -> Label {
    Label::plain(LEVEL_2)
}

fn nothing(_: &mut Run) -> Checked {
    Ok(())
}

fn root_spare(run: &Run) -> u64 {
    run.bench.world.spare(run.root)
}

/// Objects of any quota until not a unit is left.
fn fill_the_root(run: &mut Run) -> Checked {
    while root_spare(run) > 0 {
        let quota = run.random.between(1, 40).min(root_spare(run));
        let call = match run.random.below(3) {
            0 => container(run.root, one(), 0, quota),
            1 => segment(run.root, one(), quota),
            _ => thread(run.root, one(), two()),
        };
        run.grant(run.init, call)?;
    }
    Ok(())
}

/// An object of one unit, of any kind.
fn small(random: &mut Random, d: u64) -> Call {
    match random.below(4) {
        0 => thread(d, one(), two()),
        1 => gate(d, one(), two(), 7),
        2 => segment(d, one(), 1),
        _ => container(d, one(), 0, 1),
    }
}

fn crowd(run: &mut Run) -> Checked {
    while root_spare(run) > 0 {
        let call = small(&mut run.random, run.root);
        run.grant(run.init, call)?;
    }
    Ok(())
}

/// Each container in the one before; then it is cut somewhere, and grows and is cut again.
fn chain(run: &mut Run) -> Checked {
    let depth = run.random.between(120, 254);
    let mut links = Vec::new();
    let mut d = run.root;
    for quota in (255 - depth..255).rev() {
        let inner = run.grant(run.init, container(d, one(), 0, quota.max(1)))?;
        links.push((d, inner));
        d = inner;
    }
    let (d, inner) = links[run.random.below(15) as usize];
    run.grant(run.init, unreference(d, inner))?;
    Ok(())
}

/// Fourteen fixed segments, each in sixteen containers and in the root: everything is full, with 255 links.
fn share(run: &mut Run) -> Checked {
    let (root, init) = (run.root, run.init);
    let mut segments = Vec::new();
    for _ in 0..14 {
        let made = run.grant(init, segment(root, one(), 1))?;
        run.grant(init, fix(root, made))?;
        segments.push(made);
    }
    let mut containers = Vec::new();
    for _ in 0..16 {
        containers.push(run.grant(init, container(root, one(), 0, 15))?);
    }
    for d in &containers {
        for s in &segments {
            run.grant(init, link(root, *s, *d))?;
        }
    }
    let cut = run.random.pick(&containers);
    run.grant(init, unreference(root, cut))?;
    Ok(())
}

/// A thread that owns eight categories, and objects whose labels name all of them.
fn eight_pairs(run: &mut Run) -> Checked {
    let (root, init) = (run.root, run.init);
    let mut own = Vec::new();
    for _ in 0..8 {
        own.push(run.grant(init, category())?);
    }
    run.take(init, category())?;
    let levels = [LEVEL_0, LEVEL_2, LEVEL_3];
    let pairs: Vec<(u64, u8)> = own.iter().map(|c| (*c, run.random.pick(&levels))).collect();
    let secret = Label::of(LEVEL_1, &pairs);
    let stars = Label::of(LEVEL_1, &own.iter().map(|c| (*c, STAR)).collect::<Vec<(u64, u8)>>());
    let high = Label::of(LEVEL_2, &own.iter().map(|c| (*c, LEVEL_3)).collect::<Vec<(u64, u8)>>());
    let d = run.grant(init, container(root, secret, 0, 60))?;
    let s = run.grant(init, segment(d, secret, 9))?;
    run.grant(init, resize(d, s, 200))?;
    run.grant(init, gate(root, stars, high, 3))?;
    run.grant(init, thread(root, stars, high))?;
    let reader = run.grant(init, thread(d, secret, high))?;
    run.take(reader, read(d, s, 1, 0, 64))?;
    Ok(())
}

/// A thread without categories enters a gate of one that has them, and makes use of what it got.
fn pass_ownership(run: &mut Run) -> Checked {
    let (root, init) = (run.root, run.init);
    let count = run.random.between(1, 4) as usize;
    let mut own = Vec::new();
    for _ in 0..count {
        own.push(run.grant(init, category())?);
    }
    let stars = Label::of(LEVEL_1, &own.iter().map(|c| (*c, STAR)).collect::<Vec<(u64, u8)>>());
    let high = Label::of(LEVEL_2, &own.iter().map(|c| (*c, LEVEL_3)).collect::<Vec<(u64, u8)>>());
    let secret = Label::of(LEVEL_1, &[(own[0], LEVEL_3)]);
    let d = run.grant(init, container(root, secret, 0, 30))?;
    let closure: Vec<u8> = (0..32).map(|_| run.random.draw() as u8).collect();
    let entry = run.random.draw();
    let g = run.grant(init, gate_with(root, stars, high, entry, closure))?;
    let guest = run.grant(init, thread(root, one(), two()))?;
    run.take(guest, look(d, d))?;
    run.take(guest, enter(root, g, stars, high, secret))?;
    run.grant(guest, enter(root, g, stars, high, one()))?;
    run.grant(guest, segment(d, secret, 5))?;
    Ok(())
}

/// As many blocks as there can be beside the root and a thread.
fn large_segment(run: &mut Run) -> Checked {
    let (root, init) = (run.root, run.init);
    let s = run.grant(init, segment(root, one(), 254))?;
    run.grant(init, resize(root, s, 16_192))?;
    run.take(init, resize(root, s, 16_193))?;
    for k in [0, 1, 100, 251, 252].iter() {
        let bytes: Vec<u8> = (0..64).map(|_| run.random.draw() as u8).collect();
        run.grant(init, write(root, s, *k, 0, &bytes))?;
        run.grant(init, read(root, s, *k, 3, 61))?;
    }
    run.take(init, read(root, s, 253, 0, 0))?;
    let length = run.random.between(0, 16_191);
    run.grant(init, resize(root, s, length))?;
    run.grant(init, resize(root, s, 16_192))?;
    let small = run.random.between(0, 300);
    run.grant(init, resize(root, s, small))?;
    run.take(init, move_quota(root, s, -200))?;
    Ok(())
}

/// Trees of a few levels with segments of some bytes, linked here and there; one is cut after the other.
fn cut_subtrees(run: &mut Run) -> Checked {
    let (root, init) = (run.root, run.init);
    for _ in 0..4 {
        let top = run.grant(init, container(root, one(), 0, 40))?;
        let outside = run.grant(init, segment(root, one(), 3))?;
        run.grant(init, resize(root, outside, 100))?;
        run.grant(init, fix(root, outside))?;
        let mid = run.grant(init, container(top, one(), 0, 30))?;
        run.grant(init, link(root, outside, mid))?;
        for d in [top, mid].iter() {
            let inside = run.grant(init, segment(*d, one(), 4))?;
            run.grant(init, resize(*d, inside, 130))?;
            run.grant(init, write(*d, inside, 1, 60, &[9, 9, 9, 9]))?;
            run.grant(init, thread(*d, one(), two()))?;
        }
        if run.random.chance(50) {
            run.grant(init, unreference(top, mid))?;
        }
        run.grant(init, unreference(root, top))?;
        run.grant(init, read(root, outside, 1, 0, 36))?;
    }
    let own = run.grant(init, thread(root, one(), two()))?;
    run.grant(own, unreference(root, own))?;
    Ok(())
}

fn scribble(run: &mut Run) -> Checked {
    run.scribbling = true;
    let (root, init) = (run.root, run.init);
    for _ in 0..3 {
        let random = &mut run.random;
        run.bench.scribble(|| random.draw() as u8);
        let s = run.grant(init, segment(root, one(), 9))?;
        let length = run.random.between(1, 500);
        run.grant(init, resize(root, s, length))?;
        run.grant(init, resize(root, s, 512))?;
        run.grant(init, read(root, s, length / 64, 0, 64))?;
    }
    Ok(())
}

/// Threads whose labels keep them from each other's containers, so that label conditions fail in every way.
fn apart(run: &mut Run) -> Checked {
    let (root, init) = (run.root, run.init);
    let (c, e) = (run.grant(init, category())?, run.grant(init, category())?);
    for (category, level) in [(c, LEVEL_3), (c, LEVEL_0), (e, LEVEL_3), (e, LEVEL_0)].iter() {
        let label = Label::of(LEVEL_1, &[(*category, *level)]);
        let d = run.grant(init, container(root, label, 0, 40))?;
        let clearance = Label::of(LEVEL_2, &[(*category, LEVEL_3)]);
        run.grant(init, thread(root, label, clearance))?;
        run.grant(init, thread(d, label, clearance))?;
        let s = run.grant(init, segment(d, label, 5))?;
        run.grant(init, resize(d, s, 70))?;
        run.grant(init, gate(d, Label::of(LEVEL_1, &[(*category, STAR)]), clearance, 5))?;
        let mask = run.random.below(16);
        run.grant(init, container(d, label, mask, 8))?;
    }
    let threads = run.bench.world.objects.values().filter(|object| object.kind() == Kind::Thread).count();
    need(threads == 9, || format!("{} threads stand apart", threads))
}

/// RULES 12.8: "Links made before that stay, and a book that holds them is sound: .. Every call goes on with it
/// by the same rules, .." The links are added to the world, and it is laid out anew.
fn old_links(run: &mut Run) -> Checked {
    let (root, init) = (run.root, run.init);
    let own = run.grant(init, category())?;
    let owner = Label::of(LEVEL_1, &[(own, STAR)]);
    let masked = run.grant(init, container(root, one(), Kind::Segment.mask_bit(), 60))?;
    let below = run.grant(init, container(masked, one(), 0, 20))?;
    let open = run.grant(init, container(root, one(), 0, 20))?;
    let mut old = Vec::new();
    for _ in 0..3 {
        let s = run.grant(init, segment(root, one(), 4))?;
        run.grant(init, fix(root, s))?;
        run.refuse(init, link(root, s, masked), MASK_FORBIDS)?;
        old.push(s);
    }
    let loose = run.grant(init, segment(root, one(), 4))?;
    run.with_links(&[(masked, old[0]), (masked, old[1]), (below, old[0])])?;
    let (s, other) = (old[0], old[2]);
    run.refuse(init, link(root, other, masked), MASK_FORBIDS)?;
    run.refuse(init, link(root, s, masked), MASK_FORBIDS)?;
    run.refuse(init, link(root, loose, masked), MASK_FORBIDS)?;
    run.refuse(init, segment(masked, one(), 1), MASK_FORBIDS)?;
    let g = run.grant(init, gate(masked, owner, two(), 3))?;
    let guest = run.grant(init, thread(masked, one(), two()))?;
    run.grant(init, container(masked, one(), 0, 5))?;
    run.grant(init, fix(masked, s))?;
    run.grant(init, resize(masked, s, 70))?;
    run.grant(init, write(masked, s, 1, 0, &[8, 9]))?;
    run.grant(init, read(masked, s, 1, 0, 6))?;
    run.grant(init, look(masked, s))?;
    run.grant(init, move_quota(masked, below, 2))?;
    run.grant(init, link(masked, s, open))?;
    run.grant(guest, enter(masked, g, owner, two(), one()))?;
    run.grant(guest, set_label(one()))?;
    run.grant(guest, set_clearance(one()))?;
    run.grant(guest, segment(open, one(), 2))?;
    run.grant(init, category())?;
    run.grant(init, unreference(masked, old[1]))?;
    run.refuse(init, link(root, old[1], masked), MASK_FORBIDS)
}

/// RULES 3.7: ".. 0 stands for a default: 8 for a container, .." In the root and in containers that hold this and
/// that: where 7 units are left it is refused, where 8 are it takes all of them.
fn defaults(run: &mut Run) -> Checked {
    let (root, init) = (run.root, run.init);
    for _ in 0..3 {
        let held = run.random.between(1, 30);
        let d = run.grant(init, container(root, one(), 0, 1 + held + 7))?;
        run.grant(init, segment(d, one(), held))?;
        last_default(run, root, d)?;
    }
    let old = run.grant(init, container(root, one(), 0, CONTAINER_QUOTA_BEFORE_W7))?;
    run.grant(init, container(old, one(), 0, 0))?;
    last_default(run, root, old)?;
    let rest = root_spare(run) - 7;
    let d = run.grant(init, container(root, one(), 0, rest))?;
    run.refuse(init, container(root, one(), 0, 0), NOT_ENOUGH_SPARE)?;
    run.grant(init, move_quota(root, d, -1))?;
    run.grant(init, container(root, one(), 0, 0))?;
    need(root_spare(run) == 0, || "the root has units left".to_string())
}

/// A container of `parent` with 7 units left, then with 8.
fn last_default(run: &mut Run, parent: u64, d: u64) -> Checked {
    run.refuse(run.init, container(d, one(), 0, 0), NOT_ENOUGH_SPARE)?;
    run.grant(run.init, move_quota(parent, d, 1))?;
    let inner = run.grant(run.init, container(d, one(), 0, 0))?;
    run.refuse(run.init, segment(d, one(), 1), NOT_ENOUGH_SPARE)?;
    for _ in 0..7 {
        let call = small(&mut run.random, inner);
        run.grant(run.init, call)?;
    }
    let call = small(&mut run.random, inner);
    run.refuse(run.init, call, NOT_ENOUGH_SPARE)
}
