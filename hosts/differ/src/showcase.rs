//! A small world in which each of the sixteen calls is granted to one thread, to be spoilt one argument at a time.

use crate::bench::Bench;
use flytewood_model::ask::*;
use flytewood_model::labels::*;
use flytewood_model::model::{Call, GRANTED};

pub const CALLER: u64 = 101;
const ROOT: u64 = 100;
const OWNED: u64 = 102;
pub const CONTAINER: u64 = 103;
pub const SEGMENT: u64 = 104;
const GATE: u64 = 106;
const FIXED_SEGMENT: u64 = 107;
const THREAD: u64 = 109;

fn one() -> Label {
    Label::plain(LEVEL_1)
}

fn owner() -> Label {
    Label::of(LEVEL_1, &[(OWNED, STAR)])
}

fn clearance() -> Label {
    Label::of(LEVEL_2, &[(OWNED, LEVEL_3)])
}

/// The calls 102 to 109 that make the world.
fn building() -> Vec<Call> {
    vec![
        category(),
        container(ROOT, one(), 0, 40),
        segment(CONTAINER, one(), 5),
        resize(CONTAINER, SEGMENT, 100),
        gate_with(CONTAINER, owner(), clearance(), 77, (1..=32).collect()),
        segment(ROOT, one(), 3),
        fix(ROOT, FIXED_SEGMENT),
        thread(ROOT, one(), Label::plain(LEVEL_2)),
    ]
}

pub fn bench() -> Result<Bench, String> {
    let mut bench = Bench::start(ROOT, 0x5A)?;
    for call in building() {
        let outcome = bench.step(CALLER, &call)?;
        if outcome.answer != GRANTED {
            return Err(format!("the showcase counts on {:?}: {}", call, outcome.answer));
        }
    }
    Ok(bench)
}

/// Calls 1 to 16, each granted in this world.
pub fn calls() -> Vec<Call> {
    vec![
        category(),
        set_label(owner()),
        set_clearance(clearance()),
        container(CONTAINER, one(), 1, 3),
        segment(CONTAINER, one(), 2),
        gate(CONTAINER, owner(), clearance(), 5),
        thread(CONTAINER, owner(), clearance()),
        unreference(ROOT, THREAD),
        link(ROOT, FIXED_SEGMENT, CONTAINER),
        fix(CONTAINER, SEGMENT),
        move_quota(ROOT, CONTAINER, 3),
        read(CONTAINER, SEGMENT, 0, 3, 10),
        write(CONTAINER, SEGMENT, 0, 3, &[7; 10]),
        resize(CONTAINER, SEGMENT, 150),
        enter(CONTAINER, GATE, owner(), clearance(), owner()),
        look(CONTAINER, SEGMENT),
    ]
}
