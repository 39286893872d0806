//! The comparison itself is tried: where the two sides are made to differ, it must say so.

use crate::bench::{need, Bench, Checked};
use crate::showcase::{self, CALLER, CONTAINER, SEGMENT};
use flytewood_model::ask::{look, read, resize};
use flytewood_model::book::{set, MASK, OWNER};
use flytewood_model::model::{Body, Call};

type Case = (&'static str, fn(&mut Bench), fn() -> Call);

fn a_read() -> Call {
    read(CONTAINER, SEGMENT, 0, 0, 64)
}

fn a_look() -> Call {
    look(CONTAINER, SEGMENT)
}

const CASES: [Case; 9] = [
    ("a byte of the area", |bench| first_byte(bench, 1), a_read),
    ("a byte of the area, by another call", |bench| first_byte(bench, 1), a_look),
    ("the model's quota", |bench| object(bench, CONTAINER).quota += 1, a_look),
    ("the model's description", |bench| object(bench, SEGMENT).description[5] ^= 1, a_look),
    ("the model's links", |bench| bench.world.links.retain(|link| *link != (CONTAINER, SEGMENT + 2)), a_look),
    ("the model's next number", |bench| bench.world.next += 1, a_look),
    ("the model's bytes", |bench| bytes(bench)[99] ^= 1, a_look),
    ("two rows changed about", |bench| bench.positions.rows.swap(3, 4), a_look),
    (
        "a block that is another's",
        |bench| set(bench.book.bytes_mut(), OWNER, 9, 4),
        || resize(CONTAINER, SEGMENT, 200),
    ),
];

fn first_byte(bench: &mut Bench, value: u8) {
    let block = bench.positions.block_of(SEGMENT, 0).expect("the segment's first block");
    bench.area.bytes_mut()[block * 64] = value;
}

fn object(bench: &mut Bench, id: u64) -> &mut flytewood_model::model::Object {
    bench.world.objects.get_mut(&id).expect("an object of the showcase")
}

fn bytes(bench: &mut Bench) -> &mut Vec<u8> {
    match &mut object(bench, SEGMENT).body {
        Body::Segment { bytes, .. } => bytes,
        _ => panic!("a segment"),
    }
}

/// How many differences were made, each of which was seen.
pub fn all_seen() -> Result<usize, String> {
    let bench = showcase::bench()?;
    for (what, tamper, call) in CASES.iter() {
        let mut other = bench.clone();
        tamper(&mut other);
        need(other.step(CALLER, &call()).is_err(), || format!("the comparison does not see {}", what))?;
    }
    unused_numbers_are_watched(&bench)?;
    Ok(CASES.len() + 1 + overruns_seen(&bench)?)
}

/// Without guards it is a memory checker that sees a write around the book.
fn overruns_seen(bench: &Bench) -> Result<usize, String> {
    if !bench.book.has_guards() {
        return Ok(0);
    }
    for before in [true, false].iter() {
        need(!bench.book.overrun(*before).intact(), || "a write around the book is not seen".to_string())?;
    }
    Ok(2)
}

/// What is unused is not compared with the world, so a change there must show as a change.
fn unused_numbers_are_watched(bench: &Bench) -> Checked {
    let old = bench.book.bytes().to_vec();
    let mut new = old.clone();
    set(&mut new, MASK, 200, 1);
    need(bench.sees_a_stray_change(&old, &new), || "the comparison does not see an unused number".to_string())
}
