//! The calls that are timed: each granted, on the same kind of book at every size.

use crate::asking::Areas;
use crate::books::*;
use flytewood_model::ask;
use flytewood_model::model::{Call, BEYOND_THE_LENGTH, GRANTED, NOT_ENOUGH_SPARE};

pub const SIZES: [usize; 4] = [2, 16, 64, 256];
/// The units of the container in a small case: more than the call that is timed needs.
const SMALL_ROOM: u64 = 16;

/// A call on a book; `objects` is how many it has when the call comes in.
pub struct Case {
    pub name: &'static str,
    pub areas: Areas,
    pub objects: usize,
    pub call: Call,
    pub answer: u64,
}

/// The rows of the table, in their order.
pub fn cases(size: usize) -> Vec<Case> {
    if size == 2 {
        small_cases()
    } else {
        large_cases(size)
    }
}

fn case(name: &'static str, book: &Made, call: Call) -> Case {
    Case { name, areas: book.areas.clone(), objects: book.objects, call, answer: GRANTED }
}

/// 256 objects fill all units, so that a call which needs a unit more is asked where there are 255; there the unit over
/// is in the root, or in the segment that is read and written.
fn large_cases(size: usize) -> Vec<Case> {
    let full = size == 256;
    let units = if full { Units::Tight } else { Units::Roomy };
    let book = made(size, units);
    let before = made(size - 1, units);
    let bytes = if full { made(size - 1, Units::OneBlock) } else { book.clone() };
    let mut list = calls_on_threads(&book);
    list.extend(creates(&before, if full { ROOT } else { before.container }));
    list.extend(calls_on_links(&book, &before, &bytes));
    list.extend(calls_on_bytes(&bytes));
    list.extend(calls_on_gates(&book));
    list.extend(refusals(&book, &bytes));
    list
}

fn calls_on_threads(book: &Made) -> Vec<Case> {
    vec![
        case("1 category", book, ask::category()),
        case("2 set label", book, ask::set_label(callers_label())),
        case("3 set clearance", book, ask::set_clearance(callers_clearance())),
    ]
}

fn creates(book: &Made, d: u64) -> Vec<Case> {
    vec![
        case("4 container", book, ask::container(d, some_label(3), 0, 1)),
        case("5 segment", book, ask::segment(d, some_label(3), 1)),
        case("6 gate", book, ask::gate(d, some_owners_label(2), some_clearance(2), 7)),
        case("7 thread", book, ask::thread(d, some_owners_label(2), some_clearance(2))),
    ]
}

/// Cut are a segment, and a container with all that is in it, three groups deep.
fn calls_on_links(book: &Made, before: &Made, bytes: &Made) -> Vec<Case> {
    vec![
        case("8 unreference", bytes, ask::unreference(bytes.container, bytes.segment)),
        case("8 with a tree", book, ask::unreference(ROOT, book.top)),
        case("9 link", before, ask::link(before.container, before.fixed, ROOT)),
        case("10 fix quota", book, ask::fix(book.container, book.segment)),
        case("11 move", before, ask::move_quota(ROOT, before.top, 1)),
    ]
}

fn calls_on_bytes(book: &Made) -> Vec<Case> {
    vec![
        case("12 read", book, ask::read(book.container, book.segment, 0, 8, 48)),
        case("13 write", book, ask::write(book.container, book.segment, 0, 8, &[7; 48])),
        case("14 resize", book, ask::resize(book.container, book.segment, 10)),
    ]
}

fn calls_on_gates(book: &Made) -> Vec<Case> {
    let (label, clearance) = (callers_label(), callers_clearance());
    vec![
        case("15 enter gate", book, ask::enter(book.container, book.gate, label, clearance, label)),
        case("16 look", book, ask::look(book.container, book.thread)),
    ]
}

fn refusals(book: &Made, bytes: &Made) -> Vec<Case> {
    let beyond = ask::write(bytes.container, bytes.segment, 9, 0, &[7; 8]);
    let too_much = ask::segment(ROOT, some_label(3), 255);
    vec![
        Case { answer: BEYOND_THE_LENGTH, ..case("13, refused 11", bytes, beyond) },
        Case { answer: NOT_ENOUGH_SPARE, ..case("5, refused 13", book, too_much) },
    ]
}

/// Just after Start, with the fewest objects more that a granted call needs.
fn small_cases() -> Vec<Case> {
    let (l, c) = (plain, plain_clearance);
    let none: &[Call] = &[];
    // The first object that is made has the first number.
    let s = CALLER + 1;
    let segment = [ask::segment(ROOT, l(), 2), ask::resize(ROOT, s, 64)];
    let linkable = [ask::segment(ROOT, l(), 2), ask::fix(ROOT, s), ask::container(ROOT, l(), 0, SMALL_ROOM)];
    let container = [ask::container(ROOT, l(), 0, SMALL_ROOM)];
    let gate = [ask::gate(ROOT, l(), c(), 7)];
    let new = |name, calls: &[Call], call| small(name, calls, call, GRANTED);
    vec![
        new("1 category", none, ask::category()),
        new("2 set label", none, ask::set_label(l())),
        new("3 set clearance", none, ask::set_clearance(c())),
        new("4 container", none, ask::container(ROOT, l(), 0, 1)),
        new("5 segment", none, ask::segment(ROOT, l(), 1)),
        new("6 gate", none, ask::gate(ROOT, l(), c(), 7)),
        new("7 thread", none, ask::thread(ROOT, l(), c())),
        new("8 unreference", &segment, ask::unreference(ROOT, s)),
        new("8 with a tree", &container, ask::unreference(ROOT, s)),
        new("9 link", &linkable, ask::link(ROOT, s, s + 2)),
        new("10 fix quota", &segment, ask::fix(ROOT, s)),
        new("11 move", &container, ask::move_quota(ROOT, s, 1)),
        new("12 read", &segment, ask::read(ROOT, s, 0, 8, 48)),
        new("13 write", &segment, ask::write(ROOT, s, 0, 8, &[7; 48])),
        new("14 resize", &segment, ask::resize(ROOT, s, 10)),
        new("15 enter gate", &gate, ask::enter(ROOT, s, l(), c(), l())),
        new("16 look", none, ask::look(ROOT, CALLER)),
        small("13, refused 11", &segment, ask::write(ROOT, s, 9, 0, &[7; 8]), BEYOND_THE_LENGTH),
        small("5, refused 13", none, ask::segment(ROOT, l(), 255), NOT_ENOUGH_SPARE),
    ]
}

fn small(name: &'static str, calls: &[Call], call: Call, answer: u64) -> Case {
    let (areas, values) = started_with(calls);
    let objects = 2 + values.iter().filter(|value| **value != 0).count();
    Case { name, areas, objects, call, answer }
}
