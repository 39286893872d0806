//! Kernels that leak, made around the archive's calls; the comparison must find each of them. They know no v.

use crate::arguments::numbers;
use crate::ask::Given;
use flytewood_model::book::*;
use flytewood_model::labels::{may_read, Label};
use flytewood_model::model::*;

/// A call that the archive has answered, and everything that a leak may look at or change.
pub struct Leaking<'a> {
    pub before: &'a World,
    pub caller: u64,
    pub call: &'a Call,
    pub given: &'a mut Given,
    pub old_book: &'a [u8],
    pub old_area: &'a [u8],
    pub book: &'a mut [u8],
    pub area: &'a mut [u8],
}

/// What it does in words, and what it makes of a call.
pub struct Leak(pub &'static str, pub fn(&mut Leaking));

pub static LEAKS: [Leak; 15] = [
    Leak("7, not 5, for a container that is there but unreadable", seven_for_unreadable),
    Leak("a look shows the label of every thread", labels_of_all_threads),
    Leak("a create needs room in a store of 40 rows", store_of_few_rows),
    Leak("a resize needs room in a store of 12 blocks", store_of_few_blocks),
    Leak("a read shows a byte of what its caller may not read", byte_of_another_segment),
    Leak("a refused call's value counts the live objects", refusals_count_objects),
    Leak("the root's description counts the live objects", root_counts_objects),
    Leak("a create leaves its number on the container above", creates_show_above),
    Leak("a link leaves its number on the segment", links_show_on_the_segment),
    Leak("an unreference's value counts what it frees", unreference_counts),
    Leak("units taken back: 13 is told before 7", spare_before_labels),
    Leak("a refused call keeps its number for the next one", refusals_take_no_number),
    Leak("new bytes are what the area held", new_bytes_are_not_cleared),
    Leak("a container of nine objects or more cannot be unreferenced", large_ones_stay),
    Leak("a create's value is one past the highest live id", past_the_highest_id),
];

impl Leaking<'_> {
    fn granted(&self) -> bool {
        self.given.answer == GRANTED
    }

    fn label(&self) -> Option<Label> {
        self.before.objects.get(&self.caller).map(|object| object.label)
    }

    /// Whether the caller may not read what is there.
    fn hidden(&self, object: &Object) -> bool {
        self.label().map_or(false, |label| !may_read(&label, &object.label))
    }

    fn is_create(&self) -> bool {
        (4..=7).contains(&self.call.number())
    }

    /// Nothing was done but that the number is taken.
    fn refuse(&mut self, answer: u64) {
        let next = get(self.book, NEXT, 0);
        self.book.copy_from_slice(self.old_book);
        self.area.copy_from_slice(self.old_area);
        set(self.book, NEXT, 0, next);
        self.given.answer = answer;
        self.given.value = 0;
    }

    fn row_of(&self, id: u64) -> Option<usize> {
        rows_in_use(self.book).into_iter().find(|row| get(self.book, ID, *row) == id)
    }

    /// Writes into the first byte of an object's description.
    fn mark(&mut self, id: u64, value: u64) {
        if let Some(row) = self.row_of(id) {
            set(self.book, DESCRIPTION, row * DESCRIPTION_LEN, value % 256);
        }
    }
}

/// The containers that a call names: its first number, and the last of a link.
pub fn containers_named(call: &Call) -> Vec<u64> {
    let mut call = call.clone();
    let all: Vec<u64> = numbers(&mut call).into_iter().map(|number| *number).collect();
    match call {
        Call::LinkSegment { .. } => vec![all[0], all[2]],
        _ => all.first().copied().into_iter().collect(),
    }
}

fn seven_for_unreadable(leaking: &mut Leaking) {
    let named = containers_named(leaking.call);
    let there = named.iter().filter_map(|d| leaking.before.objects.get(d));
    let mut unreadable = there.filter(|d| d.kind() == Kind::Container && leaking.hidden(d));
    if leaking.given.answer == NO_ENTRY && unreadable.next().is_some() {
        leaking.given.answer = LABEL_CONDITION;
    }
}

fn labels_of_all_threads(leaking: &mut Leaking) {
    if let (true, Call::Look { o, .. }) = (leaking.granted(), leaking.call) {
        let label = leaking.before.objects[o].label;
        let output = &mut leaking.given.output;
        output[33] = 1;
        output[34] = label.default;
        output[40..].copy_from_slice(&label.to_bytes()[1..]);
    }
}

fn store_of_few_rows(leaking: &mut Leaking) {
    if leaking.granted() && leaking.is_create() && leaking.before.objects.len() >= 40 {
        leaking.refuse(NOT_ENOUGH_SPARE);
    }
}

fn store_of_few_blocks(leaking: &mut Leaking) {
    let resized = matches!(leaking.call, Call::Resize { .. });
    if leaking.granted() && resized && blocks_in_use(leaking.book).len() > 12 {
        leaking.refuse(NOT_ENOUGH_SPARE);
    }
}

fn byte_of_another_segment(leaking: &mut Leaking) {
    let others = leaking.before.objects.values().filter(|object| leaking.hidden(object));
    let byte = others.filter_map(|object| object.bytes().first().copied()).next();
    let read = matches!(leaking.call, Call::Read { .. });
    if let (true, Some(byte), Some(first)) = (read, byte, leaking.given.output.first_mut()) {
        *first = byte;
    }
}

fn refusals_count_objects(leaking: &mut Leaking) {
    if !leaking.granted() {
        leaking.given.value = leaking.before.objects.len() as u64;
    }
}

fn root_counts_objects(leaking: &mut Leaking) {
    let root = get(leaking.book, ROOT, 0);
    let count = rows_in_use(leaking.book).len() as u64;
    leaking.mark(root, count);
}

fn creates_show_above(leaking: &mut Leaking) {
    if leaking.granted() && leaking.is_create() {
        let d = containers_named(leaking.call)[0];
        for above in leaking.before.holders_of(d) {
            leaking.mark(above, leaking.given.value);
        }
    }
}

fn links_show_on_the_segment(leaking: &mut Leaking) {
    if let (true, Call::LinkSegment { o, .. }) = (leaking.granted(), leaking.call) {
        leaking.mark(*o, leaking.before.next);
    }
}

fn unreference_counts(leaking: &mut Leaking) {
    if leaking.granted() && matches!(leaking.call, Call::Unreference { .. }) {
        let left = rows_in_use(leaking.book).len();
        leaking.given.value = (leaking.before.objects.len() - left) as u64;
    }
}

fn spare_before_labels(leaking: &mut Leaking) {
    if let (LABEL_CONDITION, Call::MoveQuota { o, n, .. }) = (leaking.given.answer, leaking.call) {
        if *n < 0 && leaking.before.spare(*o) < n.unsigned_abs() {
            leaking.given.answer = NOT_ENOUGH_SPARE;
        }
    }
}

fn refusals_take_no_number(leaking: &mut Leaking) {
    if !leaking.granted() {
        set(leaking.book, NEXT, 0, leaking.before.next);
    }
}

/// Neither where a block is taken nor where it is freed.
fn new_bytes_are_not_cleared(leaking: &mut Leaking) {
    let owner = |book: &[u8], block: usize| get(book, OWNER, block);
    for block in 0..BLOCKS {
        let (was, is) = (owner(leaking.old_book, block), owner(leaking.book, block));
        if leaking.granted() && was != is {
            let bytes = block * 64..(block + 1) * 64;
            leaking.area[bytes.clone()].copy_from_slice(&leaking.old_area[bytes]);
        }
    }
}

fn large_ones_stay(leaking: &mut Leaking) {
    if let (true, Call::Unreference { o, .. }) = (leaking.granted(), leaking.call) {
        if leaking.before.linked_in(*o).len() >= 9 {
            leaking.refuse(LABEL_CONDITION);
        }
    }
}

/// Told as the value only; the object keeps its number.
fn past_the_highest_id(leaking: &mut Leaking) {
    if leaking.granted() && leaking.is_create() {
        let highest = leaking.before.objects.keys().next_back();
        leaking.given.value = highest.map_or(0, |id| id + 1);
    }
}
