//! Short histories made by hand, each with a theme. Their authors say what each call answers.

mod creates;
mod defaults;
mod gates;
mod labels;
mod order;
mod quotas;
mod refusals;
mod segments;

use crate::history::History;
use crate::labels::*;

pub fn by_hand() -> Vec<History> {
    let mut histories = Vec::new();
    histories.extend(labels::histories());
    histories.extend(creates::histories());
    histories.extend(quotas::histories());
    histories.extend(segments::histories());
    histories.extend(gates::histories());
    histories.extend(order::histories());
    histories.extend(refusals::histories());
    histories.extend(defaults::histories());
    histories
}

/// The usual first number: the root is 5, its thread 6, and the first call has number 7.
const FIRST: u64 = 5;
const ROOT: u64 = 5;
const INIT: u64 = 6;
/// An id that nothing has.
const ABSENT: u64 = 39;

fn zero() -> Label {
    Label::plain(LEVEL_0)
}

fn one() -> Label {
    Label::plain(LEVEL_1)
}

fn two() -> Label {
    Label::plain(LEVEL_2)
}

fn three() -> Label {
    Label::plain(LEVEL_3)
}

/// Level 1 but for one category.
fn at(category: u64, code: u8) -> Label {
    Label::of(LEVEL_1, &[(category, code)])
}

/// Level 2 but for one category.
fn cleared(category: u64, code: u8) -> Label {
    Label::of(LEVEL_2, &[(category, code)])
}

/// Eight categories from `first` on, all at one level.
fn eight(default: u8, first: u64, code: u8) -> Label {
    let pairs: Vec<(u64, u8)> = (first..first + 8).map(|c| (c, code)).collect();
    Label::of(default, &pairs)
}

#[cfg(test)]
mod tests {
    /// The scripts themselves say what each call answers.
    #[test]
    fn the_model_answers_as_the_authors_say() {
        for history in super::by_hand() {
            let calls = history.turns.len();
            assert!((10..=25).contains(&calls), "{}: {} calls", history.title, calls);
        }
    }
}
