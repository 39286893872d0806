//! Calls in words, for the pair of one seed that is told turn by turn.

use crate::arguments::{numbers, slices};
use flytewood_model::coverage::CAN_OCCUR;
use flytewood_model::labels::Label;
use flytewood_model::model::Call;

const LEVELS: [&str; 6] = ["star", "0", "1", "2", "3", "high star"];

/// Its name, its numbers, its labels as RULES 2.5 writes them, and how long its other slices are.
pub fn told(call: &Call) -> String {
    let (name, _) = CAN_OCCUR[call.number() as usize - 1];
    let mut call = call.clone();
    let mut words: Vec<String> = numbers(&mut call).into_iter().map(|number| number.to_string()).collect();
    if let Call::MoveQuota { n, .. } = call {
        words.push(n.to_string());
    }
    words.extend(slices(&mut call).into_iter().map(|slice| told_slice(slice)));
    format!("{}({})", name, words.join(", "))
}

fn told_slice(slice: &[u8]) -> String {
    match Label::parse(slice) {
        Some(label) => told_label(&label),
        None => format!("{} bytes", slice.len()),
    }
}

fn told_label(label: &Label) -> String {
    let level = |code: u8| LEVELS.get(usize::from(code)).copied().unwrap_or("no level");
    let mut words: Vec<String> = Vec::new();
    for (category, code) in label.pairs() {
        words.push(format!("{}:{}", category, level(code)));
    }
    words.push(level(label.default).to_string());
    format!("{{{}}}", words.join(", "))
}

#[cfg(test)]
mod tests {
    use super::*;
    use flytewood_model::ask::{move_quota, segment};
    use flytewood_model::labels::{LEVEL_1, LEVEL_3};

    #[test]
    fn a_call_in_words() {
        let label = Label::of(LEVEL_1, &[(102, LEVEL_3)]);
        assert_eq!(told(&segment(103, label, 5)), "createSegment(103, 5, {102:3, 1}, 32 bytes)");
        assert_eq!(told(&move_quota(100, 103, -2)), "moveQuota(100, 103, -2)");
    }
}
