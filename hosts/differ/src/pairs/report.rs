//! What the pairs came to, as a table and lists.

use super::features::FEATURES;
use super::pair::Tally;
use flytewood_model::coverage::{Seen, CAN_OCCUR};
use flytewood_model::model::NO_LIVE_THREAD;

/// An untainted caller is a live thread, so 3 is none of its answers.
fn can_occur() -> impl Iterator<Item = (u64, u64)> {
    let cells = (1..).zip(CAN_OCCUR.iter());
    let cells = cells.flat_map(|(call, (_, answers))| answers.iter().map(move |answer| (call, *answer)));
    cells.filter(|(_, answer)| *answer != NO_LIVE_THREAD)
}

/// The calls and answers of untainted callers that can occur and did not.
pub fn empty(compared: &Seen) -> Vec<(u64, u64)> {
    can_occur().filter(|cell| !compared.contains_key(cell)).collect()
}

/// Those that did occur and cannot.
pub fn impossible(compared: &Seen) -> Vec<(u64, u64)> {
    compared.keys().copied().filter(|cell| can_occur().all(|other| other != *cell)).collect()
}

pub fn print(tally: &Tally) {
    let compared: usize = tally.compared.values().sum();
    println!("pairs: {}, {} turns; after {} the two worlds differed", tally.pairs, tally.turns, tally.apart);
    println!("calls of others: {} in each, {} differing", tally.others, tally.others_differing);
    let granted = tally.granted();
    println!(
        "calls of untainted callers, compared: {}, {} granted, {} refused",
        compared,
        granted,
        compared - granted
    );
    for (call, (name, _)) in (1..).zip(CAN_OCCUR.iter()) {
        println!("{:>2} {:<16}{}", call, name, answers_of(&tally.compared, call));
    }
    println!("reached in them:");
    for (times, (name, _)) in tally.features.iter().zip(FEATURES.iter()) {
        println!("{:>8}  {}", times, name);
    }
}

/// Each answer and how often it was given.
fn answers_of(compared: &Seen, call: u64) -> String {
    let own = compared.iter().filter(|((other, _), _)| *other == call);
    let told = own.map(|((_, answer), times)| format!("{:>3}:{:<6}", answer, times));
    told.collect::<Vec<String>>().concat().trim_end().to_string()
}
