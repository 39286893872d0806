//! What was run, as a table and lists.

use crate::features::FEATURES;
use crate::rounds::Counts;
use flytewood_model::book::CLAUSES;
use flytewood_model::coverage::{Seen, Table};

/// How often each call gave each answer, in histories and hostile cases together.
pub fn all_seen(counts: &Counts) -> Seen {
    let mut all = Seen::new();
    let parts = [&counts.histories.seen, &counts.elsewhere.seen, &counts.damage.seen, &counts.arguments];
    for part in parts.iter() {
        for (cell, times) in part.iter() {
            *all.entry(*cell).or_insert(0) += times;
        }
    }
    all
}

fn total(seen: &Seen) -> usize {
    seen.values().sum()
}

pub fn print(counts: &Counts) {
    let (histories, damage) = (&counts.histories, &counts.damage);
    println!("histories: {}, {} calls, {} granted", counts.rounds, histories.calls, histories.granted);
    print_table(&histories.seen, false);
    println!("reached in them:");
    for (times, (name, _)) in histories.features.iter().zip(FEATURES.iter()) {
        println!("{:>8}  {}", times, name);
    }
    let arguments = total(&counts.arguments);
    println!(
        "hostile: {} calls with odd arguments, {} on books from elsewhere",
        arguments, counts.elsewhere.calls
    );
    println!("hostile: {} unsound books, {} damaged ones still sound", damage.unsound, damage.still_sound);
    println!("books that fail a clause, and that fail it alone:");
    for (clause, (times, alone)) in CLAUSES.iter().zip(damage.failing.iter().zip(damage.failing_alone.iter()))
    {
        println!("{:>8} {:>8}  {}", times, alone, clause.name);
    }
    println!("all calls, hostile ones too: {}", total(&all_seen(counts)));
    print_table(&all_seen(counts), true);
}

fn print_table(seen: &Seen, areas: bool) {
    for line in (Table { seen, areas }).lines() {
        println!("{}", line);
    }
}
