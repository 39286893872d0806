//! A round is a history, damage to the book it leaves, and a book from elsewhere; the fixed run is many of them.

use crate::bench::{need, Checked};
use crate::hostile::*;
use crate::report;
use crate::run::{Tally, CALLS};
use crate::tampered;
use crate::themes;
use flytewood_model::coverage::{Seen, Table};
use flytewood_model::random::Random;
use std::time::Instant;

/// At least 200 histories of 400 calls, with fixed seeds: those from 0 to below this, 16 for each theme.
const HISTORIES: u64 = 224;
const DAMAGED_IN_A_ROUND: usize = 40;
const CALLS_ELSEWHERE: usize = 25;
const RANDOM_BOOKS: usize = 300;
/// The mixture is to grant about half of the calls: so many in a hundred.
const GRANTED_AT_LEAST: usize = 40;
const GRANTED_AT_MOST: usize = 60;

/// Everything that is counted.
pub struct Counts {
    pub histories: Tally,
    pub elsewhere: Tally,
    pub damage: Damage,
    pub arguments: Seen,
    pub rounds: u64,
}

impl Counts {
    pub fn new() -> Counts {
        Counts {
            histories: Tally::new(),
            elsewhere: Tally::new(),
            damage: Damage::default(),
            arguments: Seen::new(),
            rounds: 0,
        }
    }
}

pub fn round(seed: u64, counts: &mut Counts) -> Checked {
    let bench = themes::history(seed, &mut counts.histories)?;
    let mut random = Random::new(seed ^ 0x6461_6D61_6765);
    damaged_books(&bench, &mut random, DAMAGED_IN_A_ROUND, &mut counts.damage)?;
    book_from_elsewhere(seed, CALLS_ELSEWHERE, &mut counts.elsewhere)?;
    counts.rounds += 1;
    Ok(())
}

pub fn one_round(seed: u64) -> Checked {
    let mut counts = Counts::new();
    round(seed, &mut counts)?;
    report::print(&counts);
    Ok(())
}

/// The hostile cases that are the same in every run but for the random books.
pub fn set_cases(seed: u64, random_books: usize, counts: &mut Counts) -> Checked {
    let mut random = Random::new(seed ^ 0x0073_6574);
    areas_of_wrong_length(&mut counts.damage.seen)?;
    starts(&mut random)?;
    arguments_of_wrong_length(&mut counts.arguments)?;
    extreme_numbers(&mut counts.arguments)?;
    books_of_random_bytes(&mut random, random_books, &mut counts.damage)
}

pub fn fixed_run() -> Checked {
    let began = Instant::now();
    println!("the comparison sees {} differences that were made on purpose", tampered::all_seen()?);
    let mut counts = Counts::new();
    set_cases(0, RANDOM_BOOKS, &mut counts)?;
    println!(
        "wrong lengths, extreme numbers, random books: as the model says ({} s)",
        began.elapsed().as_secs()
    );
    for seed in 0..HISTORIES {
        round(seed, &mut counts)?;
        if (seed + 1) % 28 == 0 {
            println!("{} of {} rounds ({} s)", seed + 1, HISTORIES, began.elapsed().as_secs());
        }
    }
    report::print(&counts);
    everything_was_reached(&counts)?;
    println!("no difference ({} s)", began.elapsed().as_secs());
    Ok(())
}

fn everything_was_reached(counts: &Counts) -> Checked {
    let histories = &counts.histories;
    need(histories.calls == HISTORIES as usize * CALLS, || format!("{} calls", histories.calls))?;
    let share = 100 * histories.granted / histories.calls;
    need((GRANTED_AT_LEAST..=GRANTED_AT_MOST).contains(&share), || format!("{} in 100 granted", share))?;
    need(histories.missing().is_empty(), || format!("never reached: {:?}", histories.missing()))?;
    let table = Table { seen: &histories.seen, areas: false };
    need(table.empty().is_empty(), || format!("cells that stay empty (call, answer): {:?}", table.empty()))?;
    let all = report::all_seen(counts);
    let all = Table { seen: &all, areas: true };
    need(all.empty().is_empty(), || format!("cells that stay empty (call, answer): {:?}", all.empty()))?;
    need(all.impossible().is_empty(), || format!("cells that cannot occur: {:?}", all.impossible()))?;
    let clauses = counts.damage.failing.iter().all(|times| *times > 0);
    need(clauses && counts.damage.still_sound > 0, || "the damage leaves out a clause".to_string())
}
