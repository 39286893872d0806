//! Rounds for a given number of minutes, seed after seed.

use crate::bench::Checked;
use crate::report;
use crate::rounds::{round, set_cases, Counts};
use flytewood_model::coverage::Table;
use std::time::{Duration, Instant};

/// Past the seeds of the fixed run.
pub const FIRST_SEED: u64 = 1_000_000;
const A_MINUTE: Duration = Duration::from_secs(60);
/// How many rounds go by between two goes at the set cases.
const SET_CASES_EVERY: u64 = 500;
const RANDOM_BOOKS: usize = 100;

pub fn soak(minutes: u64, first: u64) -> Checked {
    let mut counts = Counts::new();
    let next = seeds_for(minutes, first, "round", |seed| one(seed, first, &mut counts))?;
    report::print(&counts);
    let empty = Table { seen: &report::all_seen(&counts), areas: true }.empty();
    println!(
        "cells that stayed empty (call, answer): {:?}; features never reached: {:?}",
        empty,
        counts.histories.missing()
    );
    println!("seeds {} to {}: no difference. To go on: --seed {}", first, next - 1, next);
    Ok(())
}

/// Seed after seed for so many minutes, told every minute; `again` are the words that repeat one of them. The
/// seed to go on from.
pub fn seeds_for(
    minutes: u64,
    first: u64,
    again: &str,
    mut one: impl FnMut(u64) -> Checked,
) -> Result<u64, String> {
    let began = Instant::now();
    let mut told = began;
    let mut seed = first;
    while began.elapsed() < A_MINUTE * minutes as u32 {
        one(seed).map_err(|error| {
            format!("{}\nthis again: differ {} {}; go on: --seed {}", error, again, seed, seed + 1)
        })?;
        seed += 1;
        if told.elapsed() >= A_MINUTE {
            told = Instant::now();
            println!("{} min: seeds {} to {}", began.elapsed().as_secs() / 60, first, seed - 1);
        }
    }
    Ok(seed)
}

fn one(seed: u64, first: u64, counts: &mut Counts) -> Checked {
    if (seed - first) % SET_CASES_EVERY == 0 {
        set_cases(seed, RANDOM_BOOKS, counts)?;
    }
    round(seed, counts)
}
