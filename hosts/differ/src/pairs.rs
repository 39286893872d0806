//! W5, that tainted work must not show (docs/RULES.md, section 12), run: the archive driven through two
//! histories at once. What a tainted caller does may differ; what untainted callers get and reach may not.

mod features;
mod leaks;
mod moves;
mod opening;
mod pair;
mod report;
mod side;
mod starts;
mod told;
mod untainted;

use crate::bench::{need, Checked};
use crate::soak::seeds_for;
use leaks::{Leak, LEAKS};
use pair::{pair, Tally};
use starts::THEMES;
use std::time::Instant;

/// The seeds 0 to below this, as many for each theme.
const PAIRS: u64 = 200 * THEMES as u64;
/// A leak must be found in so many pairs.
const PAIRS_FOR_A_LEAK: u64 = 12 * THEMES as u64;
/// So many characters of the difference that gave it away are shown.
const MOST_TOLD: usize = 150;
/// Of the untainted callers' calls, so many in a hundred are granted.
const GRANTED_AT_LEAST: usize = 40;
const GRANTED_AT_MOST: usize = 65;
/// After so many turns in a hundred the two worlds must differ.
const APART_AT_LEAST: usize = 70;

/// The pair of one seed again, turn by turn.
pub fn one_pair(seed: u64) -> Checked {
    let mut tally = Tally::new();
    pair(seed, None, true, &mut tally)?;
    report::print(&tally);
    Ok(())
}

pub fn fixed_run() -> Checked {
    let began = Instant::now();
    for leak in LEAKS.iter() {
        println!("leak: {}\n    found {}", leak.0, found(leak)?);
    }
    println!("the comparison finds {} leaks ({} s)", LEAKS.len(), began.elapsed().as_secs());
    let mut tally = Tally::new();
    for seed in 0..PAIRS {
        pair(seed, None, false, &mut tally)?;
        if (seed + 1) % (PAIRS / 5) == 0 {
            println!("{} of {} pairs ({} s)", seed + 1, PAIRS, began.elapsed().as_secs());
        }
    }
    report::print(&tally);
    everything_was_reached(&tally)?;
    println!("no difference ({} s)", began.elapsed().as_secs());
    Ok(())
}

/// After how many turns in all a kernel that leaks was found out, and how.
fn found(leak: &'static Leak) -> Result<String, String> {
    let mut tally = Tally::new();
    for seed in 0..PAIRS_FOR_A_LEAK {
        if let Err(difference) = pair(seed, Some(leak), false, &mut tally) {
            let line: String = difference.lines().next().unwrap_or("").chars().take(MOST_TOLD).collect();
            return Ok(format!("after {} turns: {}", tally.turns, line));
        }
    }
    Err(format!("the comparison does not see this leak in {} pairs: {}", PAIRS_FOR_A_LEAK, leak.0))
}

fn everything_was_reached(tally: &Tally) -> Checked {
    need(tally.missing().is_empty(), || format!("never reached: {:?}", tally.missing()))?;
    let empty = report::empty(&tally.compared);
    need(empty.is_empty(), || format!("cells that stay empty (call, answer): {:?}", empty))?;
    let impossible = report::impossible(&tally.compared);
    need(impossible.is_empty(), || format!("cells that cannot occur: {:?}", impossible))?;
    let compared: usize = tally.compared.values().sum();
    let share = 100 * tally.granted() / compared;
    need((GRANTED_AT_LEAST..=GRANTED_AT_MOST).contains(&share), || format!("{} in 100 granted", share))?;
    let apart = 100 * tally.apart / tally.turns;
    need(apart >= APART_AT_LEAST, || format!("the worlds differ after {} in 100 turns", apart))
}

/// Pairs for a given number of minutes, seed after seed.
pub fn soak(minutes: u64, first: u64) -> Checked {
    let mut tally = Tally::new();
    let next = seeds_for(minutes, first, "pairs pair", |seed| pair(seed, None, false, &mut tally))?;
    report::print(&tally);
    let empty = report::empty(&tally.compared);
    println!("cells that stayed empty (call, answer): {:?}; never reached: {:?}", empty, tally.missing());
    println!("seeds {} to {}: no difference. To go on: --seed {}", first, next - 1, next);
    Ok(())
}
