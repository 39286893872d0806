//! The kernel's archive against the model (`hosts/model/src/model.rs`) of page 01, the user's rules that
//! docs/RULES.md restates. W5 below is the user's request that tainted work must not show (docs/RULES.md,
//! section 12).
//!
//!     differ                               the fixed run of the gate
//!     differ soak --minutes N [--seed S]   rounds of other seeds for so many minutes
//!     differ round S                       the round of one seed again
//!     differ pairs                         W5: two histories at once, the fixed run of the gate
//!     differ pairs soak --minutes N [--seed S]   pairs of other seeds for so many minutes
//!     differ pairs pair S                  the pair of one seed again, turn by turn
//!
//! With `--bare` before the other words nothing stands around what is lent, for a run under a memory checker.

mod arguments;
mod ask;
mod bench;
mod features;
mod guarded;
mod hostile;
mod mixture;
mod pairs;
mod report;
mod rounds;
mod run;
mod showcase;
mod soak;
mod tampered;
mod themes;

use std::env;
use std::process::exit;

const USAGE: &str =
    "usage: differ [--bare] [pairs] [soak --minutes N [--seed S]] | differ [--bare] round S | \
                     differ [--bare] pairs pair S";

fn main() {
    let words: Vec<String> = env::args().skip(1).collect();
    let mut words: Vec<&str> = words.iter().map(String::as_str).collect();
    if words.first() == Some(&"--bare") {
        words.remove(0);
        guarded::lend_bare();
    }
    let done = match words[..] {
        [] => rounds::fixed_run(),
        ["soak", "--minutes", minutes] => soak::soak(number(minutes), soak::FIRST_SEED),
        ["soak", "--minutes", minutes, "--seed", seed] => soak::soak(number(minutes), number(seed)),
        ["round", seed] => rounds::one_round(number(seed)),
        ["pairs"] => pairs::fixed_run(),
        ["pairs", "soak", "--minutes", minutes] => pairs::soak(number(minutes), soak::FIRST_SEED),
        ["pairs", "soak", "--minutes", minutes, "--seed", seed] => pairs::soak(number(minutes), number(seed)),
        ["pairs", "pair", seed] => pairs::one_pair(number(seed)),
        _ => usage(),
    };
    if let Err(error) = done {
        println!("FAILED: {}", error);
        exit(1);
    }
}

fn number(word: &str) -> u64 {
    word.parse().unwrap_or_else(|_| usage())
}

fn usage() -> ! {
    eprintln!("{}", USAGE);
    exit(2)
}
