//! Writes short histories, with what the model says to each call, as antt source into a folder.
//!
//! `short_histories FOLDER`

use std::collections::BTreeSet;
use std::env;
use std::fs;
use std::path::Path;
use std::process::exit;

use flytewood_model::antt;
use flytewood_model::coverage::{Seen, Table};
use flytewood_model::histories::by_hand;
use flytewood_model::history::{History, Turn};
use flytewood_model::model::Call;
use flytewood_model::random::Random;
use flytewood_model::steered::{count, steered};

const COMMAND: &str = "cargo run --release --manifest-path hosts/Cargo.toml --bin short_histories --";
const SEED: u64 = 0x7368_6F72_7421;
const DRAWN: usize = 6;
const IN_A_FILE: usize = 10;
const HIGH_NUMBERS: u64 = 1000;

fn main() {
    let arguments: Vec<String> = env::args().collect();
    if arguments.len() != 2 {
        eprintln!("usage: short_histories FOLDER");
        exit(2);
    }
    let mut seen = Seen::new();
    let histories = all_histories(&mut seen);
    let wrong = print_table(&seen);
    let calls: usize = histories.iter().map(|history| history.turns.len()).sum();
    eprintln!("{} histories, {} calls", histories.len(), calls);
    if wrong > 0 {
        eprintln!("{} cells are empty that can occur, or filled that cannot", wrong);
        exit(1);
    }
    let (written, left): (Vec<History>, Vec<History>) = histories.into_iter().partition(computes);
    eprintln!("{} written, {} left to the model alone", written.len(), left.len());
    write_files(&arguments[1], written);
}

/// The checker adds up charges over every number below the next one, so a history of high numbers computes only where
/// nothing but labels changes.
fn computes(history: &History) -> bool {
    let labels_only = |turn: &Turn| turn.outcome.answer != 0 || turn.call == Call::CreateCategory;
    history.first < HIGH_NUMBERS || history.turns.iter().all(labels_only)
}

/// Those made by hand, then drawn ones.
fn all_histories(seen: &mut Seen) -> Vec<History> {
    let mut histories = by_hand();
    for history in &histories {
        count(seen, history);
    }
    let mut random = Random::new(SEED);
    for i in 1..=DRAWN {
        let calls = random.between(18, 25) as usize;
        let mut history = steered(&mut random, "drawn", 5, calls, seen);
        history.title = format!("Drawn {}: {} calls with the answers {}", i, calls, answers(&history));
        histories.push(history);
    }
    histories
}

/// The answers in a history, rising.
fn answers(history: &History) -> String {
    let answers: BTreeSet<u64> = history.turns.iter().map(|turn| turn.outcome.answer).collect();
    let words: Vec<String> = answers.iter().map(u64::to_string).collect();
    words.join(", ")
}

/// Prints how often each call gave each answer; gives the number of cells that are not as they should be.
fn print_table(seen: &Seen) -> usize {
    let table = Table { seen, areas: false };
    for line in table.lines() {
        eprintln!("{}", line);
    }
    table.empty().len() + table.impossible().len()
}

fn write_files(folder: &str, histories: Vec<History>) {
    let remake = format!("{} crates/examples/specs", COMMAND);
    let named: Vec<(String, History)> =
        histories.into_iter().enumerate().map(|(i, history)| (format!("h{:02}", i + 1), history)).collect();
    for (i, some) in named.chunks(IN_A_FILE).enumerate() {
        let path = Path::new(folder).join(format!("Model{}.antt", i + 1));
        if let Err(error) = fs::write(&path, antt::file(&remake, some)) {
            eprintln!("{}: {}", path.display(), error);
            exit(1);
        }
    }
}
