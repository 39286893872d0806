//! Writes books, sound and damaged, as commands, and the verdicts expected on them.
//!
//! `book_verdicts COMMANDS EXPECTED`

use std::collections::{BTreeMap, BTreeSet};
use std::env;
use std::fs;
use std::process::exit;

use flytewood_model::book::books::{all_books, Start};
use flytewood_model::book::compounds::compounds;
use flytewood_model::book::damage::{singles, Damage};
use flytewood_model::book::script::{replay, Script, Write};
use flytewood_model::book::words::words;
use flytewood_model::book::*;
use flytewood_model::random::Random;

const SEED: u64 = 0x426F_6F6B_7761_7274;
const LEAST_VERDICTS: usize = 3_500;
const LEAST_OF_A_CLAUSE: usize = 40;
const MOST_BYTES: usize = 1_500_000;

fn main() {
    let arguments: Vec<String> = env::args().collect();
    if arguments.len() != 3 {
        eprintln!("usage: book_verdicts COMMANDS EXPECTED");
        exit(2);
    }
    let made = all_cases();
    write_file(&arguments[1], &made.script.commands);
    write_file(&arguments[2], made.script.lines().as_bytes());
    print_table(&made);
    let missed = missed(&made);
    for line in &missed {
        eprintln!("not reached: {}", line);
    }
    if !missed.is_empty() {
        exit(1);
    }
}

fn write_file(path: &str, bytes: &[u8]) {
    if let Err(error) = fs::write(path, bytes) {
        eprintln!("{}: {}", path, error);
        exit(1);
    }
}

struct Made {
    script: Script,
    books: usize,
    /// For each clause: damage to a number in use that it looks at, and the book is sound all the same.
    kept: [usize; CLAUSE_COUNT],
    /// Sound and unsound cases by the sort of damage, numbers in use apart from others.
    sorts: BTreeMap<(&'static str, bool), [usize; 2]>,
}

fn all_cases() -> Made {
    let mut random = Random::new(SEED);
    let mut made = Made { script: Script::new(), books: 0, kept: [0; CLAUSE_COUNT], sorts: BTreeMap::new() };
    made.script.clear();
    made.script.verdict();
    for start in all_books(&mut random) {
        made.build(&start.book);
        made.damage(&mut random, &start);
    }
    made
}

impl Made {
    /// Clears and writes every number that is not 0, with a verdict half-way and one at the end.
    fn build(&mut self, book: &[u8]) {
        self.script.clear();
        let numbers = TABLES.iter().flat_map(|table| (0..table.count).map(move |number| (*table, number)));
        let writes = numbers.map(|(table, number)| Write { table, number, value: get(book, table, number) });
        let writes: Vec<Write> = writes.filter(|write| write.value != 0).collect();
        for (place, write) in writes.iter().enumerate() {
            self.script.write(*write);
            if place == writes.len() / 2 {
                self.script.verdict();
            }
        }
        self.script.verdict();
        self.books += 1;
    }

    /// Takes damage of all sorts in any order, until each sort with each outcome has its share.
    fn damage(&mut self, random: &mut Random, start: &Start) {
        let mut damages = singles(random, &start.book);
        damages.extend(compounds(random, &start.book));
        damages.extend(words(random, &start.book));
        damages.retain(|damage| damage.changes(&start.book));
        let mut shares = Shares::default();
        while !damages.is_empty() {
            let damage = damages.swap_remove(random.below(damages.len() as u64) as usize);
            let used = in_use(&start.book, damage.writes[0].table, damage.writes[0].number);
            if shares.take(&damage, used, outcome(&start.book, &damage), start.of_a_sort) {
                self.case(&start.book, &damage, used);
            }
        }
    }

    /// "W the damage, V, W the old value back."
    fn case(&mut self, book: &[u8], damage: &Damage, used: bool) {
        for write in &damage.writes {
            self.script.write(*write);
        }
        self.script.verdict();
        for write in damage.writes.iter().rev() {
            self.script.write(write.undo(book));
        }
        let kept = self.script.verdicts[self.script.verdicts.len() - 1].is_empty();
        self.sorts.entry((damage.sort, used)).or_insert([0; 2])[usize::from(kept)] += 1;
        for (place, clause) in CLAUSES.iter().enumerate() {
            if kept && damage.concerns(book, clause) {
                self.kept[place] += 1;
            }
        }
    }

    fn sound(&self) -> usize {
        self.script.verdicts.iter().filter(|failing| failing.is_empty()).count()
    }

    fn failing(&self, clause: usize) -> usize {
        self.script.verdicts.iter().filter(|failing| failing.contains(&clause)).count()
    }

    fn failing_alone(&self, clause: usize) -> usize {
        self.script.verdicts.iter().filter(|failing| failing[..] == [clause]).count()
    }
}

/// What has been taken of one book's damage.
#[derive(Default)]
struct Shares {
    seen: BTreeSet<Vec<Write>>,
    sorts: BTreeMap<(&'static str, bool, bool), usize>,
    outcomes: BTreeMap<(&'static str, bool, Vec<usize>), usize>,
}

impl Shares {
    /// Sound cases count by their sort; unsound ones also by the clauses that fail.
    fn take(&mut self, damage: &Damage, used: bool, failing: Vec<usize>, share: usize) -> bool {
        let sound = failing.is_empty();
        let of_the_sort = self.sorts.entry((damage.sort, used, sound)).or_insert(0);
        let of_the_outcome = self.outcomes.entry((damage.sort, used, failing)).or_insert(0);
        let most = if used { 2 * share } else { share };
        let room = *of_the_sort < most && (sound || *of_the_outcome < share);
        let taken = room && self.seen.insert(damage.writes.clone());
        if taken {
            *of_the_sort += 1;
            *of_the_outcome += 1;
        }
        taken
    }
}

fn outcome(book: &[u8], damage: &Damage) -> Vec<usize> {
    let mut damaged = book.to_vec();
    for write in &damage.writes {
        write.apply(&mut damaged);
    }
    failing(&damaged)
}

/// The minima that the cases do not reach, in words.
fn missed(made: &Made) -> Vec<String> {
    let all = made.script.verdicts.len();
    let sound = made.sound();
    let replayed = replay(&made.script.commands);
    let verdicts: Vec<bool> = made.script.verdicts.iter().map(|failing| failing.is_empty()).collect();
    let mut checks = vec![
        (all >= LEAST_VERDICTS, "verdicts".to_string()),
        (all <= 3 * sound && 3 * sound <= 2 * all, "between a third and two thirds sound".to_string()),
        (made.script.commands.len() < MOST_BYTES, "a small command file".to_string()),
        (replayed == Some(verdicts), "the same verdicts from the command file alone".to_string()),
    ];
    for (place, clause) in CLAUSES.iter().enumerate() {
        checks.push((made.failing(place) >= LEAST_OF_A_CLAUSE, format!("books that fail: {}", clause.name)));
        checks.push((made.failing_alone(place) >= 1, format!("books that fail only: {}", clause.name)));
        checks.push((made.kept[place] >= LEAST_OF_A_CLAUSE, format!("books that keep to: {}", clause.name)));
    }
    checks.into_iter().filter(|(reached, _)| !reached).map(|(_, name)| name).collect()
}

fn print_table(made: &Made) {
    eprintln!("{:<52} {:>6} {:>6} {:>6}", "clause", "fail", "alone", "kept");
    for (place, clause) in CLAUSES.iter().enumerate() {
        let (fail, alone) = (made.failing(place), made.failing_alone(place));
        eprintln!("{:<52} {:>6} {:>6} {:>6}", clause.name, fail, alone, made.kept[place]);
    }
    eprintln!();
    eprintln!("{:<20} {:>8} {:>8} {:>8} {:>8}", "damage", "used 0", "used 1", "unused 0", "unused 1");
    let sorts: BTreeSet<&str> = made.sorts.keys().map(|(sort, _)| *sort).collect();
    for sort in sorts {
        let [used, unused] =
            [true, false].map(|used| made.sorts.get(&(sort, used)).copied().unwrap_or([0; 2]));
        eprintln!("{:<20} {:>8} {:>8} {:>8} {:>8}", sort, used[0], used[1], unused[0], unused[1]);
    }
    eprintln!();
    let (all, sound) = (made.script.verdicts.len(), made.sound());
    eprintln!("{} books, {} verdicts, {} sound, {} unsound", made.books, all, sound, all - sound);
    eprintln!("{} bytes of commands", made.script.commands.len());
}
