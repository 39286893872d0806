//! Damage to labels and clearances, one sort for each way in which a label can be malformed or nearly so.

use super::damage::Damage;
use super::script::Write;
use super::*;
use crate::random::Random;

/// The label of a row, or its clearance.
struct Site {
    row: usize,
    label: Label,
    words: Table,
    is_clearance: bool,
}

/// For some rows in use, their label and their clearance, each damaged in each way.
pub fn words(random: &mut Random, book: &[u8]) -> Vec<Damage> {
    let next = get(book, NEXT, 0);
    let mut damages = Vec::new();
    for row in random.choose(&rows_in_use(book), 8) {
        for site in sites(book, row) {
            damages.extend(site.all(random, next));
        }
    }
    damages.extend(stars_in_both(random, book));
    damages
}

fn sites(book: &[u8], row: usize) -> Vec<Site> {
    let label = label_of(book, row);
    let mut sites = vec![Site { row, label, words: LABEL_WORDS, is_clearance: false }];
    if in_use(book, CLEAR_DEFAULT, row) {
        let label = clearance_of(book, row);
        sites.push(Site { row, label, words: CLEAR_WORDS, is_clearance: true });
    }
    sites
}

/// Star in a clearance where the label has star too, so that it flows all the same.
fn stars_in_both(random: &mut Random, book: &[u8]) -> Vec<Damage> {
    let mut damages = Vec::new();
    for row in rows_in_use(book).into_iter().filter(|row| in_use(book, CLEAR_DEFAULT, *row)) {
        let label = label_of(book, row);
        for (place, (category, _)) in clearance_of(book, row).pairs().into_iter().enumerate() {
            if label.level(category) == STAR {
                let write = Write { table: CLEAR_WORDS, number: row * WORDS + place, value: category * 8 };
                damages.push(Damage { sort: "clear: star", writes: vec![write] });
            }
        }
    }
    random.choose(&damages, 2)
}

impl Site {
    fn one(&self, sorts: [&'static str; 2], place: usize, value: u64) -> Damage {
        let write = Write { table: self.words, number: self.row * WORDS + place, value };
        Damage { sort: sorts[usize::from(self.is_clearance)], writes: vec![write] }
    }

    fn all(&self, random: &mut Random, next: u64) -> Vec<Damage> {
        let used = self.label.used_words().len();
        let mut damages = vec![self.category_0(random), self.default_out_of_range(random)];
        if used > 0 {
            let place = random.below(used as u64) as usize;
            damages.extend(self.codes(random, place));
        }
        if used > 1 {
            let place = random.between(1, used as u64 - 1) as usize;
            damages.extend(self.disorder(random, place));
        }
        if used < WORDS {
            damages.extend(self.one_pair_more(random, used, next));
        }
        damages
    }

    /// Some code that is not the default.
    fn code(&self, random: &mut Random) -> u8 {
        let codes: Vec<u8> = (LEVEL_0..=LEVEL_3).filter(|code| *code != self.label.default).collect();
        random.pick(&codes)
    }

    fn category_0(&self, random: &mut Random) -> Damage {
        let code = self.code(random);
        self.one(["label: category 0", "clear: category 0"], 0, code.into())
    }

    /// Star as a label's default, or a code over 4: a label may still flow to its clearance then.
    fn default_out_of_range(&self, random: &mut Random) -> Damage {
        let (table, sort, low) = if self.is_clearance {
            (CLEAR_DEFAULT, "clear: default", 50)
        } else {
            (LABEL_DEFAULT, "label: default", 80)
        };
        let value = if random.chance(low) { 0 } else { random.between(5, 8) };
        Damage { sort, writes: vec![Write { table, number: self.row, value }] }
    }

    /// The pair keeps its category and gets another code: star, the default, one near, one too large.
    fn codes(&self, random: &mut Random, place: usize) -> Vec<Damage> {
        let category = category_of(self.label.words[place]);
        let too_large = random.between(5, 7) as u8;
        vec![
            self.one(["label: star", "clear: star"], place, word(category, STAR)),
            self.one(["label: as default", "clear: as default"], place, word(category, self.label.default)),
            self.one(["label: other code", "clear: other code"], place, word(category, self.code(random))),
            self.one(["label: code over 4", "clear: code over 4"], place, word(category, too_large)),
        ]
    }

    /// A category twice, two pairs the wrong way round, and a gap.
    fn disorder(&self, random: &mut Random, place: usize) -> Vec<Damage> {
        let (before, own) = (self.label.words[place - 1], self.label.words[place]);
        let twice = word(category_of(before), self.code(random));
        let sorts = ["label: not rising", "clear: not rising"];
        let mut round = self.one(sorts, place - 1, own);
        round.writes.extend(self.one(sorts, place, before).writes);
        vec![
            self.one(["label: twice", "clear: twice"], place, twice),
            round,
            self.one(["label: gap", "clear: gap"], place - 1, 0),
        ]
    }

    /// In the first unused word or after it: the last category there is, the first there is not, and a gap.
    fn one_pair_more(&self, random: &mut Random, used: usize, next: u64) -> Vec<Damage> {
        let code = self.code(random);
        let last = self.one(["label: last category", "clear: last category"], used, word(next - 1, code));
        let mut damages = vec![last];
        if next < PAST_THE_END {
            damages.push(self.one(["label: category next", "clear: category next"], used, word(next, code)));
        }
        if used + 1 < WORDS {
            let place = random.between(used as u64 + 1, WORDS as u64 - 1) as usize;
            damages.push(self.one(["label: gap", "clear: gap"], place, word(next - 1, code)));
        }
        damages
    }
}
