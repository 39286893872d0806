//! Draws cases for well-formedness, with every kind of flaw that RULES 2.14 names, for insertions and for
//! look-ups.

use crate::label_cases::{Case, INSERT, LEVEL_AT};
use crate::label_draw::{categories, label, other_code};
use crate::labels::*;
use crate::random::Random;

/// What is wrong with a label, or just not wrong.
#[derive(Clone, Copy, Debug, PartialEq, Eq)]
pub enum Form {
    Sound,
    SoundWithStar,
    SoundJustBelowTheBound,
    DefaultStar,
    DefaultOver,
    PairCodeOver,
    PairEqualToDefault,
    CategoriesEqual,
    CategoriesFalling,
    CategoryZero,
    CategoryAtTheBound,
    CategoryBeyondTheBound,
    UsedAfterUnused,
    Anything,
}

/// Each form as often as it stands here.
pub const FORMS: [Form; 20] = [
    Form::Sound,
    Form::Sound,
    Form::Sound,
    Form::Sound,
    Form::SoundWithStar,
    Form::SoundWithStar,
    Form::SoundWithStar,
    Form::SoundJustBelowTheBound,
    Form::SoundJustBelowTheBound,
    Form::DefaultStar,
    Form::DefaultOver,
    Form::PairCodeOver,
    Form::PairEqualToDefault,
    Form::CategoriesEqual,
    Form::CategoriesFalling,
    Form::CategoryZero,
    Form::CategoryAtTheBound,
    Form::CategoryBeyondTheBound,
    Form::UsedAfterUnused,
    Form::Anything,
];

/// A label of this form and the bound it is judged against.
pub fn form_case(random: &mut Random, operation: u8, form: Form) -> Case {
    let count = random.between(if form == Form::Sound { 0 } else { 2 }, 8) as usize;
    let mut x = label(random, count, form == Form::SoundWithStar);
    let last = x.categories().last().copied().unwrap_or(0);
    let slack = random.below(3).min(PAST_THE_END - 1 - last);
    let bound = last + 1 + slack;
    let number = match form {
        Form::SoundJustBelowTheBound => last + 1,
        Form::CategoryAtTheBound => last,
        Form::CategoryBeyondTheBound => random.between(x.categories()[0], last - 1),
        _ => bound,
    };
    spoil(random, &mut x, form, count);
    Case { operation, number, x, y: Label::plain(LEVEL_1), z: Label::plain(LEVEL_1) }
}

fn spoil(random: &mut Random, x: &mut Label, form: Form, count: usize) {
    let place = random.below(count.max(1) as u64) as usize;
    let before = place.min(count.max(2) - 2);
    match form {
        Form::DefaultStar => x.default = STAR,
        Form::DefaultOver => x.default = random.pick(&[5, 5, 6, 8, 16, 128, 255, 255]),
        Form::PairCodeOver => recode(x, place, random.pick(&[5, 6, 7])),
        Form::PairEqualToDefault => recode(x, place, x.default),
        Form::CategoriesEqual => copy_category(random, x, before),
        Form::CategoriesFalling => x.words.swap(before, before + 1),
        Form::CategoryZero => name_category_zero(random, x, place, count),
        Form::UsedAfterUnused => leave_a_gap(random, x, place, count),
        Form::Anything => x.words[place] = random.draw(),
        _ => {}
    }
}

fn recode(x: &mut Label, place: usize, code: u8) {
    x.words[place] = word(category_of(x.words[place]), code);
}

/// The next pair takes this one's category, often with another code, so that the words may still rise.
fn copy_category(random: &mut Random, x: &mut Label, place: usize) {
    let code = other_code(random, &[x.default, STAR]);
    x.words[place + 1] = word(category_of(x.words[place]), code);
}

/// A word with category 0 and a code that is not 0 is a used word with a category below 1 (RULES 2.3, 2.14
/// (f)).
fn name_category_zero(random: &mut Random, x: &mut Label, place: usize, count: usize) {
    let code = if random.chance(80) { other_code(random, &[x.default, STAR]) } else { 7 };
    let at = match random.below(3) {
        0 => 0,
        1 => place,
        _ => count.min(WORDS - 1),
    };
    x.words[at] = word(0, code);
}

/// The word of a pair before the last is made 0, or the last pair stands apart.
fn leave_a_gap(random: &mut Random, x: &mut Label, place: usize, count: usize) {
    if count < WORDS && random.chance(50) {
        x.words.swap(count - 1, random.between(count as u64, WORDS as u64 - 1) as usize);
    } else {
        x.words[place.min(count - 2)] = 0;
    }
}

/// Where the new pair falls among those that stand.
#[derive(Clone, Copy, PartialEq, Eq)]
pub enum Place {
    First,
    Middle,
    Last,
}

/// An insertion into a label of `count` pairs, at this place as far as there is one.
pub fn insertion(random: &mut Random, count: usize, place: Place) -> Case {
    let all = categories(random, count + 1);
    let new = match place {
        Place::First => 0,
        Place::Middle => count / 2,
        Place::Last => count,
    };
    let default = random.between(1, 4) as u8;
    let mut x = Label::plain(default);
    for (i, category) in all.iter().enumerate() {
        if i != new {
            x = x.insert(*category, other_code(random, &[default])).expect("at most eight pairs");
        }
    }
    let number = word(all[new], other_code(random, &[default]));
    Case { operation: INSERT, number, x, y: label(random, 2, true), z: label(random, 2, true) }
}

/// A look-up at a category that the label names, or at one that it does not.
pub fn look_up(random: &mut Random, count: usize, named: bool) -> Case {
    let x = label(random, count, true);
    let named_ones = x.categories();
    let number =
        if named && count > 0 { random.pick(&named_ones) } else { unnamed_category(random, &named_ones) };
    Case { operation: LEVEL_AT, number, x, y: label(random, 2, true), z: label(random, 2, true) }
}

/// Often the next number to one that is named.
fn unnamed_category(random: &mut Random, named: &[u64]) -> u64 {
    loop {
        let near = if named.is_empty() { random.between(1, 9) } else { random.pick(named) };
        let category = match random.below(4) {
            0 => random.between(1, PAST_THE_END - 1),
            1 => near.max(2) - 1,
            2 => (near + 1).min(PAST_THE_END - 1),
            _ => near.max(2) / 2,
        };
        if !named.contains(&category) {
            return category;
        }
    }
}
