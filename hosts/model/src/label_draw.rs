//! Draws cases for the comparisons: which categories each label names, then levels steered towards a verdict.

use crate::label_cases::{demands, Case};
use crate::labels::*;
use crate::random::Random;

/// Which categories each of X, Y and Z names, rising.
pub struct Names {
    pub of: [Vec<u64>; 3],
}

impl Names {
    /// T may write O only where every category that O names is one that T names.
    pub fn y_within_x(&mut self) {
        let x = self.of[0].clone();
        self.of[1].retain(|category| x.contains(category));
    }
}

/// Where the comparison is to fail.
#[derive(Clone, Copy, PartialEq, Eq)]
pub enum Plan {
    Nowhere,
    AtOneNamed,
    OnlyUnnamed,
    Anywhere,
}

/// `count` rising categories out of one neighbourhood: small numbers, middling ones, or the last there are.
pub fn categories(random: &mut Random, count: usize) -> Vec<u64> {
    let span = count as u64 + random.below(5);
    let first = match random.below(4) {
        0 | 1 => 1,
        2 => random.between(2, 1 << 40),
        _ => PAST_THE_END - span,
    };
    let near: Vec<u64> = (first..first + span).collect();
    random.choose(&near, count)
}

/// No more than three pairs each.
pub fn small_names(random: &mut Random) -> Names {
    let pool = categories(random, 4);
    some_of(random, &pool, 0, 3)
}

/// Eight pairs each, mostly the same categories.
pub fn full_names(random: &mut Random) -> Names {
    let count = random.between(8, 10) as usize;
    let pool = categories(random, count);
    some_of(random, &pool, 8, 8)
}

/// X and Y name sixteen categories together; Z takes its eight from among them.
pub fn sixteen_names(random: &mut Random) -> Names {
    let pool = categories(random, 16);
    let x = match random.below(4) {
        0 => pool[..8].to_vec(),
        1 => pool[8..].to_vec(),
        2 => pool.iter().copied().step_by(2).collect(),
        _ => random.choose(&pool, 8),
    };
    let y = pool.iter().copied().filter(|c| !x.contains(c)).collect();
    let z = random.choose(&pool, 8);
    Names { of: [x, y, z] }
}

/// No category is named twice.
pub fn apart_names(random: &mut Random) -> Names {
    let pool = categories(random, 24);
    let mut of = [Vec::new(), Vec::new(), Vec::new()];
    for (place, category) in pool.into_iter().enumerate() {
        of[place % 3].push(category);
    }
    Names { of }
}

/// All three name the same categories.
pub fn same_names(random: &mut Random) -> Names {
    let count = random.between(1, 8) as usize;
    let pool = categories(random, count);
    Names { of: [pool.clone(), pool.clone(), pool] }
}

fn some_of(random: &mut Random, pool: &[u64], least: u64, most: u64) -> Names {
    let mut of = [Vec::new(), Vec::new(), Vec::new()];
    for names in of.iter_mut() {
        let count = random.between(least, most) as usize;
        *names = random.choose(pool, count);
    }
    Names { of }
}

/// A comparison whose labels have these names and which fails where the plan says, as far as levels allow.
pub fn comparison(random: &mut Random, operation: u8, names: &Names, plan: Plan) -> Case {
    let unnamed = wanted(random, plan, plan != Plan::OnlyUnnamed);
    let defaults = draw_until(random, operation, unnamed, |r| [0; 3].map(|_| r.between(1, 4) as u8));
    let all = all_names(names);
    let broken = if all.is_empty() { 0 } else { random.pick(&all) };
    let mut labels = [Label::plain(defaults[0]), Label::plain(defaults[1]), Label::plain(defaults[2])];
    for category in all {
        let holds = wanted(random, plan, plan != Plan::AtOneNamed || category != broken);
        let codes = draw_until(random, operation, holds, |r| codes_at(r, names, category, &defaults));
        for (label, code) in labels.iter_mut().zip(codes.iter()) {
            if *code != label.default {
                *label = label.insert(category, *code).expect("at most eight names each");
            }
        }
    }
    Case { operation, number: 0, x: labels[0], y: labels[1], z: labels[2] }
}

fn wanted(random: &mut Random, plan: Plan, planned: bool) -> bool {
    if plan == Plan::Anywhere {
        random.chance(85)
    } else {
        planned
    }
}

fn all_names(names: &Names) -> Vec<u64> {
    let mut all = names.of.concat();
    all.sort_unstable();
    all.dedup();
    all
}

/// A code that differs from the default where the label names the category, else the default.
fn codes_at(random: &mut Random, names: &Names, category: u64, defaults: &[u8; 3]) -> [u8; 3] {
    let mut codes = *defaults;
    for (i, code) in codes.iter_mut().enumerate() {
        if names.of[i].contains(&category) {
            *code = other_code(random, &[defaults[i]]);
        }
    }
    codes
}

/// A pair's code, none of those to avoid.
pub fn other_code(random: &mut Random, avoid: &[u8]) -> u8 {
    let codes: Vec<u8> = (STAR..=LEVEL_3).filter(|code| !avoid.contains(code)).collect();
    random.pick(&codes)
}

/// Some levels with the wanted verdict; after many tries, whatever came last.
fn draw_until(
    random: &mut Random,
    operation: u8,
    holds: bool,
    draw: impl Fn(&mut Random) -> [u8; 3],
) -> [u8; 3] {
    let mut codes = draw(random);
    for _ in 0..200 {
        if demands(operation, codes[0], codes[1], codes[2]) == holds {
            break;
        }
        codes = draw(random);
    }
    codes
}

/// A well-formed label of `count` pairs.
pub fn label(random: &mut Random, count: usize, star_allowed: bool) -> Label {
    let default = random.between(1, 4) as u8;
    let mut label = Label::plain(default);
    let avoid = if star_allowed { vec![default] } else { vec![default, STAR] };
    for category in categories(random, count) {
        let code = other_code(random, &avoid);
        label = label.insert(category, code).expect("at most eight pairs");
    }
    label
}

/// The same label but for one pair: another code there, or the pair left out.
pub fn but_for_one_pair(random: &mut Random, label: &Label) -> Label {
    let mut pairs = label.pairs();
    let place = random.below(pairs.len() as u64) as usize;
    if random.chance(25) {
        pairs.remove(place);
    } else {
        pairs[place].1 = other_code(random, &[label.default, pairs[place].1]);
    }
    Label::of(label.default, &pairs)
}

/// Labels with the same pairs and other defaults.
pub fn but_for_the_default(random: &mut Random) -> [Label; 3] {
    let x = random.between(1, 4) as u8;
    let y = other_code(random, &[STAR, x]);
    let z = random.pick(&[x, y]);
    let count = random.below(9) as usize;
    let pairs: Vec<(u64, u8)> =
        categories(random, count).into_iter().map(|c| (c, other_code(random, &[x, y]))).collect();
    [Label::of(x, &pairs), Label::of(y, &pairs), Label::of(z, &pairs)]
}
