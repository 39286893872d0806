//! Writes the cases of the label rules, 204 bytes each, and the lines expected for them.
//!
//! `label_vectors CASES EXPECTED`

use std::collections::BTreeMap;
use std::env;
use std::fs;
use std::process::exit;

use flytewood_model::label_cases::*;
use flytewood_model::label_draw::*;
use flytewood_model::label_forms::*;
use flytewood_model::labels::*;
use flytewood_model::random::Random;

const SEED: u64 = 0x466C_7974_6577_6F6F;

fn main() {
    let arguments: Vec<String> = env::args().collect();
    if arguments.len() != 3 {
        eprintln!("usage: label_vectors CASES EXPECTED");
        exit(2);
    }
    let cases = all_cases();
    let bytes: Vec<u8> = cases.iter().flat_map(|case| case.to_bytes()).collect();
    let lines: Vec<String> =
        cases.iter().enumerate().map(|(i, case)| format!("{} {}\n", i, case.verdict().line())).collect();
    write(&arguments[1], &bytes);
    write(&arguments[2], lines.concat().as_bytes());
    print_table(&cases);
}

fn write(path: &str, bytes: &[u8]) {
    if let Err(error) = fs::write(path, bytes) {
        eprintln!("{}: {}", path, error);
        exit(1);
    }
}

fn all_cases() -> Vec<Case> {
    let mut random = Random::new(SEED);
    let mut cases = worked_on_paper();
    for operation in COMPARISONS.iter() {
        cases.extend(one_category(&mut random, *operation));
        cases.extend(defaults_alone(&mut random, *operation));
        cases.extend(nearly_equal(&mut random, *operation));
        cases.extend(drawn_comparisons(&mut random, *operation));
    }
    cases.extend(forms(&mut random));
    cases.extend(insertions(&mut random));
    cases.extend(look_ups(&mut random));
    cases
}

fn case(operation: u8, number: u64, x: Label, y: Label, z: Label) -> Case {
    Case { operation, number, x, y, z }
}

/// P1 to P9 of RULES 10.1, and the mistakes of RULES 10.3 that are about labels.
fn worked_on_paper() -> Vec<Case> {
    let one = Label::plain(LEVEL_1);
    let at5 = |code| Label::of(LEVEL_1, &[(5, code)]);
    vec![
        case(FLOWS, 0, one, at5(LEVEL_3), one),
        case(FLOWS, 0, at5(LEVEL_3), one, one),
        case(FLOWS_TO_HIGH, 0, at5(LEVEL_3), at5(STAR), one),
        case(FLOWS, 0, at5(STAR), one, one),
        case(FLOWS, 0, Label::plain(LEVEL_2), at5(LEVEL_3), one),
        case(FLOWS, 0, at5(LEVEL_3), Label::plain(LEVEL_3), one),
        case(FLOWS, 0, one, Label::of(LEVEL_1, &[(7, LEVEL_0)]), one),
        case(FLOOR_FLOWS, 0, at5(STAR), at5(LEVEL_3), at5(STAR)),
        case(FLOOR_FLOWS, 0, at5(LEVEL_2), at5(LEVEL_3), at5(LEVEL_3)),
        case(FLOOR_FLOWS, 0, at5(LEVEL_2), at5(LEVEL_3), at5(LEVEL_2)),
    ]
}

/// X and Y at one category in every way, default level 1, Z at random there.
fn one_category(random: &mut Random, operation: u8) -> Vec<Case> {
    let mut cases = Vec::new();
    for x in STAR..=LEVEL_3 {
        for y in STAR..=LEVEL_3 {
            let z = random.between(u64::from(STAR), u64::from(LEVEL_3)) as u8;
            cases.push(case(operation, 0, only_at(9, x), only_at(9, y), only_at(9, z)));
        }
    }
    cases
}

fn only_at(category: u64, code: u8) -> Label {
    if code == LEVEL_1 {
        Label::plain(LEVEL_1)
    } else {
        Label::of(LEVEL_1, &[(category, code)])
    }
}

/// Every two defaults, no pairs at all; then the same pairs with other defaults.
fn defaults_alone(random: &mut Random, operation: u8) -> Vec<Case> {
    let mut cases = Vec::new();
    for x in LEVEL_0..=LEVEL_3 {
        for y in LEVEL_0..=LEVEL_3 {
            let z = random.between(u64::from(LEVEL_0), u64::from(LEVEL_3)) as u8;
            cases.push(case(operation, 0, Label::plain(x), Label::plain(y), Label::plain(z)));
        }
    }
    for _ in 0..12 {
        let [x, y, z] = but_for_the_default(random);
        cases.push(case(operation, 0, x, y, z));
    }
    cases
}

/// Labels equal but for one pair, of one to eight pairs.
fn nearly_equal(random: &mut Random, operation: u8) -> Vec<Case> {
    let mut cases = Vec::new();
    for count in 1..=8 {
        for _ in 0..2 {
            let x = label(random, count, true);
            let y = but_for_one_pair(random, &x);
            let other = but_for_one_pair(random, &x);
            let z = random.pick(&[x, y, other]);
            cases.push(case(operation, 0, x, y, z));
        }
    }
    cases
}

fn drawn_comparisons(random: &mut Random, operation: u8) -> Vec<Case> {
    const PLANS: [Plan; 10] = [
        Plan::Nowhere,
        Plan::AtOneNamed,
        Plan::Nowhere,
        Plan::OnlyUnnamed,
        Plan::Nowhere,
        Plan::AtOneNamed,
        Plan::Nowhere,
        Plan::Anywhere,
        Plan::Nowhere,
        Plan::AtOneNamed,
    ];
    const SHAPES: [fn(&mut Random) -> Names; 5] =
        [small_names, full_names, sixteen_names, apart_names, same_names];
    let mut cases = Vec::new();
    for plan in PLANS.iter() {
        for shape in SHAPES.iter() {
            for _ in 0..3 {
                cases.push(as_planned(random, operation, *shape, *plan));
            }
        }
    }
    cases
}

/// Draws again where the levels did not allow the plan; after some tries, whatever came last.
fn as_planned(random: &mut Random, operation: u8, shape: fn(&mut Random) -> Names, plan: Plan) -> Case {
    let planned = if plan == Plan::Nowhere { Verdict::Yes } else { Verdict::No };
    let mut tries = 0;
    loop {
        let mut names = shape(random);
        if operation == MAY_WRITE && random.chance(75) {
            names.y_within_x();
        }
        let case = comparison(random, operation, &names, plan);
        tries += 1;
        if plan == Plan::Anywhere || case.verdict() == planned || tries == 8 {
            return case;
        }
    }
}

fn forms(random: &mut Random) -> Vec<Case> {
    let mut cases = by_hand(WELL_FORMED_STAR);
    cases.extend(by_hand(WELL_FORMED_NO_STAR));
    for form in FORMS.iter() {
        for operation in [WELL_FORMED_STAR, WELL_FORMED_NO_STAR].iter() {
            for _ in 0..13 {
                cases.push(form_case(random, *operation, *form));
            }
        }
    }
    cases
}

/// The edges of the number range, the edges of the eight words, and each default.
fn by_hand(operation: u8) -> Vec<Case> {
    let last = PAST_THE_END - 1;
    let eight: Vec<(u64, u8)> = (1..=8).map(|c| (c, LEVEL_3)).collect();
    let labels = [
        (PAST_THE_END, Label::of(LEVEL_1, &[(last, LEVEL_3)])),
        (last, Label::of(LEVEL_1, &[(last, LEVEL_3)])),
        (last, Label::of(LEVEL_1, &[(last - 1, LEVEL_3)])),
        (PAST_THE_END, Label::of(LEVEL_1, &[(1, LEVEL_0), (last, STAR)])),
        (PAST_THE_END, Label { default: LEVEL_1, words: [u64::MAX, 0, 0, 0, 0, 0, 0, 0] }),
        (1, Label::plain(LEVEL_1)),
        (1, Label::of(LEVEL_1, &[(1, LEVEL_3)])),
        (2, Label::of(LEVEL_1, &[(1, LEVEL_3)])),
        (9, Label::of(LEVEL_1, &eight)),
        (8, Label::of(LEVEL_1, &eight)),
        (9, Label::of(LEVEL_3, &eight)),
        (9, Label { default: LEVEL_1, words: [0, 0, 0, 0, 0, 0, 0, word(3, LEVEL_3)] }),
        (9, Label { default: LEVEL_1, words: [LEVEL_3.into(), 0, 0, 0, 0, 0, 0, 0] }),
        (9, Label { default: LEVEL_1, words: [0, 0, 0, 0, 0, 0, 0, LEVEL_3.into()] }),
        (9, Label::of(LEVEL_1, &[(3, LEVEL_0), (3, LEVEL_3)])),
        (9, Label::of(LEVEL_1, &[(3, LEVEL_3), (3, LEVEL_3)])),
        (9, Label::of(LEVEL_1, &[(3, LEVEL_3), (3, LEVEL_0)])),
        (9, Label::plain(LEVEL_0)),
        (9, Label::plain(LEVEL_2)),
        (9, Label::plain(LEVEL_3)),
        (9, Label::plain(STAR)),
        (9, Label::plain(HIGH_STAR)),
        (9, Label::plain(255)),
    ];
    let one = Label::plain(LEVEL_1);
    labels.iter().map(|(bound, label)| case(operation, *bound, *label, one, one)).collect()
}

fn insertions(random: &mut Random) -> Vec<Case> {
    let mut cases = Vec::new();
    for count in 0..=8 {
        for place in [Place::First, Place::Middle, Place::Last].iter() {
            for _ in 0..10 {
                cases.push(insertion(random, count, *place));
            }
        }
    }
    cases
}

fn look_ups(random: &mut Random) -> Vec<Case> {
    let mut cases = Vec::new();
    for count in 0..=8 {
        for _ in 0..13 {
            cases.push(look_up(random, count, true));
            cases.push(look_up(random, count, false));
        }
    }
    cases
}

fn print_table(cases: &[Case]) {
    let mut table: BTreeMap<(u8, &str), usize> = BTreeMap::new();
    for case in cases {
        *table.entry((case.operation, verdict_name(case))).or_insert(0) += 1;
    }
    eprintln!("operation verdict  cases");
    for ((operation, verdict), count) in &table {
        eprintln!("{:>9} {:<8} {:>5}", operation, verdict, count);
    }
    eprintln!("{:>9} {:<8} {:>5}", "all", "", cases.len());
}

fn verdict_name(case: &Case) -> &'static str {
    match case.verdict() {
        Verdict::Yes => "1",
        Verdict::No => "0",
        Verdict::Inserted(_) => "inserted",
        Verdict::Full => "full",
        Verdict::Level(_) if case.x.categories().contains(&case.number) => "named",
        Verdict::Level(_) => "unnamed",
    }
}
