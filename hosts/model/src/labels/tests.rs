//! P1 to P10 of what is worked on paper (RULES 10.1), and what a label's form demands.

use super::*;

fn plain(default: u8) -> Label {
    Label::plain(default)
}

fn at5(code: u8) -> Label {
    Label::of(LEVEL_1, &[(5, code)])
}

#[test]
fn the_levels_have_the_codes_of_page_01() {
    assert_eq!([STAR, LEVEL_0, LEVEL_1, LEVEL_2, LEVEL_3, HIGH_STAR], [0, 1, 2, 3, 4, 5]);
}

#[test]
fn p1() {
    assert!(flows(&plain(LEVEL_1), &at5(LEVEL_3)));
}

#[test]
fn p2() {
    assert!(!flows(&at5(LEVEL_3), &plain(LEVEL_1)));
}

#[test]
fn p3() {
    assert!(flows_to_high(&at5(LEVEL_3), &at5(STAR)));
}

#[test]
fn p4() {
    assert!(flows(&at5(STAR), &plain(LEVEL_1)));
}

#[test]
fn p5() {
    assert!(!flows(&plain(LEVEL_2), &at5(LEVEL_3)));
}

#[test]
fn p6() {
    assert!(flows(&at5(LEVEL_3), &plain(LEVEL_3)));
}

#[test]
fn p7() {
    assert!(!flows(&plain(LEVEL_1), &Label::of(LEVEL_1, &[(7, LEVEL_0)])));
}

/// floor(X, Y) is Z: the levels agree at every category.
fn floor_is(x: &Label, y: &Label, z: &Label) -> bool {
    let mut categories = z.categories();
    categories.extend(x.categories());
    categories.extend(y.categories());
    categories.push(UNNAMED);
    categories.into_iter().all(|c| floor(x.level(c), y.level(c)) == z.level(c))
}

#[test]
fn p8() {
    assert!(floor_is(&at5(STAR), &at5(LEVEL_3), &at5(STAR)));
    assert!(floor_flows(&at5(STAR), &at5(LEVEL_3), &at5(STAR)));
}

#[test]
fn p9() {
    assert!(floor_is(&at5(LEVEL_2), &at5(LEVEL_3), &at5(LEVEL_3)));
    assert!(floor_flows(&at5(LEVEL_2), &at5(LEVEL_3), &at5(LEVEL_3)));
    assert!(!floor_flows(&at5(LEVEL_2), &at5(LEVEL_3), &at5(LEVEL_2)));
}

#[test]
fn p10() {
    assert_eq!(word(5, LEVEL_3), 44);
    assert_eq!((category_of(44), code_of(44)), (5, LEVEL_3));
}

#[test]
fn sixty_five_bytes_and_back() {
    let label = Label::of(LEVEL_1, &[(3, STAR), (300, LEVEL_3)]);
    let bytes = label.to_bytes();
    assert_eq!(bytes.len(), LABEL_LEN);
    assert_eq!(bytes[..11], [2, 24, 0, 0, 0, 0, 0, 0, 0, 0x64, 0x09]);
    assert_eq!(Label::parse(&bytes), Some(label));
    assert_eq!(Label::parse(&bytes[..64]), None);
    assert_eq!(Label::parse(&[bytes, vec![0]].concat()), None);
}

#[test]
fn the_default_is_compared_though_nobody_names_a_category() {
    let x = Label::of(LEVEL_2, &[(1, LEVEL_0), (2, LEVEL_0)]);
    let y = Label::of(LEVEL_1, &[(1, LEVEL_0), (2, LEVEL_0)]);
    assert!(!flows(&x, &y));
    assert!(flows(&y, &x));
}

#[test]
fn what_well_formed_asks() {
    let good = Label::of(LEVEL_1, &[(3, LEVEL_0), (4, LEVEL_3)]);
    assert!(good.well_formed(5, false));
    assert!(!good.well_formed(4, false));
    assert!(!Label::plain(STAR).well_formed(5, true));
    assert!(!Label::plain(5).well_formed(5, true));
    assert!(!Label::of(LEVEL_1, &[(3, LEVEL_1)]).well_formed(5, true));
    assert!(!Label::of(LEVEL_1, &[(3, 5)]).well_formed(5, true));
    assert!(Label::of(LEVEL_1, &[(3, STAR)]).well_formed(5, true));
    assert!(!Label::of(LEVEL_1, &[(3, STAR)]).well_formed(5, false));
    assert!(!Label::of(LEVEL_1, &[(3, LEVEL_0), (3, LEVEL_3)]).well_formed(5, true));
    assert!(!Label::of(LEVEL_1, &[(4, LEVEL_0), (3, LEVEL_3)]).well_formed(5, true));
}

#[test]
fn category_0_with_a_code_is_a_used_word_and_malformed() {
    assert!(!Label::of(LEVEL_1, &[(0, LEVEL_3)]).well_formed(5, true));
    assert!(!Label::of(LEVEL_1, &[(0, LEVEL_3), (3, LEVEL_3)]).well_formed(5, true));
}

#[test]
fn a_used_word_after_an_unused_one_is_malformed() {
    assert!(!Label::of(LEVEL_1, &[(0, 0), (3, LEVEL_3)]).well_formed(5, true));
    assert!(!Label::of(LEVEL_1, &[(3, LEVEL_3), (0, 0), (4, LEVEL_3)]).well_formed(5, true));
}

#[test]
fn a_pair_is_inserted_in_sorted_position_or_the_label_is_full() {
    let two = Label::of(LEVEL_1, &[(3, STAR), (7, LEVEL_3)]);
    let three = Label::of(LEVEL_1, &[(3, STAR), (5, LEVEL_0), (7, LEVEL_3)]);
    assert_eq!(two.insert(5, LEVEL_0), Some(three));
    let pairs: Vec<(u64, u8)> = (1..9).map(|c| (c, STAR)).collect();
    assert_eq!(Label::of(LEVEL_1, &pairs).insert(9, STAR), None);
}

#[test]
fn floor_and_join_may_name_sixteen_categories_together() {
    let low: Vec<(u64, u8)> = (1..9).map(|c| (c, STAR)).collect();
    let high: Vec<(u64, u8)> = (9..17).map(|c| (c, LEVEL_3)).collect();
    let x = Label::of(LEVEL_1, &low);
    let y = Label::of(LEVEL_1, &high);
    assert!(floor_flows(&x, &y, &y));
    assert!(!floor_flows(&x, &y, &x));
    assert!(flows_to_join_high(&Label::of(LEVEL_1, &[(1, LEVEL_3), (16, LEVEL_3)]), &y, &x));
    assert!(!flows_to_join(&Label::of(LEVEL_1, &[(1, LEVEL_3), (16, LEVEL_3)]), &y, &x));
}
