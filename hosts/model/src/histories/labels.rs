//! Calls 1 to 3: categories, labels and clearances.

use super::*;
use crate::ask::*;
use crate::history::Script;
use crate::model::*;

pub fn histories() -> Vec<History> {
    vec![
        eight_categories(),
        a_full_clearance(),
        a_label_only_rises(),
        a_star_given_up(),
        clearances(),
        malformed_labels(),
    ]
}

fn eight_categories() -> History {
    let mut s = Script::new("Eight categories fill a label, and the ninth is refused", FIRST);
    for _ in 0..8 {
        s.grant(INIT, category());
    }
    s.refuse(NINTH_PAIR, INIT, category());
    let seven: Vec<(u64, u8)> = (8..15).map(|c| (c, STAR)).collect();
    s.grant(INIT, set_label(Label::of(LEVEL_1, &seven)));
    s.refuse(NINTH_PAIR, INIT, category());
    let seven: Vec<(u64, u8)> = (8..15).map(|c| (c, LEVEL_3)).collect();
    s.grant(INIT, set_clearance(Label::of(LEVEL_2, &seven)));
    s.grant(INIT, category());
    s.refuse(LABEL_CONDITION, INIT, set_label(at(7, STAR)));
    s.end()
}

fn a_full_clearance() -> History {
    let mut s = Script::new("A full clearance alone refuses a category", 9);
    s.grant(10, set_clearance(eight(LEVEL_2, 1, LEVEL_1)));
    s.refuse(NINTH_PAIR, 10, category());
    s.refuse(LABEL_CONDITION, 10, set_clearance(two()));
    s.refuse(LABEL_CONDITION, 10, set_label(at(8, LEVEL_2)));
    let other = s.grant(10, thread(9, one(), one()));
    s.grant(other, category());
    s.refuse(NINTH_PAIR, 10, category());
    s.grant(10, set_clearance(one()));
    s.grant(10, category());
    s.refuse(LABEL_CONDITION, 10, set_clearance(two()));
    s.end()
}

fn a_label_only_rises() -> History {
    let mut s = Script::new("A thread raises its label and cannot lower it again", FIRST);
    let o = s.grant(INIT, segment(ROOT, one(), 2));
    s.grant(INIT, set_label(at(3, LEVEL_2)));
    s.refuse(LABEL_CONDITION, INIT, set_label(one()));
    s.refuse(LABEL_CONDITION, INIT, set_label(at(3, LEVEL_3)));
    s.refuse(LABEL_CONDITION, INIT, set_label(at(3, STAR)));
    s.refuse(LABEL_CONDITION, INIT, segment(ROOT, at(3, LEVEL_2), 0));
    s.grant(INIT, set_label(two()));
    s.grant(INIT, read(ROOT, o, 0, 0, 0));
    s.refuse(LABEL_CONDITION, INIT, write(ROOT, o, 0, 0, &[]));
    s.refuse(LABEL_CONDITION, INIT, set_label(at(3, LEVEL_2)));
    s.refuse(LABEL_CONDITION, INIT, unreference(ROOT, o));
    s.end()
}

fn a_star_given_up() -> History {
    let mut s = Script::new("A star given up is gone, but the clearance stays", FIRST);
    let c = s.grant(INIT, category());
    let d = s.grant(INIT, container(ROOT, at(c, LEVEL_3), 0, 9));
    let o = s.grant(INIT, segment(d, at(c, LEVEL_3), 2));
    s.grant(INIT, set_label(one()));
    s.refuse(LABEL_CONDITION, INIT, set_label(at(c, STAR)));
    s.refuse(NO_ENTRY, INIT, resize(d, o, 1));
    s.grant(INIT, set_label(at(c, LEVEL_3)));
    s.grant(INIT, resize(d, o, 1));
    s.grant(INIT, write(d, o, 0, 0, &[5]));
    s.refuse(LABEL_CONDITION, INIT, unreference(ROOT, d));
    s.grant(INIT, unreference(d, o));
    s.end()
}

fn clearances() -> History {
    let mut s = Script::new("A clearance sinks to the label and rises to the stars", FIRST);
    let c = s.grant(INIT, category());
    s.grant(INIT, set_clearance(cleared(c, LEVEL_0)));
    s.refuse(LABEL_CONDITION, INIT, set_label(at(c, LEVEL_3)));
    s.grant(INIT, set_clearance(cleared(c, LEVEL_3)));
    s.refuse(LABEL_CONDITION, INIT, set_clearance(cleared(3, LEVEL_3)));
    s.refuse(LABEL_CONDITION, INIT, set_clearance(zero()));
    s.refuse(LABEL_CONDITION, INIT, set_clearance(three()));
    s.grant(INIT, set_clearance(one()));
    s.refuse(LABEL_CONDITION, INIT, set_clearance(two()));
    s.grant(INIT, set_clearance(at(c, LEVEL_3)));
    s.refuse(LABEL_CONDITION, INIT, thread(ROOT, one(), two()));
    s.grant(INIT, thread(ROOT, at(c, LEVEL_2), at(c, LEVEL_3)));
    s.end()
}

/// Labels that are malformed for whoever lends them before number 20.
fn flaws() -> Vec<Label> {
    vec![
        Label::plain(STAR),
        Label::plain(HIGH_STAR),
        Label::plain(255),
        at(3, HIGH_STAR),
        at(3, 7),
        at(3, LEVEL_1),
        at(20, LEVEL_2),
        at(0, LEVEL_2),
        Label::of(LEVEL_1, &[(3, LEVEL_0), (3, LEVEL_2)]),
        Label::of(LEVEL_1, &[(4, LEVEL_2), (3, LEVEL_2)]),
        Label::of(LEVEL_1, &[(3, LEVEL_2), (0, 0), (4, LEVEL_2)]),
    ]
}

fn malformed_labels() -> History {
    let mut s = Script::new("Labels and clearances that are malformed, one of them for a while only", FIRST);
    let c = s.grant(INIT, category());
    s.refuse(MALFORMED, INIT, set_label(at(8, LEVEL_2)));
    for (i, label) in flaws().into_iter().enumerate() {
        let call = if i % 2 == 0 { set_label(label) } else { set_clearance(label) };
        s.refuse(MALFORMED, INIT, call);
    }
    s.refuse(MALFORMED, INIT, Call::SetLabel { label: Vec::new() });
    s.refuse(MALFORMED, INIT, Call::SetClearance { clearance: vec![2; 3] });
    s.refuse(MALFORMED, INIT, set_clearance(cleared(c, STAR)));
    s.grant(INIT, set_label(at(8, LEVEL_2)));
    s.end()
}
