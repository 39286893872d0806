use crate::ask::*;
use crate::labels::*;
use crate::model::{segment_use, Call, World};

const GRANTDAY: &str = "\
102 101 1 0 102
103 101 4 0 103
104 101 5 0 104
105 101 14 0 0
106 101 14 13 0
107 101 7 0 107
108 107 12 5 0
109 107 2 7 0
110 107 5 13 0
111 107 5 0 111
112 101 11 13 0
113 101 5 0 113
114 101 5 13 0
115 101 8 0 0
116 111 1 3 0
117 101 11 0 0
";

fn calls() -> Vec<(u64, Call)> {
    let one = Label::plain(LEVEL_1);
    let tainted = Label::of(LEVEL_1, &[(102, LEVEL_3)]);
    vec![
        (101, category()),
        (101, container(100, tainted, 0, 20)),
        (101, segment(103, tainted, 0)),
        (101, resize(103, 104, 256)),
        (101, resize(103, 104, 257)),
        (101, thread(100, one, Label::plain(LEVEL_2))),
        (107, read(103, 104, 0, 0, 1)),
        (107, set_label(tainted)),
        (107, segment(100, one, 234)),
        (107, segment(100, one, 233)),
        (101, move_quota(100, 103, 1)),
        (101, segment(103, tainted, 14)),
        (101, segment(103, tainted, 1)),
        (101, unreference(100, 111)),
        (111, category()),
        (101, move_quota(100, 103, 1)),
    ]
}

#[test]
fn grantday_prints_its_sixteen_lines() {
    let mut world = World::start(100).unwrap();
    let mut printed = String::new();
    for (caller, call) in calls() {
        let number = world.next;
        let outcome = world.call(caller, &call);
        assert!(world.sound());
        let line = format!("{} {} {} {} {}\n", number, caller, call.number(), outcome.answer, outcome.value);
        printed.push_str(&line);
    }
    assert_eq!(printed, GRANTDAY);
}

#[test]
fn p11() {
    assert_eq!([0, 64, 65].map(segment_use), [1, 2, 3]);
}

#[test]
fn a_start_takes_first_numbers_from_1_to_its_last() {
    assert_eq!(World::start(0), Err(4));
    assert_eq!(World::start(2305843009213693950), Err(4));
    assert_eq!(World::start(u64::MAX), Err(4));
    for first in [1, 100, 2305843009213693949].iter() {
        let world = World::start(*first).unwrap();
        assert!(world.sound());
        assert_eq!(world.next, first + 2);
        assert_eq!((world.uses(*first), world.spare(*first)), (2, 254));
    }
}
