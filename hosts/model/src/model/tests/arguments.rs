//! Readings on numbers and on answer 4 (docs/DECISIONS.md). RULES 6.4: "This test sees the arguments and the
//! next number, and nothing else.": every malformed call here names containers that are not there.

use crate::ask::*;
use crate::history::Script;
use crate::labels::*;
use crate::model::*;

const ABSENT: u64 = 999;

fn one() -> Label {
    Label::plain(LEVEL_1)
}

fn two() -> Label {
    Label::plain(LEVEL_2)
}

/// A label with star at a category that no call need have issued.
fn starred() -> Label {
    Label::of(LEVEL_1, &[(3, STAR)])
}

fn malformed(call: Call) {
    let mut s = Script::new("malformed", 5);
    s.refuse(MALFORMED, 6, call);
}

/// Well formed, so that the absent container decides.
fn in_order(call: Call) {
    let mut s = Script::new("in order", 5);
    s.refuse(NO_ENTRY, 6, call);
}

#[test]
fn at_2_to_the_61_every_call_answers_2_and_takes_no_number() {
    let mut s = Script::new("the end", LAST_FIRST_NUMBER);
    let last = s.world.next;
    assert_eq!(last, PAST_THE_END - 1);
    assert_eq!(s.grant(s.init(), category()), last);
    assert_eq!(s.world.next, PAST_THE_END);
    let before = s.world.clone();
    s.refuse(NUMBERS_ENDED, s.init(), category());
    s.refuse(NUMBERS_ENDED, ABSENT, look(ABSENT, ABSENT));
    assert_eq!(s.world, before);
}

#[test]
fn a_refusal_of_the_last_number_takes_it() {
    let mut s = Script::new("the end", LAST_FIRST_NUMBER);
    s.refuse(NO_LIVE_THREAD, ABSENT, category());
    s.refuse(NUMBERS_ENDED, s.init(), category());
}

#[test]
fn an_id_may_be_any_number_and_what_is_not_there_is_5_or_for_a_caller_3() {
    for id in [0, 7, ABSENT, PAST_THE_END, u64::MAX].iter() {
        let mut s = Script::new("any number", 5);
        s.refuse(NO_LIVE_THREAD, *id, category());
        s.refuse(NO_ENTRY, 6, look(*id, *id));
        s.refuse(NO_ENTRY, 6, unreference(5, *id));
        s.refuse(NO_ENTRY, 6, segment(*id, one(), 0));
    }
}

#[test]
fn a_caller_that_is_no_thread_answers_3() {
    let mut s = Script::new("no thread", 5);
    s.refuse(NO_LIVE_THREAD, 5, category());
}

#[test]
fn a_category_need_not_have_been_issued_but_is_below_the_calls_own_number() {
    let mut s = Script::new("own number", 5);
    s.refuse(MALFORMED, 6, set_label(Label::of(LEVEL_1, &[(7, LEVEL_2)])));
    s.grant(6, set_label(Label::of(LEVEL_1, &[(7, LEVEL_2)])));
}

#[test]
fn slices_of_the_wrong_length() {
    let short = vec![2; 64];
    let long = vec![0; 33];
    malformed(Call::SetLabel { label: short.clone() });
    malformed(Call::SetLabel { label: Vec::new() });
    malformed(Call::SetClearance { clearance: vec![2; 66] });
    malformed(Call::CreateSegment { d: ABSENT, label: short, description: zeros32(), quota: 0 });
    let label = one().to_bytes();
    malformed(Call::CreateSegment { d: ABSENT, label: label.clone(), description: long.clone(), quota: 0 });
    let clearance = two().to_bytes();
    malformed(Call::CreateThread { d: ABSENT, label, clearance, description: Vec::new() });
    malformed(gate_with(ABSENT, one(), two(), 0, long));
    malformed(Call::Look { d: ABSENT, o: ABSENT, output_len: 103 });
    malformed(Call::Look { d: ABSENT, o: ABSENT, output_len: 105 });
    in_order(look(ABSENT, ABSENT));
}

#[test]
fn a_gates_output_is_32_bytes() {
    for output_len in [0, 31, 33, u64::MAX].iter() {
        malformed(Call::EnterGate {
            d: ABSENT,
            g: ABSENT,
            label_r: one().to_bytes(),
            clearance_r: two().to_bytes(),
            label_v: one().to_bytes(),
            output_len: *output_len,
        });
    }
    in_order(enter(ABSENT, ABSENT, one(), two(), one()));
}

#[test]
fn star_stands_only_in_labels_of_threads_and_gates_and_in_the_verify_label() {
    malformed(set_clearance(starred()));
    malformed(container(ABSENT, starred(), 0, 0));
    malformed(segment(ABSENT, starred(), 0));
    malformed(thread(ABSENT, one(), starred()));
    malformed(gate(ABSENT, one(), starred(), 0));
    malformed(enter(ABSENT, ABSENT, one(), starred(), one()));
    in_order(thread(ABSENT, starred(), two()));
    in_order(gate(ABSENT, starred(), two(), 0));
    in_order(enter(ABSENT, ABSENT, starred(), two(), starred()));
    let mut s = Script::new("call 2 may hold star", 5);
    s.refuse(LABEL_CONDITION, 6, set_label(starred()));
}

#[test]
fn a_word_with_category_0_is_malformed() {
    malformed(set_label(Label::of(LEVEL_1, &[(0, LEVEL_2)])));
}

#[test]
fn masks_and_quotas_have_their_limits() {
    malformed(container(ABSENT, one(), 16, 0));
    malformed(container(ABSENT, one(), 0, 256));
    malformed(segment(ABSENT, one(), 256));
    malformed(segment(ABSENT, one(), u64::MAX));
    in_order(container(ABSENT, one(), 15, 255));
    in_order(segment(ABSENT, one(), 255));
}

#[test]
fn a_move_is_from_minus_256_to_256() {
    for n in [-257, 257, i64::MIN, i64::MAX].iter() {
        malformed(move_quota(ABSENT, ABSENT, *n));
    }
    in_order(move_quota(ABSENT, ABSENT, 256));
    in_order(move_quota(ABSENT, ABSENT, -256));
}

#[test]
fn a_part_lies_in_one_block_and_its_sum_does_not_wrap() {
    for (k, from, count) in [
        (254, 0, 0),
        (u64::MAX, 0, 0),
        (0, 65, 0),
        (0, 0, 65),
        (0, 64, 1),
        (0, u64::MAX, 1),
        (0, 1, u64::MAX),
    ]
    .iter()
    {
        malformed(read(ABSENT, ABSENT, *k, *from, *count));
        malformed(Call::Write {
            d: ABSENT,
            s: ABSENT,
            k: *k,
            from: *from,
            count: *count,
            bytes: vec![0; (*count).min(65) as usize],
        });
    }
    malformed(read(ABSENT, ABSENT, 0, u64::MAX, u64::MAX));
    in_order(read(ABSENT, ABSENT, 253, 64, 0));
    in_order(write(ABSENT, ABSENT, 253, 0, &[0; 64]));
}

#[test]
fn call_13_is_lent_exactly_count_bytes() {
    for len in [0, 2, 4, 64].iter() {
        malformed(Call::Write { d: ABSENT, s: ABSENT, k: 0, from: 0, count: 3, bytes: vec![0; *len] });
    }
    in_order(write(ABSENT, ABSENT, 0, 0, &[0; 3]));
}

#[test]
fn a_length_is_at_most_16256() {
    malformed(resize(ABSENT, ABSENT, 16_257));
    malformed(resize(ABSENT, ABSENT, u64::MAX));
    in_order(resize(ABSENT, ABSENT, 16_256));
}
