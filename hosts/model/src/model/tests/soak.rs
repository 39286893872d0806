//! Long drawn histories. `Script` itself demands a sound world after every call and an unchanged one after a refusal.

use crate::drawn::Drawer;
use crate::history::Script;
use crate::labels::may_write;
use crate::ledger::Ledger;
use crate::model::*;
use crate::random::Random;

/// Calls that would leave no thread to go on with are passed over.
fn drawn_history(seed: u64, calls: usize, mut watch: impl FnMut(&World, &World, u64, &Call, &Outcome)) {
    let mut random = Random::new(seed);
    let mut script = Script::new("drawn", first_number(seed));
    for _ in 0..calls {
        let before = script.world.clone();
        let (caller, call) = Drawer { random: &mut random, world: &before, longest: 2_000 }.turn();
        let mut tried = before.clone();
        tried.call(caller, &call);
        if tried.objects.values().any(|object| object.kind() == Kind::Thread) {
            let outcome = script.take(caller, call.clone());
            watch(&before, &script.world, caller, &call, &outcome);
        }
    }
}

fn first_number(seed: u64) -> u64 {
    1 + seed % 50
}

#[test]
fn spare_is_what_the_history_says() {
    for seed in 0..40 {
        let mut ledger = Ledger::start(first_number(seed));
        drawn_history(seed, 250, |_, after, _, call, outcome| {
            ledger.note(call, outcome, after);
            for container in after.containers() {
                assert_eq!(ledger.spare(container), after.spare(container) as i64);
            }
        });
    }
}

/// Demand 3 (docs/DEMANDS.md): "that spare shrinks only by a call of a thread whose label may write that
/// container".
#[test]
fn spare_shrinks_only_by_those_who_may_write() {
    for seed in 100..140 {
        drawn_history(seed, 250, |before, after, caller, call, _| {
            for container in before.containers() {
                let d = &before.objects[&container].label;
                let lives = after.objects.contains_key(&container);
                if lives && after.spare(container) < before.spare(container) {
                    assert!(may_write(&before.objects[&caller].label, d), "{:?}", call);
                }
            }
        });
    }
}

/// RULES 3.7: ".. 0 stands for a default: 8 for a container, .."
#[test]
fn quota_0_is_drawn_for_containers_and_means_8() {
    let (mut made, mut refused) = (0, 0);
    for seed in 300..420 {
        drawn_history(seed, 250, |before, after, _, call, outcome| match (call, outcome.answer) {
            (Call::CreateContainer { d, quota: 0, .. }, GRANTED) => {
                assert!(before.spare(*d) >= 8);
                assert_eq!(after.objects[&outcome.value].quota, 8);
                made += 1;
            }
            (Call::CreateContainer { d, quota: 0, .. }, NOT_ENOUGH_SPARE) => {
                assert!(before.spare(*d) < 8);
                refused += 1;
            }
            _ => {}
        });
    }
    assert!(made > 0 && refused > 0, "{} made, {} refused", made, refused);
}

#[test]
fn every_call_has_a_number_of_its_own() {
    for seed in 200..220 {
        drawn_history(seed, 200, |before, after, _, _, outcome| {
            assert_eq!(after.next, before.next + 1);
            assert!(outcome.answer == GRANTED || outcome.value == 0);
        });
    }
}
