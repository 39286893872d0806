//! The calls of a history: drawn to suit the world, so that about half are granted and rare refusals come up.

use flytewood_model::coverage::Seen;
use flytewood_model::drawn::Drawer;
use flytewood_model::labels::PAST_THE_END;
use flytewood_model::model::{Call, Kind, World, GRANTED};
use flytewood_model::random::Random;

use crate::arguments::{numbers, output_len, slices};

/// The longest segment that is asked for, but for those at the limit.
const LONGEST: u64 = 600;
/// How many calls are drawn in search of one that is granted, and of one that is refused in a rare way.
const DRAWN_FOR_A_GRANT: usize = 6;
const DRAWN_FOR_A_REFUSAL: usize = 4;
const GRANTS_WANTED: u64 = 52;

/// A call that was drawn, and what the model says to it.
struct Candidate {
    caller: u64,
    call: Call,
    answer: u64,
    leaves_a_thread: bool,
}

/// A caller and a call.
pub fn next_call(random: &mut Random, world: &World, seen: &Seen) -> (u64, Call) {
    let chosen = if random.chance(GRANTS_WANTED) {
        granted_one(random, world)
    } else {
        rarest_refusal(random, world, seen)
    };
    (chosen.caller, chosen.call)
}

fn granted_one(random: &mut Random, world: &World) -> Candidate {
    let mut last = candidate(random, world);
    for _ in 1..DRAWN_FOR_A_GRANT {
        if last.answer == GRANTED && last.leaves_a_thread {
            break;
        }
        last = candidate(random, world);
    }
    last
}

fn rarest_refusal(random: &mut Random, world: &World, seen: &Seen) -> Candidate {
    let drawn: Vec<Candidate> = (0..DRAWN_FOR_A_REFUSAL).map(|_| candidate(random, world)).collect();
    let cost = |one: &Candidate| {
        let times = seen.get(&(one.call.number(), one.answer)).copied().unwrap_or(0);
        (!one.leaves_a_thread, one.answer == GRANTED, times)
    };
    drawn.into_iter().min_by_key(cost).expect("something was drawn")
}

fn candidate(random: &mut Random, world: &World) -> Candidate {
    let (caller, call) = draw(random, world);
    let mut after = world.clone();
    let answer = after.call(caller, &call).answer;
    let leaves_a_thread = after.objects.values().any(|object| object.kind() == Kind::Thread);
    Candidate { caller, call, answer, leaves_a_thread }
}

/// One call to suit a world.
pub fn draw(random: &mut Random, world: &World) -> (u64, Call) {
    if world.next >= PAST_THE_END {
        return draw(random, &before_the_end(world));
    }
    let (caller, call) = Drawer { random: &mut *random, world, longest: LONGEST }.turn();
    varied(random, caller, call)
}

/// This call, 1 to 16, of this caller, to suit a world.
pub fn draw_of(random: &mut Random, world: &World, caller: u64, number: u64) -> Call {
    if world.next >= PAST_THE_END {
        return draw_of(random, &before_the_end(world), caller, number);
    }
    let call = Drawer { random: &mut *random, world, longest: LONGEST }.call_of(caller, number);
    varied(random, caller, call).1
}

fn varied(random: &mut Random, mut caller: u64, mut call: Call) -> (u64, Call) {
    fill_in(random, &mut call);
    match random.below(100) {
        0 => *random_number(random, &mut caller, &mut call) = extreme(random),
        1 => odd_length(random, &mut call),
        _ => {}
    }
    (caller, call)
}

/// The same world with a number left: past the end there is no word for a category.
fn before_the_end(world: &World) -> World {
    World { next: PAST_THE_END - 1, ..world.clone() }
}

/// Descriptions, closures and entry numbers are the callers' own, so they may be anything.
pub fn fill_in(random: &mut Random, call: &mut Call) {
    if let Call::CreateGate { entry, .. } = call {
        *entry = random.draw() >> random.below(64);
    }
    for slice in slices(call) {
        if slice.len() == 32 && slice.iter().all(|byte| *byte == 0) {
            slice.iter_mut().for_each(|byte| *byte = random.draw() as u8);
        }
    }
}

fn random_number<'a>(random: &mut Random, caller: &'a mut u64, call: &'a mut Call) -> &'a mut u64 {
    let mut all = numbers(call);
    all.push(caller);
    let one = random.below(all.len() as u64) as usize;
    all.swap_remove(one)
}

/// Numbers at the edges of what a word, a number and a limit can be.
pub const EXTREMES: [u64; 24] = [
    0,
    1,
    15,
    16,
    63,
    64,
    65,
    253,
    254,
    255,
    256,
    257,
    16_256,
    16_257,
    16_384,
    65_535,
    65_536,
    1 << 32,
    PAST_THE_END - 1,
    PAST_THE_END,
    (1 << 63) - 1,
    1 << 63,
    u64::MAX - 1,
    u64::MAX,
];

pub fn extreme(random: &mut Random) -> u64 {
    random.pick(&EXTREMES)
}

/// A slice or an output of another length.
fn odd_length(random: &mut Random, call: &mut Call) {
    if let Some(len) = output_len(call) {
        *len = random.pick(&[0, 1, 31, 33, 64, 103, 105, 500]);
    }
    let mut all = slices(call);
    if !all.is_empty() {
        let one = random.below(all.len() as u64) as usize;
        let len = random.pick(&[0, 1, 31, 33, 64, 66, 130]);
        all[one].resize(len, 1);
    }
}
