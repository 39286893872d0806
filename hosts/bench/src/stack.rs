//! How much stack a call uses: the stack below is painted, the call is made, and the paint that is gone is counted.

use crate::asking::{Areas, Asked, Given};
use crate::books::CALLER;
use flytewood_model::model::Call;
use std::thread;

const STACK: usize = 4 << 20;
const PAINTED: usize = 2 << 20;
const PAINT: u8 = 0xC3;
/// Frames of the painting itself, left alone.
const LEFT_ALONE: usize = 1024;

/// Bytes of stack below the function that makes the call; the areas are changed by it.
pub fn used(kernel: Asked, areas: &Areas, call: &Call) -> usize {
    let (mut areas, call) = (areas.clone(), call.clone());
    let measured = thread::Builder::new().stack_size(STACK).spawn(move || {
        let mut given = Given::nothing();
        measure(&mut || kernel(&mut areas, CALLER, &call, &mut given))
    });
    measured.expect("a thread").join().expect("a measure")
}

#[inline(never)]
fn measure(call: &mut dyn FnMut()) -> usize {
    let here = [0u8; 16];
    let top = here.as_ptr() as usize;
    paint(top);
    call();
    top - lowest_gone(top)
}

/// SAFETY of both: the thread's stack is 4 MiB, so 2 MiB below this frame are mapped and nobody's; what is
/// written or read there lies below every frame in use but this function's own, which is left alone.
#[inline(never)]
fn paint(top: usize) {
    for at in top - PAINTED..top - LEFT_ALONE {
        unsafe { std::ptr::write_volatile(at as *mut u8, PAINT) };
    }
}

#[inline(never)]
fn lowest_gone(top: usize) -> usize {
    let mut at = top - PAINTED;
    while at < top - LEFT_ALONE && unsafe { std::ptr::read_volatile(at as *const u8) } == PAINT {
        at += 1;
    }
    at
}
