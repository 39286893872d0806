//! Any of the sixteen calls.

use crate::*;
use flytewood_calls::{Call, Reply};

/// What an out number holds before the call, so that one left unwritten shows.
const UNWRITTEN: u64 = u64::MAX;

/// `output` is what calls 15 and 16 are lent for it.
pub fn call<A: AsRef<[u8]>>(
    b: &mut [u8],
    a: &mut [u8],
    caller: u64,
    call: &Call<A>,
    output: &mut [u8],
) -> Reply {
    let (mut value, mut part) = (UNWRITTEN, (0, 0));
    let v = &mut value;
    let answer = match call {
        Call::CreateCategory => create_category(b, a, caller, v),
        Call::SetLabel { label } => set_label(b, a, caller, label.as_ref(), v),
        Call::SetClearance { clearance } => set_clearance(b, a, caller, clearance.as_ref(), v),
        Call::CreateContainer { d, label, description, mask, quota } => {
            create_container(b, a, caller, *d, label.as_ref(), description.as_ref(), *mask, *quota, v)
        }
        Call::CreateSegment { d, label, description, quota } => {
            create_segment(b, a, caller, *d, label.as_ref(), description.as_ref(), *quota, v)
        }
        Call::CreateGate { d, label, clearance, entry, closure, description } => {
            let (label, clearance, closure) = (label.as_ref(), clearance.as_ref(), closure.as_ref());
            create_gate(b, a, caller, *d, label, clearance, *entry, closure, description.as_ref(), v)
        }
        Call::CreateThread { d, label, clearance, description } => {
            create_thread(b, a, caller, *d, label.as_ref(), clearance.as_ref(), description.as_ref(), v)
        }
        Call::Unreference { d, o } => unreference(b, a, caller, *d, *o, v),
        Call::LinkSegment { d1, o, d } => link_segment(b, a, caller, *d1, *o, *d, v),
        Call::FixQuota { d, o } => fix_quota(b, a, caller, *d, *o, v),
        Call::MoveQuota { d, o, n } => move_quota(b, a, caller, *d, *o, *n, v),
        Call::Read { d, s, k, from, count } => {
            part = (UNWRITTEN, UNWRITTEN);
            read(b, a, caller, *d, *s, *k, *from, *count, &mut part.0, &mut part.1, v)
        }
        Call::Write { d, s, k, from, count, bytes } => {
            write(b, a, caller, *d, *s, *k, *from, *count, bytes.as_ref(), v)
        }
        Call::Resize { d, s, length } => resize(b, a, caller, *d, *s, *length, v),
        Call::EnterGate { d, g, label_r, clearance_r, label_v, .. } => {
            let (label_r, clearance_r) = (label_r.as_ref(), clearance_r.as_ref());
            enter_gate(b, a, caller, *d, *g, label_r, clearance_r, label_v.as_ref(), output, v)
        }
        Call::Look { d, o, .. } => look(b, a, caller, *d, *o, output, v),
    };
    Reply { answer, value, part }
}
