//! The arguments of a call, to be changed one by one.

use flytewood_model::model::Call;

/// The unsigned numbers; the length of an output is none.
pub fn numbers(call: &mut Call) -> Vec<&mut u64> {
    match call {
        Call::CreateCategory | Call::SetLabel { .. } | Call::SetClearance { .. } => vec![],
        Call::CreateContainer { d, mask, quota, .. } => vec![d, mask, quota],
        Call::CreateSegment { d, quota, .. } => vec![d, quota],
        Call::CreateGate { d, entry, .. } => vec![d, entry],
        Call::CreateThread { d, .. } => vec![d],
        Call::Unreference { d, o } | Call::FixQuota { d, o } => vec![d, o],
        Call::LinkSegment { d1, o, d } => vec![d1, o, d],
        Call::MoveQuota { d, o, .. } | Call::Look { d, o, .. } => vec![d, o],
        Call::Read { d, s, k, from, count } => vec![d, s, k, from, count],
        Call::Write { d, s, k, from, count, .. } => vec![d, s, k, from, count],
        Call::Resize { d, s, length } => vec![d, s, length],
        Call::EnterGate { d, g, .. } => vec![d, g],
    }
}

/// The lent inputs.
pub fn slices(call: &mut Call) -> Vec<&mut Vec<u8>> {
    match call {
        Call::SetLabel { label } => vec![label],
        Call::SetClearance { clearance } => vec![clearance],
        Call::CreateContainer { label, description, .. } => vec![label, description],
        Call::CreateSegment { label, description, .. } => vec![label, description],
        Call::CreateGate { label, clearance, closure, description, .. } => {
            vec![label, clearance, closure, description]
        }
        Call::CreateThread { label, clearance, description, .. } => vec![label, clearance, description],
        Call::Write { bytes, .. } => vec![bytes],
        Call::EnterGate { label_r, clearance_r, label_v, .. } => vec![label_r, clearance_r, label_v],
        _ => vec![],
    }
}

/// The lent output's length.
pub fn output_len(call: &mut Call) -> Option<&mut u64> {
    match call {
        Call::EnterGate { output_len, .. } | Call::Look { output_len, .. } => Some(output_len),
        _ => None,
    }
}
