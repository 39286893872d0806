//! Short ways to write a call: labels as labels, descriptions zero, outputs of the right length.

use crate::labels::Label;
use crate::model::{Call, CLOSURE_LEN, DESCRIPTION_LEN, LOOK_LEN};

/// What quota 0 gave a container before W7; a call that relied on it passes it now.
pub const CONTAINER_QUOTA_BEFORE_W7: u64 = 16;

pub fn zeros32() -> Vec<u8> {
    vec![0; DESCRIPTION_LEN]
}

pub fn category() -> Call {
    Call::CreateCategory
}

pub fn set_label(label: Label) -> Call {
    Call::SetLabel { label: label.to_bytes() }
}

pub fn set_clearance(clearance: Label) -> Call {
    Call::SetClearance { clearance: clearance.to_bytes() }
}

pub fn container(d: u64, label: Label, mask: u64, quota: u64) -> Call {
    Call::CreateContainer { d, label: label.to_bytes(), description: zeros32(), mask, quota }
}

pub fn segment(d: u64, label: Label, quota: u64) -> Call {
    Call::CreateSegment { d, label: label.to_bytes(), description: zeros32(), quota }
}

/// A gate whose closure bytes are zero.
pub fn gate(d: u64, label: Label, clearance: Label, entry: u64) -> Call {
    gate_with(d, label, clearance, entry, zeros32())
}

pub fn gate_with(d: u64, label: Label, clearance: Label, entry: u64, closure: Vec<u8>) -> Call {
    Call::CreateGate {
        d,
        label: label.to_bytes(),
        clearance: clearance.to_bytes(),
        entry,
        closure,
        description: zeros32(),
    }
}

pub fn thread(d: u64, label: Label, clearance: Label) -> Call {
    Call::CreateThread { d, label: label.to_bytes(), clearance: clearance.to_bytes(), description: zeros32() }
}

pub fn unreference(d: u64, o: u64) -> Call {
    Call::Unreference { d, o }
}

/// The entry (d1, o), into d.
pub fn link(d1: u64, o: u64, d: u64) -> Call {
    Call::LinkSegment { d1, o, d }
}

pub fn fix(d: u64, o: u64) -> Call {
    Call::FixQuota { d, o }
}

pub fn move_quota(d: u64, o: u64, n: i64) -> Call {
    Call::MoveQuota { d, o, n }
}

pub fn read(d: u64, s: u64, k: u64, from: u64, count: u64) -> Call {
    Call::Read { d, s, k, from, count }
}

/// As many bytes as are lent.
pub fn write(d: u64, s: u64, k: u64, from: u64, bytes: &[u8]) -> Call {
    Call::Write { d, s, k, from, count: bytes.len() as u64, bytes: bytes.to_vec() }
}

pub fn resize(d: u64, s: u64, length: u64) -> Call {
    Call::Resize { d, s, length }
}

pub fn enter(d: u64, g: u64, label_r: Label, clearance_r: Label, label_v: Label) -> Call {
    Call::EnterGate {
        d,
        g,
        label_r: label_r.to_bytes(),
        clearance_r: clearance_r.to_bytes(),
        label_v: label_v.to_bytes(),
        output_len: CLOSURE_LEN as u64,
    }
}

pub fn look(d: u64, o: u64) -> Call {
    Call::Look { d, o, output_len: LOOK_LEN as u64 }
}
