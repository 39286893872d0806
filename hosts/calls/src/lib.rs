//! The sixteen calls, with their arguments exactly as they are lent, and what comes back: the form in which the model, the
//! archive and the byte kernel are all asked. Nothing here says what a call does.

/// Labels, clearances, descriptions, closures and bytes may have any length; outputs are known by their length. `B` is
/// what the lent bytes are kept in.
#[derive(Clone, Debug, PartialEq, Eq)]
pub enum Call<B = Vec<u8>> {
    CreateCategory,
    SetLabel {
        label: B,
    },
    SetClearance {
        clearance: B,
    },
    CreateContainer {
        d: u64,
        label: B,
        description: B,
        mask: u64,
        quota: u64,
    },
    CreateSegment {
        d: u64,
        label: B,
        description: B,
        quota: u64,
    },
    CreateGate {
        d: u64,
        label: B,
        clearance: B,
        entry: u64,
        closure: B,
        description: B,
    },
    CreateThread {
        d: u64,
        label: B,
        clearance: B,
        description: B,
    },
    Unreference {
        d: u64,
        o: u64,
    },
    /// The entry (d1, o), into d.
    LinkSegment {
        d1: u64,
        o: u64,
        d: u64,
    },
    FixQuota {
        d: u64,
        o: u64,
    },
    MoveQuota {
        d: u64,
        o: u64,
        n: i64,
    },
    Read {
        d: u64,
        s: u64,
        k: u64,
        from: u64,
        count: u64,
    },
    Write {
        d: u64,
        s: u64,
        k: u64,
        from: u64,
        count: u64,
        bytes: B,
    },
    Resize {
        d: u64,
        s: u64,
        length: u64,
    },
    EnterGate {
        d: u64,
        g: u64,
        label_r: B,
        clearance_r: B,
        label_v: B,
        output_len: u64,
    },
    Look {
        d: u64,
        o: u64,
        output_len: u64,
    },
}

/// What a call hands back beside its output. A read hands out a part of the data area: its place and its length, else 0.
#[derive(Clone, Copy, Debug, PartialEq, Eq)]
pub struct Reply {
    pub answer: u64,
    pub value: u64,
    pub part: (u64, u64),
}

impl<B> Call<B> {
    /// The call's number, 1 to 16: n of RULES 8.n.
    pub fn number(&self) -> u64 {
        match self {
            Call::CreateCategory => 1,
            Call::SetLabel { .. } => 2,
            Call::SetClearance { .. } => 3,
            Call::CreateContainer { .. } => 4,
            Call::CreateSegment { .. } => 5,
            Call::CreateGate { .. } => 6,
            Call::CreateThread { .. } => 7,
            Call::Unreference { .. } => 8,
            Call::LinkSegment { .. } => 9,
            Call::FixQuota { .. } => 10,
            Call::MoveQuota { .. } => 11,
            Call::Read { .. } => 12,
            Call::Write { .. } => 13,
            Call::Resize { .. } => 14,
            Call::EnterGate { .. } => 15,
            Call::Look { .. } => 16,
        }
    }

    /// How long the output is that the call is lent.
    pub fn output_len(&self) -> usize {
        match self {
            Call::EnterGate { output_len, .. } | Call::Look { output_len, .. } => *output_len as usize,
            _ => 0,
        }
    }

    /// The same call with its lent bytes kept elsewhere.
    pub fn map<C>(&self, mut kept: impl FnMut(&B) -> C) -> Call<C> {
        match self {
            Call::CreateCategory => Call::CreateCategory,
            Call::SetLabel { label } => Call::SetLabel { label: kept(label) },
            Call::SetClearance { clearance } => Call::SetClearance { clearance: kept(clearance) },
            Call::CreateContainer { d, label, description, mask, quota } => Call::CreateContainer {
                d: *d,
                label: kept(label),
                description: kept(description),
                mask: *mask,
                quota: *quota,
            },
            Call::CreateSegment { d, label, description, quota } => Call::CreateSegment {
                d: *d,
                label: kept(label),
                description: kept(description),
                quota: *quota,
            },
            Call::CreateGate { d, label, clearance, entry, closure, description } => Call::CreateGate {
                d: *d,
                label: kept(label),
                clearance: kept(clearance),
                entry: *entry,
                closure: kept(closure),
                description: kept(description),
            },
            Call::CreateThread { d, label, clearance, description } => Call::CreateThread {
                d: *d,
                label: kept(label),
                clearance: kept(clearance),
                description: kept(description),
            },
            &Call::Unreference { d, o } => Call::Unreference { d, o },
            &Call::LinkSegment { d1, o, d } => Call::LinkSegment { d1, o, d },
            &Call::FixQuota { d, o } => Call::FixQuota { d, o },
            &Call::MoveQuota { d, o, n } => Call::MoveQuota { d, o, n },
            &Call::Read { d, s, k, from, count } => Call::Read { d, s, k, from, count },
            Call::Write { d, s, k, from, count, bytes } => {
                Call::Write { d: *d, s: *s, k: *k, from: *from, count: *count, bytes: kept(bytes) }
            }
            &Call::Resize { d, s, length } => Call::Resize { d, s, length },
            Call::EnterGate { d, g, label_r, clearance_r, label_v, output_len } => Call::EnterGate {
                d: *d,
                g: *g,
                label_r: kept(label_r),
                clearance_r: kept(clearance_r),
                label_v: kept(label_v),
                output_len: *output_len,
            },
            &Call::Look { d, o, output_len } => Call::Look { d, o, output_len },
        }
    }
}
