//! RULES 1.1: "An object is of one of four kinds, each with a code: thread (1), gate (2), segment (3),
//! container (4)."

use crate::labels::Label;

#[derive(Clone, Copy, Debug, PartialEq, Eq)]
pub enum Kind {
    Thread,
    Gate,
    Segment,
    Container,
}

impl Kind {
    pub fn number(self) -> u8 {
        match self {
            Kind::Thread => 1,
            Kind::Gate => 2,
            Kind::Segment => 3,
            Kind::Container => 4,
        }
    }

    /// RULES 1.6: ".. bit 0 forbids threads, bit 1 gates, bit 2 segments and bit 3 containers."
    pub fn mask_bit(self) -> u64 {
        1 << (self.number() - 1)
    }
}

/// What only one kind has.
#[derive(Clone, Debug, PartialEq, Eq)]
pub enum Body {
    Thread { clearance: Label },
    Gate { clearance: Label, entry: u64, closure: Vec<u8> },
    Segment { bytes: Vec<u8>, fixed: bool },
    Container { mask: u64 },
}

#[derive(Clone, Debug, PartialEq, Eq)]
pub struct Object {
    pub label: Label,
    pub description: Vec<u8>,
    pub quota: u64,
    pub body: Body,
}

impl Object {
    pub fn kind(&self) -> Kind {
        match self.body {
            Body::Thread { .. } => Kind::Thread,
            Body::Gate { .. } => Kind::Gate,
            Body::Segment { .. } => Kind::Segment,
            Body::Container { .. } => Kind::Container,
        }
    }

    /// The clearance of a thread or gate.
    pub fn clearance(&self) -> Option<Label> {
        match self.body {
            Body::Thread { clearance } | Body::Gate { clearance, .. } => Some(clearance),
            _ => None,
        }
    }

    /// The kinds that a container forbids; nothing for other objects.
    pub fn mask(&self) -> u64 {
        match self.body {
            Body::Container { mask } => mask,
            _ => 0,
        }
    }

    /// Whether this is a segment with its quota fixed.
    pub fn is_fixed(&self) -> bool {
        matches!(self.body, Body::Segment { fixed: true, .. })
    }

    /// A segment's bytes; none for other objects.
    pub fn bytes(&self) -> &[u8] {
        match &self.body {
            Body::Segment { bytes, .. } => bytes,
            _ => &[],
        }
    }
}

/// RULES 3.2: ".. with n bytes, 1 + (n + 63) / 64 rounded down."
pub fn segment_use(length: u64) -> u64 {
    1 + (length + 63) / 64
}
