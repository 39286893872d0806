//! Cases for the label rules: what is asked, in 204 bytes, and what `labels` answers, in one line.

use crate::labels::*;

pub const CASE_LEN: usize = 204;

pub const FLOWS: u8 = 0;
pub const FLOWS_TO_HIGH: u8 = 1;
pub const FLOOR_FLOWS: u8 = 2;
pub const FLOWS_TO_JOIN: u8 = 3;
pub const FLOWS_TO_JOIN_HIGH: u8 = 4;
pub const MAY_READ: u8 = 5;
pub const MAY_WRITE: u8 = 6;
pub const WELL_FORMED_STAR: u8 = 7;
pub const WELL_FORMED_NO_STAR: u8 = 8;
pub const INSERT: u8 = 9;
pub const LEVEL_AT: u8 = 10;

pub const COMPARISONS: [u8; 7] =
    [FLOWS, FLOWS_TO_HIGH, FLOOR_FLOWS, FLOWS_TO_JOIN, FLOWS_TO_JOIN_HIGH, MAY_READ, MAY_WRITE];

#[derive(Clone, Debug)]
pub struct Case {
    pub operation: u8,
    pub number: u64,
    pub x: Label,
    pub y: Label,
    pub z: Label,
}

#[derive(Clone, Debug, PartialEq, Eq)]
pub enum Verdict {
    Yes,
    No,
    Inserted(Label),
    Full,
    Level(u8),
}

impl Case {
    /// The operation, the number, then the labels X, Y and Z.
    pub fn to_bytes(&self) -> Vec<u8> {
        let mut bytes = vec![self.operation];
        bytes.extend_from_slice(&self.number.to_le_bytes());
        bytes.extend(self.x.to_bytes());
        bytes.extend(self.y.to_bytes());
        bytes.extend(self.z.to_bytes());
        bytes
    }

    pub fn verdict(&self) -> Verdict {
        match self.operation {
            INSERT => match self.x.insert(category_of(self.number), code_of(self.number)) {
                Some(label) => Verdict::Inserted(label),
                None => Verdict::Full,
            },
            LEVEL_AT => Verdict::Level(self.x.level(self.number)),
            _ => yes_or_no(self.holds()),
        }
    }

    fn holds(&self) -> bool {
        let (x, y, z) = (&self.x, &self.y, &self.z);
        match self.operation {
            FLOWS => flows(x, y),
            FLOWS_TO_HIGH => flows_to_high(x, y),
            FLOOR_FLOWS => floor_flows(x, y, z),
            FLOWS_TO_JOIN => flows_to_join(x, y, z),
            FLOWS_TO_JOIN_HIGH => flows_to_join_high(x, y, z),
            MAY_READ => may_read(x, y),
            MAY_WRITE => may_write(x, y),
            WELL_FORMED_STAR => x.well_formed(self.number, true),
            WELL_FORMED_NO_STAR => x.well_formed(self.number, false),
            other => panic!("operation {} has no verdict of yes or no", other),
        }
    }
}

fn yes_or_no(holds: bool) -> Verdict {
    if holds {
        Verdict::Yes
    } else {
        Verdict::No
    }
}

impl Verdict {
    pub fn line(&self) -> String {
        match self {
            Verdict::Yes => "1".to_string(),
            Verdict::No => "0".to_string(),
            Verdict::Inserted(label) => hex(&label.to_bytes()),
            Verdict::Full => "full".to_string(),
            Verdict::Level(code) => code.to_string(),
        }
    }
}

fn hex(bytes: &[u8]) -> String {
    bytes.iter().map(|byte| format!("{:02x}", byte)).collect()
}

/// What a comparison demands of the levels at one category; used only to steer the drawing of cases.
pub fn demands(operation: u8, x: u8, y: u8, z: u8) -> bool {
    match operation {
        FLOWS => x <= y,
        FLOWS_TO_HIGH => x <= high(y),
        FLOOR_FLOWS => floor(x, y) <= z,
        FLOWS_TO_JOIN => x <= join(y, z),
        FLOWS_TO_JOIN_HIGH => x <= join(y, high(z)),
        MAY_READ => y <= high(x),
        MAY_WRITE => x <= y && y <= high(x),
        other => panic!("operation {} compares nothing", other),
    }
}
