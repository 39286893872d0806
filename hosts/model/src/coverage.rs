//! Which call gave which answer how often, and which answers each call can give.

use std::collections::BTreeMap;

/// How often each call gave each answer.
pub type Seen = BTreeMap<(u64, u64), usize>;

/// The answers that each call can give besides 1, which every call gives to bad areas.
pub const CAN_OCCUR: [(&str, &[u64]); 16] = [
    ("createCategory", &[0, 2, 3, 12]),
    ("setLabel", &[0, 2, 3, 4, 7]),
    ("setClearance", &[0, 2, 3, 4, 7]),
    ("createContainer", &[0, 2, 3, 4, 5, 7, 8, 13]),
    ("createSegment", &[0, 2, 3, 4, 5, 7, 8, 13]),
    ("createGate", &[0, 2, 3, 4, 5, 7, 8, 13]),
    ("createThread", &[0, 2, 3, 4, 5, 7, 8, 13]),
    ("unreference", &[0, 2, 3, 5, 7]),
    ("linkSegment", &[0, 2, 3, 5, 6, 7, 8, 9, 10, 13]),
    ("fixQuota", &[0, 2, 3, 5, 6, 7]),
    ("moveQuota", &[0, 2, 3, 4, 5, 6, 7, 9, 13]),
    ("read", &[0, 2, 3, 4, 5, 6, 7, 11]),
    ("write", &[0, 2, 3, 4, 5, 6, 7, 11]),
    ("resize", &[0, 2, 3, 4, 5, 6, 7, 13]),
    ("enterGate", &[0, 2, 3, 4, 5, 6, 7]),
    ("look", &[0, 2, 3, 4, 5]),
];

const BAD_AREA: u64 = 1;
const LAST_ANSWER: u64 = 13;

pub fn count_one(seen: &mut Seen, call: u64, answer: u64) {
    *seen.entry((call, answer)).or_insert(0) += 1;
}

/// The table of calls by answers. `!` stands for a cell that can occur and is empty, `.` for one that cannot occur.
pub struct Table<'a> {
    pub seen: &'a Seen,
    /// Whether the areas were lent too, so that answer 1 can occur.
    pub areas: bool,
}

impl Table<'_> {
    fn can_occur(&self, call: u64, answer: u64) -> bool {
        let (_, answers) = CAN_OCCUR[call as usize - 1];
        answers.contains(&answer) || (answer == BAD_AREA && self.areas)
    }

    fn times(&self, call: u64, answer: u64) -> usize {
        self.seen.get(&(call, answer)).copied().unwrap_or(0)
    }

    fn cells(&self) -> Vec<(u64, u64)> {
        (1..=16).flat_map(|call| (0..=LAST_ANSWER).map(move |answer| (call, answer))).collect()
    }

    /// The cells that are empty though they can occur.
    pub fn empty(&self) -> Vec<(u64, u64)> {
        let missing =
            |(call, answer): &(u64, u64)| self.can_occur(*call, *answer) && self.times(*call, *answer) == 0;
        self.cells().into_iter().filter(missing).collect()
    }

    /// The cells that are filled though they cannot occur.
    pub fn impossible(&self) -> Vec<(u64, u64)> {
        let odd =
            |(call, answer): &(u64, u64)| !self.can_occur(*call, *answer) && self.times(*call, *answer) > 0;
        self.cells().into_iter().filter(odd).collect()
    }

    pub fn lines(&self) -> Vec<String> {
        let width = self.seen.values().max().map_or(3, |most| most.to_string().len().max(3)) + 1;
        let answers = (0..=LAST_ANSWER).filter(|answer| *answer != BAD_AREA || self.areas);
        let answers: Vec<u64> = answers.collect();
        let heads: Vec<String> = answers.iter().map(|answer| format!("{:>width$}", answer)).collect();
        let mut lines = vec![format!("{:<19}{}", "answers", heads.concat())];
        for (call, (name, _)) in (1..).zip(CAN_OCCUR.iter()) {
            let cell = |answer: &u64| format!("{:>width$}", self.cell(call, *answer));
            let cells: Vec<String> = answers.iter().map(cell).collect();
            lines.push(format!("{:>2} {:<16}{}", call, name, cells.concat()));
        }
        lines
    }

    fn cell(&self, call: u64, answer: u64) -> String {
        match self.times(call, answer) {
            0 if self.can_occur(call, answer) => "!".to_string(),
            0 => ".".to_string(),
            times => times.to_string(),
        }
    }
}
