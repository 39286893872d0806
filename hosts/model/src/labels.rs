//! Labels: section 2 of docs/RULES.md, straight from page 01 (the user's rules, which that page restates).
//! Nothing here is clever: a comparison collects every category that any of its labels names, adds one that
//! none of them names, and tests the inequality at each.

use std::collections::BTreeSet;

/// RULES 2.1: "A level is kept as a code: star is 0, and levels 0, 1, 2 and 3 are 1, 2, 3 and 4."
pub const STAR: u8 = 0;
pub const LEVEL_0: u8 = 1;
pub const LEVEL_1: u8 = 2;
pub const LEVEL_2: u8 = 3;
pub const LEVEL_3: u8 = 4;
/// RULES 2.1: "High star, 5, turns up only while labels are compared."
pub const HIGH_STAR: u8 = 5;

/// RULES 2.2: "A label consists of a default code and eight words."
pub const WORDS: usize = 8;
/// The default in one byte, then eight words of eight bytes.
pub const LABEL_LEN: usize = 65;
/// RULES 4.4: "The last number is 2305843009213693951, which is 2^61 - 1.": this is the first number past the
/// end.
pub const PAST_THE_END: u64 = 1 << 61;

/// No well-formed label names category 0, so it stands for all the categories that nobody names.
const UNNAMED: u64 = 0;

#[derive(Clone, Copy, Debug, PartialEq, Eq)]
pub struct Label {
    pub default: u8,
    pub words: [u64; WORDS],
}

/// RULES 2.3: "Any other word is a pair, 8 times its category plus its code: .."
pub fn word(category: u64, code: u8) -> u64 {
    category * 8 + u64::from(code)
}

pub fn category_of(word: u64) -> u64 {
    word / 8
}

pub fn code_of(word: u64) -> u8 {
    (word % 8) as u8
}

impl Label {
    /// A label made from its default alone.
    pub fn plain(default: u8) -> Label {
        Label { default, words: [0; WORDS] }
    }

    /// The label with these pairs (category, code), stored in the order given; at most eight.
    pub fn of(default: u8, pairs: &[(u64, u8)]) -> Label {
        let mut label = Label::plain(default);
        for (place, (category, code)) in pairs.iter().enumerate() {
            label.words[place] = word(*category, *code);
        }
        label
    }

    /// RULES 2.6: ".. the default code in the first, then each word in eight, the lowest byte first."; any
    /// other length is no label.
    pub fn parse(bytes: &[u8]) -> Option<Label> {
        if bytes.len() != LABEL_LEN {
            return None;
        }
        let mut label = Label::plain(bytes[0]);
        for (place, eight) in bytes[1..].chunks(8).enumerate() {
            let mut le = [0; 8];
            le.copy_from_slice(eight);
            label.words[place] = u64::from_le_bytes(le);
        }
        Some(label)
    }

    pub fn to_bytes(&self) -> Vec<u8> {
        let mut bytes = vec![self.default];
        for word in self.words.iter() {
            bytes.extend_from_slice(&word.to_le_bytes());
        }
        bytes
    }

    /// RULES 2.3: "A word of 0 is unused.": the others, in their order.
    pub fn used_words(&self) -> Vec<u64> {
        self.words.iter().copied().filter(|word| *word != 0).collect()
    }

    pub fn categories(&self) -> Vec<u64> {
        self.used_words().into_iter().map(category_of).collect()
    }

    pub fn pairs(&self) -> Vec<(u64, u8)> {
        self.used_words().into_iter().map(|word| (category_of(word), code_of(word))).collect()
    }

    /// What the label says at a category: its pair's code there, or the default.
    pub fn level(&self, category: u64) -> u8 {
        for word in self.used_words() {
            if category_of(word) == category {
                return code_of(word);
            }
        }
        self.default
    }

    /// `bound` is the call's own number (RULES 2.16).
    pub fn well_formed(&self, bound: u64, star_allowed: bool) -> bool {
        self.default_in_range()
            && self.used_words_come_first()
            && self.categories_rise()
            && self.used_words().into_iter().all(|word| self.pair_suits(word, bound, star_allowed))
    }

    /// RULES 2.14: "(c) the default code is 1, 2, 3 or 4;"
    fn default_in_range(&self) -> bool {
        LEVEL_0 <= self.default && self.default <= LEVEL_3
    }

    fn used_words_come_first(&self) -> bool {
        (1..WORDS).all(|i| self.words[i] == 0 || self.words[i - 1] != 0)
    }

    /// RULES 2.14: "(b) from each used word to the next the category grows;"
    fn categories_rise(&self) -> bool {
        let categories = self.categories();
        (1..categories.len()).all(|i| categories[i - 1] < categories[i])
    }

    /// RULES 2.14: "(d) no pair's code is above 4; (e) no pair has the default's code; (f) each category is
    /// at least 1 and less than n;"
    fn pair_suits(&self, word: u64, bound: u64, star_allowed: bool) -> bool {
        let category = category_of(word);
        let code = code_of(word);
        code <= LEVEL_3
            && code != self.default
            && category >= 1
            && category < bound
            && (code != STAR || star_allowed)
    }

    /// The label with one pair more, in sorted position; nothing where it would be the ninth (RULES 6.12).
    pub fn insert(&self, category: u64, code: u8) -> Option<Label> {
        let mut pairs = self.pairs();
        pairs.push((category, code));
        pairs.sort_unstable();
        if pairs.len() > WORDS {
            None
        } else {
            Some(Label::of(self.default, &pairs))
        }
    }
}

/// RULES 2.8: "high(X) is X with high star in place of star."
pub fn high(code: u8) -> u8 {
    if code == STAR {
        HIGH_STAR
    } else {
        code
    }
}

/// RULES 2.9: "join(X, Y) has at each category the greater of the two codes."
pub fn join(a: u8, b: u8) -> u8 {
    a.max(b)
}

/// RULES 2.10: "floor(X, Y) has star at each category where X has star or Y has star, and the greater code at
/// all others."
pub fn floor(a: u8, b: u8) -> u8 {
    if a == STAR || b == STAR {
        STAR
    } else {
        a.max(b)
    }
}

/// Whether the test holds "at each category c that there is, named by a pair or not" (RULES 2.7).
fn at_every_category(labels: &[&Label], test: impl Fn(u64) -> bool) -> bool {
    let mut categories = BTreeSet::new();
    for label in labels {
        categories.extend(label.categories());
    }
    categories.insert(UNNAMED);
    categories.into_iter().all(test)
}

/// RULES 2.7: "X flows to Y if X(c) ≤ Y(c) at each category c that there is, named by a pair or not."
pub fn flows(x: &Label, y: &Label) -> bool {
    at_every_category(&[x, y], |c| x.level(c) <= y.level(c))
}

/// X flows to high(Y).
pub fn flows_to_high(x: &Label, y: &Label) -> bool {
    at_every_category(&[x, y], |c| x.level(c) <= high(y.level(c)))
}

/// floor(X, Y) flows to Z.
pub fn floor_flows(x: &Label, y: &Label, z: &Label) -> bool {
    at_every_category(&[x, y, z], |c| floor(x.level(c), y.level(c)) <= z.level(c))
}

/// X flows to join(Y, Z).
pub fn flows_to_join(x: &Label, y: &Label, z: &Label) -> bool {
    at_every_category(&[x, y, z], |c| x.level(c) <= join(y.level(c), z.level(c)))
}

/// X flows to join(Y, high(Z)).
pub fn flows_to_join_high(x: &Label, y: &Label, z: &Label) -> bool {
    at_every_category(&[x, y, z], |c| x.level(c) <= join(y.level(c), high(z.level(c))))
}

/// RULES 2.12: "T may read O if O's label flows to high(T's label)."
pub fn may_read(t: &Label, o: &Label) -> bool {
    flows_to_high(o, t)
}

/// RULES 2.13: "T may write O if T's label flows to O's label and T may read O."
pub fn may_write(t: &Label, o: &Label) -> bool {
    flows(t, o) && flows_to_high(o, t)
}

#[cfg(test)]
mod tests;
