//! Labels where they lie: a default code and eight little-endian words, in the book or in a lent slice.

pub const STAR: u8 = 0;
pub const LEVEL_0: u8 = 1;
pub const LEVEL_1: u8 = 2;
pub const LEVEL_2: u8 = 3;
pub const LEVEL_3: u8 = 4;
const HIGH_STAR: u8 = 5;

pub const WORDS: usize = 8;
const LABEL_LEN: usize = 65;
static NO_WORDS: [u8; 8 * WORDS] = [0; 8 * WORDS];

/// Above every category: 2^61 - 1 is the last number (RULES 4.4).
const NO_CATEGORY: u64 = u64::MAX;

#[derive(Clone, Copy)]
pub struct Label<'a> {
    pub default: u8,
    words: &'a [u8; 8 * WORDS],
}

/// RULES 2.3: ".. 8 times its category plus its code: .."
pub fn word(category: u64, code: u8) -> u64 {
    category << 3 | u64::from(code)
}

fn category_of(word: u64) -> u64 {
    word >> 3
}

fn code_of(word: u64) -> u8 {
    (word & 7) as u8
}

impl<'a> Label<'a> {
    pub fn new(default: u8, words: &'a [u8; 8 * WORDS]) -> Label<'a> {
        Label { default, words }
    }

    /// A label made from its default alone.
    pub fn plain(default: u8) -> Label<'static> {
        Label { default, words: &NO_WORDS }
    }

    /// A lent label of 65 bytes; any other length is no label.
    pub fn lent(bytes: &'a [u8]) -> Option<Label<'a>> {
        if bytes.len() != LABEL_LEN {
            return None;
        }
        Some(Label { default: bytes[0], words: bytes[1..].try_into().ok()? })
    }

    pub fn words(&self) -> &'a [u8; 8 * WORDS] {
        self.words
    }

    fn word(&self, place: usize) -> u64 {
        u64::from_le_bytes(self.words[8 * place..8 * place + 8].try_into().unwrap())
    }

    /// How many pairs a well-formed label has.
    pub fn pairs(&self) -> usize {
        (0..WORDS).find(|place| self.word(*place) == 0).unwrap_or(WORDS)
    }

    /// `bound` is the call's own number, or the book's next one.
    pub fn well_formed(&self, bound: u64, star_allowed: bool) -> bool {
        let pairs = self.pairs();
        let mut before = 0;
        for place in 0..pairs {
            let (category, code) = (category_of(self.word(place)), code_of(self.word(place)));
            let rises = before < category && category < bound;
            let suits = code <= LEVEL_3 && code != self.default && (code != STAR || star_allowed);
            if !rises || !suits {
                return false;
            }
            before = category;
        }
        (LEVEL_0..=LEVEL_3).contains(&self.default) && (pairs..WORDS).all(|place| self.word(place) == 0)
    }
}

/// Goes along a well-formed label's pairs; past the last one it stands at `NO_CATEGORY`.
struct Walk<'a> {
    label: Label<'a>,
    place: usize,
    category: u64,
    code: u8,
}

impl<'a> Walk<'a> {
    fn new(label: Label<'a>) -> Walk<'a> {
        let mut walk = Walk { label, place: 0, category: 0, code: 0 };
        walk.stand();
        walk
    }

    fn stand(&mut self) {
        let word = if self.place < WORDS { self.label.word(self.place) } else { 0 };
        self.category = if word == 0 { NO_CATEGORY } else { category_of(word) };
        self.code = code_of(word);
    }

    /// The level at a category that is not before the one it stands at; a pair used is passed.
    fn level(&mut self, category: u64) -> u8 {
        if self.category != category {
            return self.label.default;
        }
        let code = self.code;
        self.place += 1;
        self.stand();
        code
    }
}

/// Whether the test holds at every category that is named, and at those that are not.
fn everywhere(x: Label, y: Label, test: impl Fn(u8, u8) -> bool) -> bool {
    let (mut x, mut y) = (Walk::new(x), Walk::new(y));
    let mut holds = test(x.label.default, y.label.default);
    while holds && x.category.min(y.category) != NO_CATEGORY {
        let category = x.category.min(y.category);
        holds = test(x.level(category), y.level(category));
    }
    holds
}

fn everywhere3(x: Label, y: Label, z: Label, test: impl Fn(u8, u8, u8) -> bool) -> bool {
    let (mut x, mut y, mut z) = (Walk::new(x), Walk::new(y), Walk::new(z));
    let mut holds = test(x.label.default, y.label.default, z.label.default);
    while holds && x.category.min(y.category).min(z.category) != NO_CATEGORY {
        let category = x.category.min(y.category).min(z.category);
        holds = test(x.level(category), y.level(category), z.level(category));
    }
    holds
}

/// RULES 2.8: "high(X) is X with high star in place of star."
fn high(code: u8) -> u8 {
    if code == STAR {
        HIGH_STAR
    } else {
        code
    }
}

/// RULES 2.10: "floor(X, Y) has star at each category where X has star or Y has star, and the greater code at
/// all others."
fn floor(x: u8, y: u8) -> u8 {
    if x == STAR || y == STAR {
        STAR
    } else {
        x.max(y)
    }
}

/// RULES 2.7: "X flows to Y if X(c) ≤ Y(c) at each category c that there is, named by a pair or not."
pub fn flows(x: Label, y: Label) -> bool {
    everywhere(x, y, |x, y| x <= y)
}

/// RULES 2.12: "T may read O if O's label flows to high(T's label)."
pub fn may_read(t: Label, o: Label) -> bool {
    everywhere(o, t, |o, t| o <= high(t))
}

/// RULES 2.13: "T may write O if T's label flows to O's label and T may read O."
pub fn may_write(t: Label, o: Label) -> bool {
    everywhere(t, o, |t, o| t <= o && o <= high(t))
}

/// floor(X, Y) flows to Z.
pub fn floor_flows(x: Label, y: Label, z: Label) -> bool {
    everywhere3(x, y, z, |x, y, z| floor(x, y) <= z)
}

/// X flows to join(Y, Z).
pub fn flows_to_join(x: Label, y: Label, z: Label) -> bool {
    everywhere3(x, y, z, |x, y, z| x <= y.max(z))
}

/// X flows to join(Y, high(Z)).
pub fn flows_to_join_high(x: Label, y: Label, z: Label) -> bool {
    everywhere3(x, y, z, |x, y, z| x <= y.max(high(z)))
}
