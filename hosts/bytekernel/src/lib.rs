//! A second kernel, for the benchmark: Start and the sixteen calls of page 01 (the user's rules, which
//! docs/RULES.md restates) straight on the bytes of the book (docs/BOOK.md) and the data area, with the
//! soundness of the whole book on every call. Its functions have the shape of the C interface. It was written
//! from page 01, the readings of it in docs/DECISIONS.md and docs/BOOK.md, before docs/RULES.md was there;
//! comments quote docs/RULES.md by number.

mod call;
mod creates;
mod entries;
mod gates;
mod labels;
mod layout;
mod quotas;
mod segments;
mod sound;
mod start;
mod threads;

pub use call::call;
pub use creates::{create_container, create_gate, create_segment, create_thread};
pub use gates::{enter_gate, look};
pub use quotas::{fix_quota, link_segment, move_quota, unreference};
pub use segments::{read, resize, write};
pub use start::start;
pub use threads::{create_category, set_clearance, set_label};

use labels::Label;
use layout::*;

pub const GRANTED: u64 = 0;
const BAD_AREAS: u64 = 1;
const NUMBERS_ENDED: u64 = 2;
const NO_LIVE_THREAD: u64 = 3;
const MALFORMED: u64 = 4;
const NO_ENTRY: u64 = 5;
const WRONG_KIND: u64 = 6;
const LABEL_CONDITION: u64 = 7;
const MASK_FORBIDS: u64 = 8;
const FIXED_OR_NOT: u64 = 9;
const ALREADY_LINKED: u64 = 10;
const BEYOND_THE_LENGTH: u64 = 11;
const NINTH_PAIR: u64 = 12;
const NOT_ENOUGH_SPARE: u64 = 13;

/// A granted call's value, or the refusal number.
type Judged = Result<u64, u64>;

/// The two areas, the caller's row and the call's own number.
struct Turn<'a> {
    b: &'a mut Book,
    a: &'a mut Area,
    t: usize,
    number: u64,
}

pub fn book_len() -> u64 {
    BOOK_LEN as u64
}

/// RULES 4.2: "Each call uses up its number, granted or refused, .. Only answers 1 and 2 use up none."
fn take(
    book: &mut [u8],
    area: &mut [u8],
    caller: u64,
    value: &mut u64,
    call: impl FnOnce(Turn) -> Judged,
) -> u64 {
    *value = 0;
    match judge(book, area, caller, call) {
        Ok(issued) => {
            *value = issued;
            GRANTED
        }
        Err(refusal) => refusal,
    }
}

fn judge(book: &mut [u8], area: &mut [u8], caller: u64, call: impl FnOnce(Turn) -> Judged) -> Judged {
    let b: &mut Book = book.try_into().map_err(|_| BAD_AREAS)?;
    let a: &mut Area = area.try_into().map_err(|_| BAD_AREAS)?;
    need(sound::sound(b), BAD_AREAS)?;
    let number = next(b);
    need(number < PAST_THE_END, NUMBERS_ENDED)?;
    set_next(b, number + 1);
    let t = entries::row_of(b, caller).filter(|row| kind(b, *row) == THREAD).ok_or(NO_LIVE_THREAD)?;
    call(Turn { b, a, t, number })
}

fn need(holds: bool, refusal: u64) -> Result<(), u64> {
    if holds {
        Ok(())
    } else {
        Err(refusal)
    }
}

impl Turn<'_> {
    fn label(&self) -> Label<'_> {
        label(self.b, self.t)
    }

    fn clearance(&self) -> Label<'_> {
        clearance(self.b, self.t)
    }

    /// A lent label that may hold star.
    fn lent_label<'a>(&self, bytes: &'a [u8]) -> Result<Label<'a>, u64> {
        self.lent(bytes, true)
    }

    /// A lent clearance, or the lent label of a container or segment.
    fn lent_starless<'a>(&self, bytes: &'a [u8]) -> Result<Label<'a>, u64> {
        self.lent(bytes, false)
    }

    fn lent<'a>(&self, bytes: &'a [u8], star_allowed: bool) -> Result<Label<'a>, u64> {
        Label::lent(bytes).filter(|label| label.well_formed(self.number, star_allowed)).ok_or(MALFORMED)
    }
}
