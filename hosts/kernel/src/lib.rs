//! Safe wrappers over the kernel's archive. Slices are lent with whatever length they have: a wrong length is the
//! kernel's business to refuse (1 for an area, 4 for an argument), so hostile lengths can be tried from safe code.
//!
//! Why this is sound: every pointer comes with the length of the slice it was taken from; the exclusive borrows keep
//! what is lent to one call from overlapping; and the part that a read names is looked up in the area with its bounds.

mod raw;

use flytewood_calls::{Call, Reply};
use std::ptr;

/// RULES 1.8: ".. the data area, 16,384 bytes in 256 blocks of 64."
pub const AREA_LEN: usize = 16_384;

/// What an out number holds before the call, so that one left unwritten shows.
const UNWRITTEN: u64 = u64::MAX;

/// The book's one length.
pub fn book_len() -> usize {
    // SAFETY: it takes nothing and looks at nothing.
    unsafe { raw::fw_book_len() as usize }
}

/// A book and a data area of the right lengths, all zero: no book before `start`.
pub struct Areas {
    pub book: Vec<u8>,
    pub area: Vec<u8>,
}

impl Areas {
    pub fn new() -> Areas {
        Areas { book: vec![0; book_len()], area: vec![0; AREA_LEN] }
    }

    pub fn lend(&mut self) -> Kernel<'_> {
        Kernel::over(&mut self.book, &mut self.area)
    }
}

impl Default for Areas {
    fn default() -> Areas {
        Areas::new()
    }
}

/// What every call but the read hands back.
#[derive(Clone, Copy, Debug, PartialEq, Eq)]
pub struct Answer {
    pub answer: u64,
    pub value: u64,
}

/// What a read hands back: also the part's place in the area, and that part of the area itself.
#[derive(Clone, Copy, Debug, PartialEq, Eq)]
pub struct Part<'a> {
    pub answer: u64,
    pub value: u64,
    pub place: u64,
    pub bytes: &'a [u8],
}

/// The two areas, lent to one call after the other.
pub struct Kernel<'a> {
    book: &'a mut [u8],
    area: &'a mut [u8],
    null_for_empty: bool,
}

/// RULES 9.3: "A slice is a pointer and a length, .."
type Lent = (*const u8, usize);
type LentMut = (*mut u8, usize);

fn answered(call: impl FnOnce(*mut u64) -> u64) -> Answer {
    let mut value = UNWRITTEN;
    let answer = call(&mut value);
    Answer { answer, value }
}

impl<'a> Kernel<'a> {
    /// Areas of any length.
    pub fn over(book: &'a mut [u8], area: &'a mut [u8]) -> Kernel<'a> {
        Kernel { book, area, null_for_empty: false }
    }

    /// RULES 9.3: "An empty slice may have any pointer, also null; ..": from now on with a null one.
    pub fn with_null_for_empty(mut self) -> Kernel<'a> {
        self.null_for_empty = true;
        self
    }

    pub fn book(&self) -> &[u8] {
        self.book
    }

    pub fn area(&self) -> &[u8] {
        self.area
    }

    fn lend(&self, bytes: &[u8]) -> Lent {
        let null = self.null_for_empty && bytes.is_empty();
        (if null { ptr::null() } else { bytes.as_ptr() }, bytes.len())
    }

    fn lend_out(&self, bytes: &mut [u8]) -> LentMut {
        let null = self.null_for_empty && bytes.is_empty();
        (if null { ptr::null_mut() } else { bytes.as_mut_ptr() }, bytes.len())
    }

    fn areas(&mut self) -> (LentMut, LentMut) {
        let null = self.null_for_empty;
        let lend = |bytes: &mut [u8]| {
            let pointer = if null && bytes.is_empty() { ptr::null_mut() } else { bytes.as_mut_ptr() };
            (pointer, bytes.len())
        };
        (lend(self.book), lend(self.area))
    }

    /// Answers 0, 1 or 4.
    pub fn start(&mut self, first: u64) -> u64 {
        let (b, a) = self.areas();
        // SAFETY: as the head of this file says, here and in every call below.
        unsafe { raw::fw_start(b.0, b.1, a.0, a.1, first) }
    }

    /// Any of the sixteen; `output` is what calls 15 and 16 are lent for it.
    pub fn call<B: AsRef<[u8]>>(&mut self, caller: u64, call: &Call<B>, output: &mut [u8]) -> Reply {
        let mut part = (0, 0);
        let Answer { answer, value } = match call {
            Call::CreateCategory => self.create_category(caller),
            Call::SetLabel { label } => self.set_label(caller, label.as_ref()),
            Call::SetClearance { clearance } => self.set_clearance(caller, clearance.as_ref()),
            Call::CreateContainer { d, label, description, mask, quota } => {
                self.create_container(caller, *d, label.as_ref(), description.as_ref(), *mask, *quota)
            }
            Call::CreateSegment { d, label, description, quota } => {
                self.create_segment(caller, *d, label.as_ref(), description.as_ref(), *quota)
            }
            Call::CreateGate { d, label, clearance, entry, closure, description } => {
                let (label, clearance) = (label.as_ref(), clearance.as_ref());
                self.create_gate(caller, *d, label, clearance, *entry, closure.as_ref(), description.as_ref())
            }
            Call::CreateThread { d, label, clearance, description } => {
                self.create_thread(caller, *d, label.as_ref(), clearance.as_ref(), description.as_ref())
            }
            Call::Unreference { d, o } => self.unreference(caller, *d, *o),
            Call::LinkSegment { d1, o, d } => self.link_segment(caller, *d1, *o, *d),
            Call::FixQuota { d, o } => self.fix_quota(caller, *d, *o),
            Call::MoveQuota { d, o, n } => self.move_quota(caller, *d, *o, *n),
            Call::Read { d, s, k, from, count } => {
                let read = self.read(caller, *d, *s, *k, *from, *count);
                part = (read.place, read.bytes.len() as u64);
                Answer { answer: read.answer, value: read.value }
            }
            Call::Write { d, s, k, from, count, bytes } => {
                self.write(caller, *d, *s, *k, *from, *count, bytes.as_ref())
            }
            Call::Resize { d, s, length } => self.resize(caller, *d, *s, *length),
            Call::EnterGate { d, g, label_r, clearance_r, label_v, .. } => {
                let (label_r, clearance_r) = (label_r.as_ref(), clearance_r.as_ref());
                self.enter_gate(caller, *d, *g, label_r, clearance_r, label_v.as_ref(), output)
            }
            Call::Look { d, o, .. } => self.look(caller, *d, *o, output),
        };
        Reply { answer, value, part }
    }

    /// Call 1.
    pub fn create_category(&mut self, caller: u64) -> Answer {
        let (b, a) = self.areas();
        answered(|value| unsafe { raw::fw_create_category(b.0, b.1, a.0, a.1, caller, value) })
    }

    /// Call 2.
    pub fn set_label(&mut self, caller: u64, label: &[u8]) -> Answer {
        let (b, a) = self.areas();
        let l = self.lend(label);
        answered(|value| unsafe { raw::fw_set_label(b.0, b.1, a.0, a.1, caller, l.0, l.1, value) })
    }

    /// Call 3.
    pub fn set_clearance(&mut self, caller: u64, clearance: &[u8]) -> Answer {
        let (b, a) = self.areas();
        let c = self.lend(clearance);
        answered(|value| unsafe { raw::fw_set_clearance(b.0, b.1, a.0, a.1, caller, c.0, c.1, value) })
    }

    /// Call 4.
    pub fn create_container(
        &mut self,
        caller: u64,
        d: u64,
        label: &[u8],
        description: &[u8],
        mask: u64,
        quota: u64,
    ) -> Answer {
        let (b, a) = self.areas();
        let (l, t) = (self.lend(label), self.lend(description));
        answered(|value| unsafe {
            raw::fw_create_container(b.0, b.1, a.0, a.1, caller, d, l.0, l.1, t.0, t.1, mask, quota, value)
        })
    }

    /// Call 5.
    pub fn create_segment(
        &mut self,
        caller: u64,
        d: u64,
        label: &[u8],
        description: &[u8],
        quota: u64,
    ) -> Answer {
        let (b, a) = self.areas();
        let (l, t) = (self.lend(label), self.lend(description));
        answered(|value| unsafe {
            raw::fw_create_segment(b.0, b.1, a.0, a.1, caller, d, l.0, l.1, t.0, t.1, quota, value)
        })
    }

    /// Call 6.
    #[allow(clippy::too_many_arguments)]
    pub fn create_gate(
        &mut self,
        caller: u64,
        d: u64,
        label: &[u8],
        clearance: &[u8],
        entry: u64,
        closure: &[u8],
        description: &[u8],
    ) -> Answer {
        let (b, a) = self.areas();
        let (l, c) = (self.lend(label), self.lend(clearance));
        let (x, t) = (self.lend(closure), self.lend(description));
        answered(|value| unsafe {
            raw::fw_create_gate(
                b.0, b.1, a.0, a.1, caller, d, l.0, l.1, c.0, c.1, entry, x.0, x.1, t.0, t.1, value,
            )
        })
    }

    /// Call 7.
    pub fn create_thread(
        &mut self,
        caller: u64,
        d: u64,
        label: &[u8],
        clearance: &[u8],
        description: &[u8],
    ) -> Answer {
        let (b, a) = self.areas();
        let (l, c, t) = (self.lend(label), self.lend(clearance), self.lend(description));
        answered(|value| unsafe {
            raw::fw_create_thread(b.0, b.1, a.0, a.1, caller, d, l.0, l.1, c.0, c.1, t.0, t.1, value)
        })
    }

    /// Call 8.
    pub fn unreference(&mut self, caller: u64, d: u64, o: u64) -> Answer {
        let (b, a) = self.areas();
        answered(|value| unsafe { raw::fw_unreference(b.0, b.1, a.0, a.1, caller, d, o, value) })
    }

    /// Call 9: the entry (d1, o), into d.
    pub fn link_segment(&mut self, caller: u64, d1: u64, o: u64, d: u64) -> Answer {
        let (b, a) = self.areas();
        answered(|value| unsafe { raw::fw_link_segment(b.0, b.1, a.0, a.1, caller, d1, o, d, value) })
    }

    /// Call 10.
    pub fn fix_quota(&mut self, caller: u64, d: u64, o: u64) -> Answer {
        let (b, a) = self.areas();
        answered(|value| unsafe { raw::fw_fix_quota(b.0, b.1, a.0, a.1, caller, d, o, value) })
    }

    /// Call 11.
    pub fn move_quota(&mut self, caller: u64, d: u64, o: u64, n: i64) -> Answer {
        let (b, a) = self.areas();
        answered(|value| unsafe { raw::fw_move_quota(b.0, b.1, a.0, a.1, caller, d, o, n, value) })
    }

    /// Call 12. A part that does not lie in the area would be the kernel's fault, and panics here.
    pub fn read(&mut self, caller: u64, d: u64, s: u64, k: u64, from: u64, count: u64) -> Part<'_> {
        let (b, a) = self.areas();
        let (mut place, mut length) = (UNWRITTEN, UNWRITTEN);
        let given = answered(|value| unsafe {
            raw::fw_read(b.0, b.1, a.0, a.1, caller, d, s, k, from, count, &mut place, &mut length, value)
        });
        let bytes = part_of(self.area, place, length).expect("a read hands out a part of the data area");
        Part { answer: given.answer, value: given.value, place, bytes }
    }

    /// Call 13.
    #[allow(clippy::too_many_arguments)]
    pub fn write(
        &mut self,
        caller: u64,
        d: u64,
        s: u64,
        k: u64,
        from: u64,
        count: u64,
        bytes: &[u8],
    ) -> Answer {
        let (b, a) = self.areas();
        let x = self.lend(bytes);
        answered(|value| unsafe {
            raw::fw_write(b.0, b.1, a.0, a.1, caller, d, s, k, from, count, x.0, x.1, value)
        })
    }

    /// Call 14.
    pub fn resize(&mut self, caller: u64, d: u64, s: u64, length: u64) -> Answer {
        let (b, a) = self.areas();
        answered(|value| unsafe { raw::fw_resize(b.0, b.1, a.0, a.1, caller, d, s, length, value) })
    }

    /// Call 15; `closure` is the output.
    #[allow(clippy::too_many_arguments)]
    pub fn enter_gate(
        &mut self,
        caller: u64,
        d: u64,
        g: u64,
        label_r: &[u8],
        clearance_r: &[u8],
        label_v: &[u8],
        closure: &mut [u8],
    ) -> Answer {
        let (b, a) = self.areas();
        let (r, c, v) = (self.lend(label_r), self.lend(clearance_r), self.lend(label_v));
        let x = self.lend_out(closure);
        answered(|value| unsafe {
            raw::fw_enter_gate(
                b.0, b.1, a.0, a.1, caller, d, g, r.0, r.1, c.0, c.1, v.0, v.1, x.0, x.1, value,
            )
        })
    }

    /// Call 16; `shown` is the output.
    pub fn look(&mut self, caller: u64, d: u64, o: u64, shown: &mut [u8]) -> Answer {
        let (b, a) = self.areas();
        let x = self.lend_out(shown);
        answered(|value| unsafe { raw::fw_look(b.0, b.1, a.0, a.1, caller, d, o, x.0, x.1, value) })
    }
}

/// The area's bytes from `place` on, `length` of them, if there are so many.
fn part_of(area: &[u8], place: u64, length: u64) -> Option<&[u8]> {
    let end = place.checked_add(length)?;
    if end > area.len() as u64 {
        return None;
    }
    area.get(place as usize..end as usize)
}

#[cfg(test)]
mod tests {
    use super::*;

    #[test]
    fn a_part_lies_within_the_area() {
        let area = [1, 2, 3, 4];
        assert_eq!(part_of(&area, 1, 2), Some(&area[1..3]));
        assert_eq!(part_of(&area, 4, 0), Some(&area[4..]));
        for (place, length) in
            [(0, 5), (4, 1), (5, 0), (u64::MAX, 1), (1, u64::MAX), (2, u64::MAX - 1)].iter()
        {
            assert_eq!(part_of(&area, *place, *length), None);
        }
    }

    /// The day `grantday` of RULES 10.2, its first lines: number, caller, call, answer, value.
    #[test]
    fn the_first_calls_of_grantday() {
        let mut areas = Areas::new();
        let mut kernel = areas.lend();
        let (one, secret) = (label(&[]), label(&[102 * 8 + 4]));
        let zeros = [0; 32];
        assert_eq!(kernel.start(100), 0);
        assert_eq!(kernel.create_category(101), Answer { answer: 0, value: 102 });
        let made = kernel.create_container(101, 100, &secret, &zeros, 0, 20);
        assert_eq!(made, Answer { answer: 0, value: 103 });
        assert_eq!(kernel.create_segment(101, 103, &secret, &zeros, 0), Answer { answer: 0, value: 104 });
        assert_eq!(kernel.resize(101, 103, 104, 256), Answer { answer: 0, value: 0 });
        assert_eq!(kernel.resize(101, 103, 104, 257), Answer { answer: 13, value: 0 });
        let mut clearance = one.clone();
        clearance[0] = 3;
        assert_eq!(
            kernel.create_thread(101, 100, &one, &clearance, &zeros),
            Answer { answer: 0, value: 107 }
        );
        let refused = Part { answer: 5, value: 0, place: 0, bytes: &[] };
        assert_eq!(kernel.read(107, 103, 104, 0, 0, 1), refused);
        assert_eq!(kernel.set_label(107, &secret), Answer { answer: 7, value: 0 });
    }

    /// Level 1 (code 2) but for these words.
    fn label(words: &[u64]) -> Vec<u8> {
        let mut bytes = vec![2];
        words.iter().for_each(|word| bytes.extend_from_slice(&word.to_le_bytes()));
        bytes.resize(65, 0);
        bytes
    }
}
