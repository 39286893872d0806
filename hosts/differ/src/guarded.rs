//! Bytes lent from the middle of a larger buffer, so that a write outside of what was lent shows.

use std::sync::atomic::{AtomicUsize, Ordering};

/// How many bytes stand before and after; odd, so that what is lent begins at no even place.
static GUARD: AtomicUsize = AtomicUsize::new(61);

/// From now on nothing stands around what is lent, so that a memory checker sees a read or write outside by itself.
pub fn lend_bare() {
    GUARD.store(0, Ordering::Relaxed);
}

#[derive(Clone)]
pub struct Guarded {
    buffer: Vec<u8>,
    guard: usize,
    len: usize,
}

fn pattern(place: usize) -> u8 {
    (place * 37 + 11) as u8
}

impl Guarded {
    pub fn new(bytes: &[u8]) -> Guarded {
        let guard = GUARD.load(Ordering::Relaxed);
        let end = guard + bytes.len();
        let mut buffer = Vec::with_capacity(end + guard);
        buffer.extend((0..guard).map(pattern));
        buffer.extend_from_slice(bytes);
        buffer.extend((end..end + guard).map(pattern));
        Guarded { buffer, guard, len: bytes.len() }
    }

    pub fn bytes(&self) -> &[u8] {
        &self.buffer[self.guard..self.guard + self.len]
    }

    pub fn bytes_mut(&mut self) -> &mut [u8] {
        &mut self.buffer[self.guard..self.guard + self.len]
    }

    /// Whether everything around the bytes is as it was.
    pub fn intact(&self) -> bool {
        let mut around = (0..self.guard).chain(self.guard + self.len..self.buffer.len());
        around.all(|place| self.buffer[place] == pattern(place))
    }

    /// Whether anything stands around the bytes.
    pub fn has_guards(&self) -> bool {
        self.guard > 0
    }

    /// The same with one byte changed just before or just after what is lent.
    pub fn overrun(&self, before: bool) -> Guarded {
        let mut other = self.clone();
        let place = if before { self.guard - 1 } else { self.guard + self.len };
        other.buffer[place] ^= 1;
        other
    }
}

impl AsRef<[u8]> for Guarded {
    fn as_ref(&self) -> &[u8] {
        self.bytes()
    }
}
