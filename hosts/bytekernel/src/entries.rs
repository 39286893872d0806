//! Lookups: rows by id, entries, and the units of a container.

use crate::labels::{may_read, may_write};
use crate::layout::*;
use crate::sound::live_rows;
use crate::{Turn, NO_ENTRY};

pub fn row_of(b: &Book, wanted: u64) -> Option<usize> {
    live_rows(b).find(|row| id(b, *row) == wanted)
}

/// The link of the object's row in the container's.
pub fn link_of(b: &Book, container: usize, object: usize) -> Option<usize> {
    (0..LINKS).find(|i| link(b, *i) == Some((container, object)))
}

/// RULES 3.3: "A container uses 1 unit and the quotas of all that is linked in it."
pub fn container_use(b: &Book, container: usize) -> u16 {
    let inside = (0..LINKS).filter_map(|i| link(b, i)).filter(|(from, _)| *from == container);
    1 + inside.map(|(_, object)| quota(b, object)).sum::<u16>()
}

/// RULES 3.4: "An object's spare is its quota minus the units it uses."
pub fn spare(b: &Book, row: usize) -> u16 {
    let used = match kind(b, row) {
        SEGMENT => 1 + blocks_for(len(b, row)) as u16,
        CONTAINER => container_use(b, row),
        _ => 1,
    };
    quota(b, row) - used
}

/// An entry (D, O): the rows of both, and the link.
pub struct Entry {
    pub d: usize,
    pub o: usize,
    pub link: usize,
}

impl Turn<'_> {
    /// RULES 6.5: "A container that the call names does not exist, is an object of another kind, or may not
    /// be read by the caller; .."
    pub fn container(&self, d: u64) -> Result<usize, u64> {
        let row = row_of(self.b, d).ok_or(NO_ENTRY)?;
        let readable = kind(self.b, row) == CONTAINER && may_read(self.label(), label(self.b, row));
        if readable {
            Ok(row)
        } else {
            Err(NO_ENTRY)
        }
    }

    pub fn entry(&self, d: u64, o: u64) -> Result<Entry, u64> {
        let d = self.container(d)?;
        let o = row_of(self.b, o).ok_or(NO_ENTRY)?;
        let link = link_of(self.b, d, o).ok_or(NO_ENTRY)?;
        Ok(Entry { d, o, link })
    }

    pub fn may_write(&self, row: usize) -> bool {
        may_write(self.label(), label(self.b, row))
    }
}
