//! One call of either kernel, with everything it is lent made beforehand.

use flytewood_calls::{Call, Reply};
use flytewood_kernel::{Kernel, AREA_LEN};

/// The longest output: call 16's.
const LONGEST_OUTPUT: usize = 104;

#[derive(Clone, PartialEq, Eq)]
pub struct Areas {
    pub book: Vec<u8>,
    pub area: Vec<u8>,
}

impl Areas {
    pub fn new() -> Areas {
        Areas { book: vec![0; flytewood_kernel::book_len()], area: vec![0; AREA_LEN] }
    }

    /// The book comes last, so that what a call looks at was touched last.
    pub fn copy_from(&mut self, other: &Areas) {
        self.area.copy_from_slice(&other.area);
        self.book.copy_from_slice(&other.book);
    }
}

/// What a call hands back, and its output.
#[derive(Clone, Copy, Debug, PartialEq, Eq)]
pub struct Given {
    pub reply: Reply,
    pub output: [u8; LONGEST_OUTPUT],
}

impl Given {
    pub fn nothing() -> Given {
        Given { reply: Reply { answer: 0, value: 0, part: (0, 0) }, output: [0; LONGEST_OUTPUT] }
    }
}

/// A kernel: the areas, the caller, the call, and where what it hands back is put.
pub type Asked = fn(&mut Areas, u64, &Call, &mut Given);

/// The proved kernel, through its archive.
#[inline(never)]
pub fn proved(areas: &mut Areas, caller: u64, call: &Call, given: &mut Given) {
    let output = &mut given.output[..call.output_len()];
    given.reply = Kernel::over(&mut areas.book, &mut areas.area).call(caller, call, output);
}

/// The independent Rust kernel on the same bytes.
#[inline(never)]
pub fn written_in_rust(areas: &mut Areas, caller: u64, call: &Call, given: &mut Given) {
    let output = &mut given.output[..call.output_len()];
    given.reply = flytewood_bytekernel::call(&mut areas.book, &mut areas.area, caller, call, output);
}
