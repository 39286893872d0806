//! One call to the archive, each slice lent from the middle of a guarded buffer.

use crate::guarded::Guarded;
use flytewood_calls::{Call, Reply};
use flytewood_kernel::Kernel;

/// What stands in an output before the call.
pub const UNTOUCHED: u8 = 0xA5;

/// What the kernel handed back.
#[derive(Clone, Debug, PartialEq, Eq)]
pub struct Given {
    pub answer: u64,
    pub value: u64,
    /// The output after the call, or the part that a read hands out.
    pub output: Vec<u8>,
    /// Where that part is in the data area.
    pub place: u64,
}

/// Asks the kernel; an error is a write where nothing was lent to be written.
pub fn ask(
    book: &mut Guarded,
    area: &mut Guarded,
    caller: u64,
    call: &Call,
    null: bool,
) -> Result<Given, String> {
    let inputs = call.map(|slice| Guarded::new(slice));
    let mut output = Guarded::new(&vec![UNTOUCHED; call.output_len()]);
    let kernel = Kernel::over(book.bytes_mut(), area.bytes_mut());
    let mut kernel = if null { kernel.with_null_for_empty() } else { kernel };
    let reply = kernel.call(caller, &inputs, output.bytes_mut());
    let outside = [
        (book.intact(), "around the book"),
        (area.intact(), "around the data area"),
        (output.intact(), "around the output"),
        (unchanged(&inputs, call), "in or around an input"),
    ];
    match outside.iter().find(|(intact, _)| !intact) {
        Some((_, place)) => Err(format!("the kernel wrote {}", place)),
        None => Ok(given(reply, area.bytes(), output.bytes())),
    }
}

fn unchanged(inputs: &Call<Guarded>, call: &Call) -> bool {
    let mut intact = true;
    let now = inputs.map(|lent| {
        intact &= lent.intact();
        lent.bytes().to_vec()
    });
    intact && now == *call
}

/// A read is lent no output, and no other call hands out a part.
fn given(reply: Reply, area: &[u8], output: &[u8]) -> Given {
    let (place, length) = reply.part;
    let part = &area[place as usize..(place + length) as usize];
    Given { answer: reply.answer, value: reply.value, output: [output, part].concat(), place }
}
