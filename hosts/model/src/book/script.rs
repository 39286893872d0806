//! The command file: `Z` clears the book, `W` writes one number into it, `V` asks for the verdict.

use super::*;

/// One number of one table, written as a whole.
#[derive(Clone, Copy, Debug, PartialEq, Eq, PartialOrd, Ord)]
pub struct Write {
    pub table: Table,
    pub number: usize,
    pub value: u64,
}

impl Write {
    pub fn apply(&self, book: &mut [u8]) {
        set(book, self.table, self.number, self.value);
    }

    /// What puts the old number back.
    pub fn undo(&self, book: &[u8]) -> Write {
        Write { value: get(book, self.table, self.number), ..*self }
    }
}

/// Keeps the book beside the commands, and what is not sound in it at each `V`.
pub struct Script {
    pub commands: Vec<u8>,
    pub book: Vec<u8>,
    pub verdicts: Vec<Vec<usize>>,
}

impl Script {
    pub fn new() -> Script {
        Script { commands: Vec::new(), book: vec![0; BOOK_LEN], verdicts: Vec::new() }
    }

    pub fn clear(&mut self) {
        self.commands.push(b'Z');
        self.book = vec![0; BOOK_LEN];
    }

    pub fn write(&mut self, write: Write) {
        self.commands.push(b'W');
        self.commands.extend_from_slice(&(write.table.place(write.number) as u32).to_le_bytes());
        self.commands.push(write.table.width as u8);
        self.commands.extend_from_slice(&write.value.to_le_bytes());
        write.apply(&mut self.book);
    }

    pub fn verdict(&mut self) {
        self.commands.push(b'V');
        self.verdicts.push(failing(&self.book));
    }

    /// One line for each verdict: its index, and 1 if sound else 0.
    pub fn lines(&self) -> String {
        let lines = self.verdicts.iter().enumerate();
        lines.map(|(index, failing)| format!("{} {}\n", index, u8::from(failing.is_empty()))).collect()
    }
}

impl Default for Script {
    fn default() -> Script {
        Script::new()
    }
}

/// Carries out a command file from its bytes alone: the verdicts it asks for, or nothing if it is no such file.
pub fn replay(commands: &[u8]) -> Option<Vec<bool>> {
    let mut book = vec![0; BOOK_LEN];
    let mut verdicts = Vec::new();
    let mut at = 0;
    while at < commands.len() {
        match commands[at] {
            b'Z' => book = vec![0; BOOK_LEN],
            b'V' => verdicts.push(sound(&book)),
            b'W' => {
                write_bytes(&mut book, commands.get(at + 1..at + 14)?)?;
                at += 13;
            }
            _ => return None,
        }
        at += 1;
    }
    Some(verdicts)
}

/// Offset in four bytes, width in one, value in eight.
fn write_bytes(book: &mut [u8], thirteen: &[u8]) -> Option<()> {
    let offset = thirteen[..4].iter().rev().fold(0, |sum, byte| sum * 256 + usize::from(*byte));
    let width = usize::from(thirteen[4]);
    let value = thirteen[5..].get(..width)?;
    book.get_mut(offset..offset + width)?.copy_from_slice(value);
    Some(())
}
