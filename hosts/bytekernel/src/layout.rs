//! The book of docs/BOOK.md as bytes at fixed places, and the data area's blocks.

pub const BOOK_LEN: usize = 57_356;
pub const AREA_LEN: usize = 16_384;
pub const ROWS: usize = 256;
pub const LINKS: usize = 255;
pub const BLOCKS: usize = 256;
pub const BLOCK_LEN: usize = 64;
pub const TEXT_LEN: usize = 32;
const WORDS_LEN: usize = 64;

/// The first number past the end: 2^61 - 1 is the last (RULES 4.4).
pub const PAST_THE_END: u64 = 1 << 61;

pub const FREE: u8 = 0;
pub const THREAD: u8 = 1;
pub const GATE: u8 = 2;
pub const SEGMENT: u8 = 3;
pub const CONTAINER: u8 = 4;

const NEXT: usize = 0;
const ROOT: usize = 8;
const ID: usize = 16;
const KIND: usize = 2_064;
const MASK: usize = 2_320;
const FIXED: usize = 2_576;
const QUOTA: usize = 2_832;
const LEN: usize = 3_344;
const ENTRY: usize = 3_856;
const LABEL_DEFAULT: usize = 5_904;
const LABEL_WORDS: usize = 6_160;
const CLEAR_DEFAULT: usize = 22_544;
const CLEAR_WORDS: usize = 22_800;
const DESCRIPTION: usize = 39_184;
const CLOSURE: usize = 47_376;
const LINK_FROM: usize = 55_568;
const LINK_TO: usize = 56_078;
const OWNER: usize = 56_588;
const INDEX: usize = 57_100;

use crate::labels::Label;

pub type Book = [u8; BOOK_LEN];
pub type Area = [u8; AREA_LEN];

fn get16(b: &Book, at: usize) -> u16 {
    u16::from_le_bytes([b[at], b[at + 1]])
}

fn set16(b: &mut Book, at: usize, number: u16) {
    b[at..at + 2].copy_from_slice(&number.to_le_bytes());
}

fn get64(b: &Book, at: usize) -> u64 {
    u64::from_le_bytes(b[at..at + 8].try_into().unwrap())
}

fn set64(b: &mut Book, at: usize, number: u64) {
    b[at..at + 8].copy_from_slice(&number.to_le_bytes());
}

pub fn next(b: &Book) -> u64 {
    get64(b, NEXT)
}

pub fn set_next(b: &mut Book, number: u64) {
    set64(b, NEXT, number);
}

pub fn root(b: &Book) -> u64 {
    get64(b, ROOT)
}

pub fn set_root(b: &mut Book, id: u64) {
    set64(b, ROOT, id);
}

pub fn id(b: &Book, row: usize) -> u64 {
    get64(b, ID + 8 * row)
}

pub fn kind(b: &Book, row: usize) -> u8 {
    b[KIND + row]
}

pub fn mask(b: &Book, row: usize) -> u8 {
    b[MASK + row]
}

pub fn fixed(b: &Book, row: usize) -> u8 {
    b[FIXED + row]
}

pub fn set_fixed(b: &mut Book, row: usize) {
    b[FIXED + row] = 1;
}

pub fn quota(b: &Book, row: usize) -> u16 {
    get16(b, QUOTA + 2 * row)
}

pub fn set_quota(b: &mut Book, row: usize, units: u16) {
    set16(b, QUOTA + 2 * row, units);
}

pub fn len(b: &Book, row: usize) -> usize {
    usize::from(get16(b, LEN + 2 * row))
}

pub fn set_len(b: &mut Book, row: usize, len: usize) {
    set16(b, LEN + 2 * row, len as u16);
}

pub fn entry(b: &Book, row: usize) -> u64 {
    get64(b, ENTRY + 8 * row)
}

pub fn label(b: &Book, row: usize) -> Label<'_> {
    label_at(b, LABEL_DEFAULT + row, LABEL_WORDS + WORDS_LEN * row)
}

pub fn clearance(b: &Book, row: usize) -> Label<'_> {
    label_at(b, CLEAR_DEFAULT + row, CLEAR_WORDS + WORDS_LEN * row)
}

fn label_at(b: &Book, default: usize, words: usize) -> Label<'_> {
    Label::new(b[default], b[words..words + WORDS_LEN].try_into().unwrap())
}

pub fn set_label(b: &mut Book, row: usize, label: Label) {
    b[LABEL_DEFAULT + row] = label.default;
    b[LABEL_WORDS + WORDS_LEN * row..][..WORDS_LEN].copy_from_slice(label.words());
}

pub fn set_clearance(b: &mut Book, row: usize, clearance: Label) {
    b[CLEAR_DEFAULT + row] = clearance.default;
    b[CLEAR_WORDS + WORDS_LEN * row..][..WORDS_LEN].copy_from_slice(clearance.words());
}

/// A word is written in place: a pair more in the label.
pub fn set_label_word(b: &mut Book, row: usize, place: usize, word: u64) {
    set64(b, LABEL_WORDS + WORDS_LEN * row + 8 * place, word);
}

pub fn set_clearance_word(b: &mut Book, row: usize, place: usize, word: u64) {
    set64(b, CLEAR_WORDS + WORDS_LEN * row + 8 * place, word);
}

pub fn description(b: &Book, row: usize) -> &[u8] {
    &b[DESCRIPTION + TEXT_LEN * row..][..TEXT_LEN]
}

pub fn closure(b: &Book, row: usize) -> &[u8] {
    &b[CLOSURE + TEXT_LEN * row..][..TEXT_LEN]
}

/// An object as a create makes it; fields that its kind does not have are 0.
pub struct Row<'a> {
    pub id: u64,
    pub kind: u8,
    pub mask: u8,
    pub quota: u16,
    pub entry: u64,
    pub label: Label<'a>,
    pub clearance: Label<'a>,
    pub description: &'a [u8],
    pub closure: &'a [u8],
}

/// docs/BOOK.md: "A create writes every number of its row, and 0 where the kind has none."
pub fn write_row(b: &mut Book, row: usize, new: &Row) {
    set64(b, ID + 8 * row, new.id);
    b[KIND + row] = new.kind;
    b[MASK + row] = new.mask;
    b[FIXED + row] = 0;
    set_quota(b, row, new.quota);
    set_len(b, row, 0);
    set64(b, ENTRY + 8 * row, new.entry);
    set_label(b, row, new.label);
    set_clearance(b, row, new.clearance);
    b[DESCRIPTION + TEXT_LEN * row..][..TEXT_LEN].copy_from_slice(new.description);
    b[CLOSURE + TEXT_LEN * row..][..TEXT_LEN].copy_from_slice(new.closure);
}

pub fn free_row(b: &mut Book, row: usize) {
    b[KIND + row] = FREE;
}

/// The rows of a link in use: its container's and its object's. The numbers may be any in an unsound book.
pub fn link(b: &Book, link: usize) -> Option<(usize, usize)> {
    match get16(b, LINK_FROM + 2 * link) {
        0 => None,
        from => Some((usize::from(from) - 1, usize::from(get16(b, LINK_TO + 2 * link)))),
    }
}

pub fn set_link(b: &mut Book, link: usize, container: usize, object: usize) {
    set16(b, LINK_FROM + 2 * link, container as u16 + 1);
    set16(b, LINK_TO + 2 * link, object as u16);
}

pub fn free_link(b: &mut Book, link: usize) {
    set16(b, LINK_FROM + 2 * link, 0);
}

/// The segment's row of a block in use, and which of its blocks it is.
pub fn block(b: &Book, block: usize) -> Option<(usize, usize)> {
    match get16(b, OWNER + 2 * block) {
        0 => None,
        owner => Some((usize::from(owner) - 1, usize::from(b[INDEX + block]))),
    }
}

pub fn set_block(b: &mut Book, block: usize, segment: usize, index: usize) {
    set16(b, OWNER + 2 * block, segment as u16 + 1);
    b[INDEX + block] = index as u8;
}

pub fn free_block(b: &mut Book, block: usize) {
    set16(b, OWNER + 2 * block, 0);
}

/// RULES 5.10: "A segment has one block for each 64 bytes that it has or begins, .."
pub fn blocks_for(len: usize) -> usize {
    (len + BLOCK_LEN - 1) / BLOCK_LEN
}
