//! An independent reading of page 01 in plain Rust, to compare the kernel with. Page 01 is the user's rules,
//! which docs/RULES.md restates; this was written from page 01 alone, before docs/RULES.md was there.
//! Comments quote docs/RULES.md by number, as `RULES 3.4: ".."`, so that they can be looked up.

pub mod antt;
pub mod ask;
pub mod book;
pub mod coverage;
pub mod drawn;
pub mod histories;
pub mod history;
pub mod label_cases;
pub mod label_draw;
pub mod label_forms;
pub mod labels;
pub mod ledger;
pub mod model;
pub mod random;
pub mod steered;
