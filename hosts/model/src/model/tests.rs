//! The day `grantday` (RULES 10.2), the readings of page 01 that docs/DECISIONS.md lists (page 01: the user's
//! rules, which docs/RULES.md restates), mistakes easily made (RULES 10.3), quota 0 in a create (RULES 3.7),
//! and long drawn histories.

mod arguments;
mod defaults;
mod easy_errors;
mod effects;
mod grantday;
mod order;
mod soak;
mod soundness;
