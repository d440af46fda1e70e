//! Hand-made cases for the sentences of document 01's rules: just kept and just
//! broken.

mod fields;
mod flags;
mod instruction;
mod journal;
mod object;
mod order;
mod pair;
mod placement;
mod relocation;
mod symbol;
