//! The programs on files: what they write, what they leave alone, and how they
//! end. One list of tests, run with both programs: `aktinoph`, which is proved,
//! and this package's own.

mod answers;
mod bench;
mod cuts;
mod errors;
mod links;
mod operations;
mod vectors;
