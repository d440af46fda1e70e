//! The benchmark: the comparison fitter that the library is timed against, and
//! the calls that are timed.

#![forbid(unsafe_code)]

pub mod fitter;
pub mod inputs;
pub mod run;
