//! The inputs of the comparison, the programs that it runs, and its report.

pub mod buffers;
pub mod inputs;
pub mod marks;
pub mod programs;
pub mod progress;
pub mod refusals;
pub mod report;
pub mod rng;
pub mod sample;
pub mod stops;
pub mod table;
