//! The fleet board's archive, for the comparison and the benchmark.

pub mod archive;
