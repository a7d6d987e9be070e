//! The engine beside an independent one: the comparison of their answers and the benchmarks.
pub mod generate; // programs for the comparison: valid, damaged and random ones
#[path = "../../include/muntinyarrow.rs"]
pub mod muntinyarrow; // the proved engine, by its wrapper
pub mod programs; // a builder of programs in document 01's form
pub mod random; // a seeded generator of numbers
pub mod reference; // an engine written from documents 01 and 02 alone
pub mod workloads; // what the benchmarks run and check
