//! Copies of the reference, each with one fault put into its text by build.rs; faults.rs has the list.

include!(concat!(env!("OUT_DIR"), "/copies.rs"));
