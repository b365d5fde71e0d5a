//! The original Rust with document 01's leaves, in which each test of docs/COACH.md records its number where it holds (told.rs).

#![allow(dead_code)]

use crate::leaves::exact_leaves as leaves;

include!(concat!(env!("OUT_DIR"), "/lib_told.rs"));

#[path = "oracle.rs"]
pub mod oracle;
