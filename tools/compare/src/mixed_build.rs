//! The original Rust with document 01's hypot and std's min and max: it tells which leaf a difference of std comes from.

#![allow(dead_code)]

use crate::leaves::mixed_leaves as leaves;

include!(concat!(env!("OUT_DIR"), "/lib.rs"));

#[path = "oracle.rs"]
pub mod oracle;
