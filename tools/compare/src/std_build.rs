//! The original Rust with std's leaves. The oracle is a module in it, so that it reaches its private items.

#![allow(dead_code)]

use crate::leaves::std_leaves as leaves;

include!(concat!(env!("OUT_DIR"), "/lib.rs"));

#[path = "oracle.rs"]
pub mod oracle;
