//! The original Rust with document 01's leaves and deliberate slips, each behind a switch (slips.rs).

#![allow(dead_code)]

use crate::leaves::exact_leaves as leaves;

include!(concat!(env!("OUT_DIR"), "/lib_slips.rs"));

#[path = "oracle.rs"]
pub mod oracle;
