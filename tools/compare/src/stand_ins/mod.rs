//! Small stand-ins for what the original Rust uses and what is not here: the crates enum_map and bitflags, and the parts of
//! game_controller_core other than types.rs. serde's attributes are taken out by build.rs.

pub mod bitflags;
pub mod enum_map;
pub mod game_controller_core;
