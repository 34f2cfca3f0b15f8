//! animato-tween of the given sources, as far as the timeline needs it: its modules are named here,
//! and nothing is added.
#![allow(warnings)]

extern crate alloc;

include!(concat!(env!("OUT_DIR"), "/modules.rs"));

pub use loop_mode::Loop;
pub use stagger_pattern::{GridOrigin, StaggerPattern};
