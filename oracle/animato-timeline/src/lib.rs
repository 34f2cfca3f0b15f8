//! animato-timeline of the given sources: its modules are named here. Added is one door, to a method
//! that the Rust keeps to its own crate.
#![allow(warnings)]

extern crate alloc;

include!(concat!(env!("OUT_DIR"), "/modules.rs"));

pub use group::AnimationGroup;
pub use sequence::Sequence;
pub use stagger::stagger;
pub use timeline::{At, Timeline, TimelineState};

/// `Timeline::add_boxed_with_duration`, which is `pub(crate)`.
pub fn add_boxed_with_duration(
    timeline: Timeline,
    label: String,
    animation: Box<dyn animato_core::Playable + Send>,
    at: At<'_>,
    duration: f32,
) -> Timeline {
    timeline.add_boxed_with_duration(label, animation, at, duration)
}
