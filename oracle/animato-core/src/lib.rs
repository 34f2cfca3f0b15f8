//! animato-core of the given sources: its modules are named here, and nothing is added.
#![allow(warnings)]

extern crate alloc;

include!(concat!(env!("OUT_DIR"), "/modules.rs"));

pub use easing::Easing;
pub use traits::{
    Animatable, AnimationIntrospection, AnimationKind, Inspectable, Interpolate, Playable,
    PlaybackState, Update,
};
