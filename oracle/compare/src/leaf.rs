//! A leaf that records what it is sent, and replies as told.

use animato_core::{Playable, Update};
use std::any::Any;
use std::sync::Arc;
use std::sync::atomic::{AtomicBool, AtomicU8, AtomicU32, Ordering::Relaxed};

/// What one call sent to one leaf: "a byte (number of resets 0 to 2, plus 4 for an update, plus 8 for
/// a seek), the update amount, and the seek place; absent amounts are 0.0."
#[derive(Clone, Copy, PartialEq, Debug)]
pub struct Row {
    pub kind: u8,
    pub amount: f32,
    pub place: f32,
}

const UPDATED: u8 = 4;
const SOUGHT: u8 = 8;

/// Where a leaf records, and where its reply is told. Both ends of it are in one thread.
#[derive(Default)]
pub struct Record {
    kind: AtomicU8,
    amount: AtomicU32,
    place: AtomicU32,
    stopped: AtomicBool,
}

impl Record {
    pub fn clear(&self) {
        self.kind.store(0, Relaxed);
        self.amount.store(0, Relaxed);
        self.place.store(0, Relaxed);
    }

    pub fn row(&self) -> Row {
        Row {
            kind: self.kind.load(Relaxed),
            amount: f32::from_bits(self.amount.load(Relaxed)),
            place: f32::from_bits(self.place.load(Relaxed)),
        }
    }

    pub fn reply(&self, running: bool) {
        self.stopped.store(!running, Relaxed);
    }

    /// "In a row, resets come first, then update, then seek, never more than three steps in all":
    /// what the Rust sends otherwise, a row could not say, and the comparison ends.
    fn step(&self, before: u8, add: u8) {
        let kind = self.kind.load(Relaxed);
        let steps = (kind & 3) + (kind & UPDATED) / UPDATED + kind / SOUGHT;
        assert!(kind < before && steps < 3, "no row can say this step");
        self.kind.store(kind + add, Relaxed);
    }
}

pub struct Leaf {
    pub record: Arc<Record>,
    pub duration: f32,
}

impl Leaf {
    pub fn new(duration: f32) -> Self {
        Leaf {
            record: Arc::default(),
            duration,
        }
    }
}

impl Update for Leaf {
    fn update(&mut self, dt: f32) -> bool {
        self.record.step(UPDATED, UPDATED);
        self.record.amount.store(dt.to_bits(), Relaxed);
        !self.record.stopped.load(Relaxed)
    }
}

impl Playable for Leaf {
    fn duration(&self) -> f32 {
        self.duration
    }

    fn reset(&mut self) {
        self.record.step(2, 1);
    }

    fn seek_to(&mut self, progress: f32) {
        self.record.step(SOUGHT, SOUGHT);
        self.record.place.store(progress.to_bits(), Relaxed);
    }

    fn is_complete(&self) -> bool {
        false
    }

    fn as_any(&self) -> &dyn Any {
        self
    }

    fn as_any_mut(&mut self) -> &mut dyn Any {
        self
    }
}
