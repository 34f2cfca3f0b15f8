//! The Rust's side of the benchmark: makes the calls of the port's program `bench`, and prints what it
//! prints. tools/bench times the two beside each other.

use crate::checked::MAX_ENTRIES;
use animato_core::{Playable, Update};
use animato_timeline::{At, Timeline};
use animato_tween::Loop;
use std::any::Any;
use std::cell::Cell;
use std::hint::black_box;
use std::io::{self, Read};

/// What is timed, by its number in the input of `bench`.
#[derive(Clone, Copy)]
enum Job {
    /// Steps that reach nine tenths of the base in all.
    UpdateOnceSmall,
    /// A tenth of the base a step, and `play` at the end.
    UpdateOnceTenths,
    /// A base a step.
    UpdateForever,
    UpdatePingPong,
    SeekAbsOnce,
    SeekAbsForever,
    SeekPingPong,
    /// Entries of an empty timeline, again and again.
    Add,
    /// The longest walks that were found. The port refuses them by 5; the Rust lists all.
    LongestWalk,
}

const JOBS: [Job; 9] = [
    Job::UpdateOnceSmall,
    Job::UpdateOnceTenths,
    Job::UpdateForever,
    Job::UpdatePingPong,
    Job::SeekAbsOnce,
    Job::SeekAbsForever,
    Job::SeekPingPong,
    Job::Add,
    Job::LongestWalk,
];

/// What is sent to the leaves in one call, where they record it: a row for each.
struct Rows {
    kinds: [Cell<u8>; MAX_ENTRIES],
    amounts: [Cell<f32>; MAX_ENTRIES],
    places: [Cell<f32>; MAX_ENTRIES],
}

// The leaves have to be `Send`; they and the look are in one thread.
unsafe impl Sync for Rows {}

static ROWS: Rows = Rows {
    kinds: [const { Cell::new(0) }; MAX_ENTRIES],
    amounts: [const { Cell::new(0.0) }; MAX_ENTRIES],
    places: [const { Cell::new(0.0) }; MAX_ENTRIES],
};

impl Rows {
    /// A sum of the rows of n entries with what was seen before, as the port's `look`. It leaves them
    /// empty for the next call.
    fn look(&self, n: usize, before: u32) -> u32 {
        let rows = self.kinds.iter().zip(&self.amounts).zip(&self.places);
        rows.take(n)
            .fold(shifted(before), |seen, ((kind, amount), place)| {
                let (amount, place) = (amount.take().to_bits(), place.take().to_bits());
                seen ^ u32::from(kind.take()) ^ amount ^ place << 1
            })
    }
}

/// What was seen before, shifted as a checksum does, so that what is seen twice does not cancel out.
fn shifted(seen: u32) -> u32 {
    match seen % 2 {
        0 => seen / 2,
        _ => (seen / 2) ^ 0xedb8_8320,
    }
}

/// A timeline that is played, and what was seen of its rows.
struct Run {
    timeline: Timeline,
    entries: usize,
    looks: bool,
    seen: u32,
}

/// Reads which job (a byte), how many entries (two) and how many calls (four, the lowest first), and
/// prints the bits of what they come to. The job's number has 10 more where all rows are looked at after
/// every call.
pub fn run() -> Result<(), String> {
    let mut input = [0; 7];
    let read = io::stdin().read_exact(&mut input);
    read.map_err(|e| e.to_string())?;
    let [job, low, high, turns @ ..] = input;
    let entries = u16::from_le_bytes([low, high]);
    if usize::from(entries) > MAX_ENTRIES {
        return Err(format!("bench: {entries} entries"));
    }
    let looks = job > 9;
    let job = JOBS
        .get(usize::from(job % 10))
        .ok_or("bench: no such job")?;
    let (x, seen) = come_to(*job, looks, entries.into(), u32::from_le_bytes(turns));
    println!("{:08x} {seen:08x}", x.to_bits());
    Ok(())
}

/// Makes `turns` calls, and says what elapsed they come to, or base where entries are added, and the sum
/// of the rows that were looked at.
fn come_to(job: Job, looks: bool, entries: u32, turns: u32) -> (f32, u32) {
    let mut timeline = built(entries, looks, job);
    timeline.play();
    let base = timeline.duration();
    let mut run = Run {
        timeline,
        entries: entries as usize,
        looks,
        seen: 0,
    };
    ROWS.look(MAX_ENTRIES, 0);
    match job {
        Job::UpdateOnceSmall => run.updates(turns, base / turns as f32 * 0.9),
        Job::UpdateOnceTenths => run.updates(turns, base * 0.1),
        Job::UpdateForever | Job::UpdatePingPong => run.updates(turns, base),
        Job::SeekAbsOnce | Job::SeekAbsForever => {
            for turn in 0..turns {
                let secs = (turn % 1000) as f32 * 0.001 * base;
                run.timeline.seek_abs(black_box(secs));
                run.look();
            }
        }
        Job::SeekPingPong => {
            for turn in 0..turns {
                run.timeline.seek(black_box((turn % 1000) as f32 * 0.001));
                run.look();
            }
        }
        Job::Add => {
            for _ in 0..turns / entries.max(1) {
                run.timeline = black_box(built(entries, looks, job));
            }
            return (run.timeline.duration(), 0);
        }
        Job::LongestWalk => {
            run.timeline.seek_abs(f32::from_bits(0x48ed_ebf1));
            run.look();
            run.updates(turns, 0.09375);
        }
    }
    (run.timeline.elapsed(), run.seen)
}

impl Run {
    /// After every call.
    fn look(&mut self) {
        if self.looks {
            self.seen = ROWS.look(self.entries, self.seen);
        }
    }

    fn updates(&mut self, turns: u32, dt: f32) {
        for _ in 0..turns {
            let running = black_box(self.timeline.update(black_box(dt)));
            self.look();
            if !running {
                self.timeline.play();
                self.look();
            }
        }
    }
}

/// Entries that start one after another and overlap; in the longest walks, very short ones.
fn built(entries: u32, looks: bool, job: Job) -> Timeline {
    let mode = match job {
        Job::UpdateForever | Job::SeekAbsForever | Job::LongestWalk => Loop::Forever,
        Job::UpdatePingPong | Job::SeekPingPong => Loop::PingPong,
        _ => Loop::Once,
    };
    let timeline = Timeline::new().looping(mode);
    (0..entries).fold(timeline, |timeline, index| {
        let (start, duration) = match job {
            Job::LongestWalk => (0.0, f32::from_bits(0x38ed_eecc)),
            _ => (index as f32 * 0.05, 1.0 + index as f32 * 0.01),
        };
        let (still, at) = (Still { duration }, At::Absolute(start));
        match looks {
            false => timeline.add("item", still, at),
            true => timeline.add(
                "item",
                Recording {
                    still,
                    index: index as u8,
                },
                at,
            ),
        }
    })
}

/// A leaf that does as little as can be.
struct Still {
    duration: f32,
}

impl Update for Still {
    fn update(&mut self, _dt: f32) -> bool {
        true
    }
}

impl Playable for Still {
    fn duration(&self) -> f32 {
        self.duration
    }

    fn reset(&mut self) {}

    fn seek_to(&mut self, _progress: f32) {}

    fn is_complete(&self) -> bool {
        false
    }

    fn as_any(&self) -> &dyn Any {
        self
    }

    fn as_any_mut(&mut self) -> &mut dyn Any {
        self
    }
}

/// A leaf that writes what it is sent into its row, as the port does.
struct Recording {
    still: Still,
    index: u8,
}

impl Recording {
    fn add(&self, kind: u8) {
        let at = &ROWS.kinds[usize::from(self.index)];
        at.set(at.get() + kind);
    }
}

impl Update for Recording {
    fn update(&mut self, dt: f32) -> bool {
        self.add(4);
        ROWS.amounts[usize::from(self.index)].set(dt);
        true
    }
}

impl Playable for Recording {
    fn duration(&self) -> f32 {
        self.still.duration
    }

    fn reset(&mut self) {
        self.add(1);
    }

    fn seek_to(&mut self, progress: f32) {
        self.add(8);
        ROWS.places[usize::from(self.index)].set(progress);
    }

    fn is_complete(&self) -> bool {
        false
    }

    fn as_any(&self) -> &dyn Any {
        self
    }

    fn as_any_mut(&mut self) -> &mut dyn Any {
        self
    }
}
