//! What the scripts of a comparison have met: counted, so that it can be seen that every case was.

use crate::call::{Call, NAMES};
use crate::checked::{Answer, Checked, MAX_ENTRIES, SHORT_PANEL};
use animato_timeline::TimelineState;
use animato_tween::Loop;
use std::fmt;

/// Refusals by number: those that calls of scripts can give, and 0.
const REFUSALS: [usize; 7] = [0, 1, 2, 3, 4, 5, 13];
/// Numbers of entries that calls are counted on.
const SIZES: [usize; 5] = [
    SHORT_PANEL,
    SHORT_PANEL + 1,
    128,
    MAX_ENTRIES - 1,
    MAX_ENTRIES,
];

#[derive(Default)]
pub struct Tally {
    pub scripts: u64,
    pub cut: u64,
    calls: [u64; NAMES.len()],
    /// By call and by number.
    refusals: [[u64; 16]; NAMES.len()],
    items_refused: u64,
    entries_completed: u64,
    whole_runs: u64,
    updates: [u64; 5],
    nan_updates: [u64; 5],
    nan_elapsed: u64,
    long_walks: u64,
    from_completed: u64,
    longest_list: usize,
    /// Calls on more than 64 entries, by number, and the playing updates among them, by mode.
    long: [u64; 16],
    long_updates: [u64; 5],
    on: [u64; SIZES.len()],
    /// Of the call that is counted.
    long_panel: bool,
}

impl Tally {
    pub fn calls(&self) -> u64 {
        self.calls.iter().sum()
    }

    pub fn calls_of(&self, kind: usize) -> u64 {
        self.calls[kind]
    }

    /// Playing updates on more than 64 entries, by mode.
    pub fn long_updates(&self) -> [u64; 5] {
        self.long_updates
    }

    /// Calls on as many entries as there can be.
    pub fn full_calls(&self) -> u64 {
        self.on[SIZES.len() - 1]
    }

    /// Calls on more than 64 entries.
    pub fn long_calls(&self) -> u64 {
        self.long.iter().sum()
    }

    /// Counts what is to be seen before a call.
    pub fn before(&mut self, timeline: &Checked, call: &Call) {
        let twins = &timeline.twins;
        let (state, count) = (twins.state(), timeline.count());
        self.long_panel = count > SHORT_PANEL;
        for (calls, size) in self.on.iter_mut().zip(SIZES) {
            *calls += u64::from(count == size);
        }
        match call {
            Call::Update(update) if state == TimelineState::Playing => {
                let mode = mode_number(&twins.mode());
                let next = twins.next_elapsed(update.dt);
                self.updates[mode] += 1;
                self.nan_updates[mode] += u64::from(next.is_nan());
                self.long_updates[mode] += u64::from(self.long_panel);
            }
            Call::Play(_) if state == TimelineState::Completed => self.from_completed += 1,
            _ => {}
        }
    }

    /// Counts a call and its answer.
    pub fn after(&mut self, timeline: &Checked, call: &Call, answer: &Answer) {
        self.calls[usize::from(call.byte())] += 1;
        self.refusals[usize::from(call.byte())][usize::from(answer.refusal)] += 1;
        self.long[usize::from(answer.refusal)] += u64::from(self.long_panel);
        for (refusal, _) in answer.items.iter().flatten() {
            self.items_refused += u64::from(*refusal == 2);
        }
        if let Some(update) = &answer.update {
            self.entries_completed += update.listed as u64;
            self.longest_list = self.longest_list.max(update.listed);
            self.whole_runs += u64::from(update.completed);
        }
        self.nan_elapsed += u64::from(timeline.twins.elapsed().is_nan());
        self.long_walks += u64::from(answer.long_walk);
    }
}

fn mode_number(mode: &Loop) -> usize {
    match mode {
        Loop::Once => 0,
        Loop::Times(_) => 1,
        Loop::Forever => 2,
        Loop::PingPong => 3,
        Loop::PingPongTimes(_) => 4,
    }
}

impl fmt::Display for Tally {
    fn fmt(&self, f: &mut fmt::Formatter<'_>) -> fmt::Result {
        writeln!(f, "{} scripts, {} calls:", self.scripts, self.calls())?;
        for (kind, name) in NAMES.iter().enumerate() {
            write!(f, "  {kind:>2} {name:<25}{:>10}", self.calls[kind])?;
            for refusal in REFUSALS {
                let count = self.refusals[kind][refusal];
                if refusal != 0 && count != 0 {
                    write!(f, ", refused by {refusal}: {count}")?;
                }
            }
            writeln!(f)?;
        }
        for refusal in REFUSALS {
            let count: u64 = self.refusals.iter().map(|numbers| numbers[refusal]).sum();
            writeln!(f, "  refusal {refusal:<20}{count:>10}")?;
        }
        let modes = ["Once", "Times", "Forever", "PingPong", "PingPongTimes"];
        for (mode, name) in modes.iter().enumerate() {
            let (all, nan) = (self.updates[mode], self.nan_updates[mode]);
            let long = self.long_updates[mode];
            writeln!(
                f,
                "  playing updates in {name:<14}{all:>10}, to a NaN {nan}, on more than 64 entries {long}"
            )?;
        }
        for (what, count) in [
            (
                "adds refused by 1",
                self.refusals[8][1] + self.refusals[9][1],
            ),
            ("items of sequences refused by 2", self.items_refused),
            ("entries completed", self.entries_completed),
            ("the longest list written", self.longest_list as u64),
            ("whole-run completions", self.whole_runs),
            ("calls that leave elapsed NaN", self.nan_elapsed),
            ("walks too long for the Rust", self.long_walks),
            ("plays from Completed", self.from_completed),
            ("scripts cut", self.cut),
            ("calls on more than 64 entries", self.long_calls()),
        ] {
            writeln!(f, "  {what:<33}{count:>10}")?;
        }
        for refusal in REFUSALS {
            let count = self.long[refusal];
            writeln!(f, "    of these refusal {refusal:<16}{count:>10}")?;
        }
        for (size, count) in SIZES.iter().zip(self.on) {
            writeln!(f, "  calls on {size:>3} entries{:>22}", count)?;
        }
        Ok(())
    }
}
