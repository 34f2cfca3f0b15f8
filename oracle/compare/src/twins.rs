//! The unchanged Rust's timeline, twice: under the labels given, and under its entries' numbers. The
//! Rust tells completions by labels, and equal labels are allowed: the second says which entries.
//!
//! Nothing is refused here. An update that meets a NaN, which the Rust answers after minutes, is
//! answered at once.

use crate::debug::{self, Entry, image};
use crate::leaf::{Leaf, Record, Row};
use animato_core::{AnimationIntrospection, Inspectable, Playable, Update};
use animato_timeline::{AnimationGroup, At, Timeline, TimelineState, add_boxed_with_duration};
use animato_tween::Loop;
use std::mem;
use std::sync::atomic::{AtomicU32, Ordering::Relaxed};
use std::sync::{Arc, Mutex};

/// Cycles that the Rust is let walk at a NaN.
const QUICK_CYCLES: u32 = 1000;

/// A timeline with leaves that record, and callbacks that note what has completed.
struct Player {
    timeline: Timeline,
    records: Vec<Arc<Record>>,
    completed: Arc<Mutex<Vec<usize>>>,
    whole_runs: Arc<AtomicU32>,
}

impl Player {
    fn new(timeline: Timeline, records: Vec<Arc<Record>>) -> Self {
        let whole_runs = Arc::new(AtomicU32::new(0));
        let count = Arc::clone(&whole_runs);
        Player {
            timeline: timeline.on_complete(move || {
                count.fetch_add(1, Relaxed);
            }),
            records,
            completed: Arc::default(),
            whole_runs,
        }
    }

    /// Changes the timeline by a method that takes it whole.
    fn build(&mut self, change: impl FnOnce(Timeline) -> Timeline) {
        self.timeline = change(mem::take(&mut self.timeline));
    }

    /// Notes `index` whenever the Rust tells that `label` has completed.
    fn listen(&mut self, label: String, index: usize) {
        let completed = Arc::clone(&self.completed);
        self.build(|timeline| {
            timeline.on_entry_complete(label, move || completed.lock().unwrap().push(index))
        });
    }

    fn clear(&mut self) {
        self.records.iter().for_each(|record| record.clear());
        self.completed.lock().unwrap().clear();
        self.whole_runs.store(0, Relaxed);
    }
}

pub struct Twins {
    named: Player,
    numbered: Player,
    entries: Vec<Entry>,
    /// Of each entry the first one with its label.
    firsts: Vec<usize>,
    /// Elapsed is NaN, and the Rust's stands at infinity instead; only where the base is infinite.
    at_nan: bool,
    text: String,
}

impl Twins {
    pub fn new() -> Self {
        Twins::from_timeline(Timeline::new(), Vec::new())
    }

    /// The twins of a timeline that has been built, whose leaves have these records.
    pub fn from_timeline(timeline: Timeline, records: Vec<Arc<Record>>) -> Self {
        let mut numbered = Timeline::new();
        numbered.looping = timeline.looping.clone();
        numbered.time_scale = timeline.time_scale;
        Twins {
            named: Player::new(timeline, records),
            numbered: Player::new(numbered, Vec::new()),
            entries: Vec::new(),
            firsts: Vec::new(),
            at_nan: false,
            text: String::new(),
        }
    }

    /// Gives the numbered twin the entries that the named one has got.
    pub fn follow(&mut self) {
        if self.entries.len() == self.named.timeline.entry_count() {
            return;
        }
        let entries = debug::entries(&self.named.timeline);
        for (index, entry) in entries.iter().enumerate().skip(self.entries.len()) {
            let leaf = Leaf::new(entry.duration);
            self.numbered.records.push(Arc::clone(&leaf.record));
            self.numbered.build(|timeline| {
                let at = At::Absolute(entry.start);
                let number = index.to_string();
                add_boxed_with_duration(timeline, number, Box::new(leaf), at, entry.duration)
            });
            self.numbered.listen(index.to_string(), index);
            let first = entries.iter().position(|other| other.label == entry.label);
            let first = first.expect("an entry's own label");
            self.firsts.push(first);
            if first == index {
                self.named.listen(image(&entry.label), index);
            }
        }
        self.entries = entries;
    }

    // Builders: calls that add entries leave it to `follow` to give them to the numbered twin, which
    // every control does first.

    pub fn add(&mut self, label: &[u8], at: At<'_>, duration: f32) {
        let leaf = Leaf::new(duration);
        self.named.records.push(Arc::clone(&leaf.record));
        self.named
            .build(|timeline| timeline.add(image(label), leaf, at));
    }

    /// The leaf's own duration is another one: the Rust does not ask for it here.
    pub fn add_boxed_with_duration(&mut self, label: &[u8], at: At<'_>, duration: f32) {
        let leaf = Leaf::new(f32::MAX);
        self.named.records.push(Arc::clone(&leaf.record));
        self.named.build(|timeline| {
            add_boxed_with_duration(timeline, image(label), Box::new(leaf), at, duration)
        });
    }

    pub fn looping(&mut self, mode: Loop) {
        for player in [&mut self.named, &mut self.numbered] {
            player.build(|timeline| timeline.looping(mode.clone()));
        }
    }

    // Controls

    fn each(&mut self, act: impl Fn(&mut Timeline)) {
        self.follow();
        act(&mut self.named.timeline);
        act(&mut self.numbered.timeline);
    }

    pub fn set_time_scale(&mut self, scale: f32) {
        self.each(|timeline| timeline.set_time_scale(scale));
    }

    pub fn play(&mut self) {
        if self.at_nan && matches!(self.mode(), Loop::Times(_)) {
            return self.meanwhile(Loop::Forever, |twins| twins.each(Timeline::play));
        }
        self.each(Timeline::play);
    }

    pub fn pause(&mut self) {
        self.each(Timeline::pause);
    }

    pub fn resume(&mut self) {
        self.each(Timeline::resume);
    }

    pub fn reset(&mut self) {
        self.at_nan = false;
        self.each(Timeline::reset);
    }

    pub fn seek(&mut self, progress: f32) {
        self.at_nan = false;
        self.each(|timeline| timeline.seek(progress));
    }

    pub fn seek_abs(&mut self, secs: f32) {
        self.at_nan = false;
        self.each(|timeline| timeline.seek_abs(secs));
    }

    /// `reverse` of the group around the timeline.
    pub fn reverse(&mut self) {
        self.at_nan = false;
        self.each(|timeline| in_group(timeline, AnimationGroup::reverse));
    }

    /// Whether the timeline still runs.
    pub fn update(&mut self, dt: f32) -> bool {
        let playing = self.state() == TimelineState::Playing;
        let meets_nan = self.elapsed().is_nan() || self.next_elapsed(dt).is_nan();
        match self.mode() {
            Loop::Once if playing && self.at_nan => {
                self.at_nan = false;
                self.update_by_nan()
            }
            Loop::Once => self.update_both(dt),
            _ if playing && meets_nan => self.update_at_nan(dt),
            _ => self.update_both(dt),
        }
    }

    fn update_both(&mut self, dt: f32) -> bool {
        self.follow();
        let running = self.named.timeline.update(dt);
        assert_eq!(self.numbered.timeline.update(dt), running);
        running
    }

    /// "Walking four thousand million cycles in a mode other than Once when previous or next elapsed
    /// is NaN, as Rust does. The list there is empty; say so at once."
    ///
    /// The rest of such an update is the Rust's: elapsed becomes `next.min(total)` or NaN, and the
    /// entries are synchronised to it; `next >= total` does not hold.
    fn update_at_nan(&mut self, dt: f32) -> bool {
        match self.mode() {
            Loop::Times(n) | Loop::PingPongTimes(n) if n <= QUICK_CYCLES && !self.at_nan => {
                self.update_both(dt)
            }
            Loop::Times(_) | Loop::PingPongTimes(_) => {
                let total = self.run();
                self.synchronise_at(total);
                true
            }
            _ => {
                self.go_to_nan();
                true
            }
        }
    }

    /// Elapsed becomes NaN, in Forever or PingPong, and the entries are synchronised to it. From an
    /// infinite elapsed the Rust walks one cycle only, unless the period is infinite, too. Then it
    /// stays at infinity: its remainder is a NaN as well, so the entries are sent the same.
    fn go_to_nan(&mut self) {
        self.meanwhile(Loop::Forever, |twins| {
            twins.seek_abs(f32::INFINITY);
            if twins.base().is_finite() {
                twins.clear();
                twins.update_by_nan();
            } else {
                twins.at_nan = true;
            }
        });
    }

    /// An update whose next elapsed is NaN: infinity times 0.
    fn update_by_nan(&mut self) -> bool {
        let scale = self.time_scale();
        self.set_time_scale(0.0);
        let running = self.update_both(f32::INFINITY);
        self.each(|timeline| timeline.time_scale = scale);
        running
    }

    /// What an update does outside Once, except for its list and its end: elapsed becomes `elapsed`
    /// and the entries are synchronised to it. Forever takes any elapsed, and `play` synchronises.
    pub fn synchronise_at(&mut self, elapsed: f32) {
        self.meanwhile(Loop::Forever, |twins| twins.seek_abs(elapsed));
        self.clear();
        self.play();
    }

    fn meanwhile(&mut self, mode: Loop, act: impl Fn(&mut Self)) {
        let own = self.mode();
        self.each(|timeline| timeline.looping = mode.clone());
        act(self);
        self.each(|timeline| timeline.looping = own.clone());
    }

    // What the leaves were sent and what has completed

    /// Forgets what the leaves were sent and what has completed.
    pub fn clear(&mut self) {
        self.named.clear();
        self.numbered.clear();
    }

    /// The leaves' replies to their updates.
    pub fn reply(&mut self, replies: &[u8]) {
        self.follow();
        for player in [&self.named, &self.numbered] {
            for (record, reply) in player.records.iter().zip(replies) {
                record.reply(*reply == 1);
            }
        }
    }

    pub fn rows(&self) -> Vec<Row> {
        let rows = |player: &Player| player.records.iter().map(|record| record.row()).collect();
        rows(&self.named)
    }

    /// The numbers of the entries that have completed, in the order of the Rust's labels.
    pub fn completed(&self) -> Vec<usize> {
        let numbers = self.numbered.completed.lock().unwrap().clone();
        let firsts = numbers.iter().map(|&number| &self.firsts[number]);
        assert!(firsts.eq(self.named.completed.lock().unwrap().iter()));
        numbers
    }

    /// Whether the whole-run completion has fired.
    pub fn whole_run(&self) -> bool {
        self.named.whole_runs.load(Relaxed) > 0
    }

    // Queries

    pub fn entries(&self) -> &[Entry] {
        &self.entries
    }

    pub fn state(&self) -> TimelineState {
        self.named.timeline.state()
    }

    pub fn mode(&self) -> Loop {
        self.named.timeline.looping.clone()
    }

    pub fn time_scale(&self) -> f32 {
        self.named.timeline.time_scale
    }

    pub fn elapsed(&self) -> f32 {
        if self.at_nan {
            f32::NAN
        } else {
            self.named.timeline.elapsed()
        }
    }

    /// The elapsed that an update by `dt` goes to, before it is held to the run.
    pub fn next_elapsed(&self, dt: f32) -> f32 {
        self.elapsed() + dt.max(0.0) * self.time_scale()
    }

    pub fn base(&self) -> f32 {
        self.named.timeline.duration()
    }

    pub fn run(&self) -> f32 {
        Playable::duration(&self.named.timeline)
    }

    pub fn progress(&self) -> f32 {
        self.named.timeline.progress()
    }

    /// The marks, and whether the whole-run completion has fired since the last reset.
    pub fn marks(&mut self) -> (Vec<bool>, bool) {
        debug::marks(&self.named.timeline, &mut self.text)
    }

    pub fn introspect(&self) -> AnimationIntrospection {
        self.at_own_elapsed(self.named.timeline.introspect())
    }

    pub fn introspect_group(&mut self) -> AnimationIntrospection {
        let seen = in_group(&mut self.named.timeline, |group| group.introspect());
        self.at_own_elapsed(seen)
    }

    fn at_own_elapsed(&self, seen: AnimationIntrospection) -> AnimationIntrospection {
        AnimationIntrospection {
            elapsed: if self.at_nan { 0.0 } else { seen.elapsed },
            ..seen
        }
    }
}

fn in_group<T>(timeline: &mut Timeline, act: impl FnOnce(&mut AnimationGroup) -> T) -> T {
    let mut group = AnimationGroup::from_timeline(mem::take(timeline));
    let answer = act(&mut group);
    *timeline = mem::take(group.timeline_mut());
    answer
}

#[cfg(test)]
mod tests {
    use super::*;
    use crate::rng::Rng;

    const ENDLESS: [Loop; 2] = [Loop::Forever, Loop::PingPong];

    /// Twins at `elapsed` with such entries, playing.
    fn playing(entries: &[(f32, f32)], mode: &Loop, elapsed: f32) -> Twins {
        let mut twins = Twins::new();
        for &(start, duration) in entries {
            twins.add(b"a", At::Absolute(start), duration);
        }
        twins.play();
        twins.synchronise_at(elapsed);
        twins.looping(mode.clone());
        twins.clear();
        twins
    }

    /// What an update leaves and sends; NaN as text, since it is not equal to itself.
    fn seen(twins: &mut Twins) -> String {
        let (elapsed, progress, marks) = (twins.elapsed(), twins.progress(), twins.marks());
        let (rows, completed) = (twins.rows(), twins.completed());
        format!("{elapsed} {progress} {marks:?} {rows:?} {completed:?}")
    }

    /// The stand-in for an update that walks far sends what an update sends.
    #[test]
    fn synchronising_sends_what_an_update_sends() {
        let mut rng = Rng::new(5);
        let mut quarters = |n| rng.below(n) as f32 * 0.25;
        let times = |n| [Loop::Times(n), Loop::PingPongTimes(n)];
        for mode in [times(1), times(2), times(3), times(9), ENDLESS].concat() {
            for _ in 0..500 {
                let entries = [(); 3].map(|_| (quarters(8), quarters(6)));
                let (elapsed, dt) = (quarters(40), quarters(40));
                let mut updated = playing(&entries, &mode, elapsed);
                if updated.base() > 0.0 {
                    let mut synchronised = playing(&entries, &mode, elapsed);
                    let next = updated.next_elapsed(dt).min(updated.run());
                    updated.update(dt);
                    synchronised.synchronise_at(next);
                    assert_eq!(updated.rows(), synchronised.rows());
                    assert_eq!(updated.marks().0, synchronised.marks().0);
                    assert_eq!(updated.elapsed(), synchronised.elapsed());
                }
            }
        }
    }

    /// The rule on NaN against the Rust itself, which walks all its cycles.
    #[test]
    #[ignore = "takes minutes"]
    fn the_rust_lists_nothing_at_a_nan() {
        let finite = [(0.0, 0.0), (0.5, 1.0)];
        let infinite = [(0.0, 0.0), (0.5, f32::INFINITY)];
        for entries in [finite, infinite] {
            for mode in [
                ENDLESS,
                [Loop::Times(u32::MAX), Loop::PingPongTimes(u32::MAX)],
            ]
            .concat()
            {
                let mut walked = playing(&entries, &mode, 0.75);
                let mut answered = playing(&entries, &mode, 0.75);
                for twins in [&mut walked, &mut answered] {
                    twins.set_time_scale(0.0);
                }
                assert!(walked.update_both(f32::INFINITY));
                assert!(answered.update(f32::INFINITY));
                assert_eq!(seen(&mut walked), seen(&mut answered));
                assert!(walked.completed().is_empty());
            }
        }
    }
}
