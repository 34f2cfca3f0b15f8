//! The Rust's timeline with what paper 01 adds to it: refusals, lent slices, the preview. Each rule
//! stands here with the paper's sentence, and has a case in rules.txt; but a sequence's refusal by 1 is run by
//! the program `edge_cases` alone, since a sequence of a script has at most 255 items.

use crate::answer::{GRID_TOO_LARGE, MAX_SIDE};
use crate::call::{Add, Call, Item, Lent, Pattern, Place, Update};
use crate::debug::{Entry, image};
use crate::leaf::{Leaf, Record, Row};
use crate::twins::Twins;
use animato_core::AnimationIntrospection;
use animato_timeline::{AnimationGroup, At, Sequence, Timeline, TimelineState, stagger};
use animato_tween::Loop;
use std::mem;
use std::sync::Arc;

/// "0 means accepted."
const ACCEPTED: u8 = 0;
/// "1: an entry past the 64th, by `add`, sequence, `stagger` or group"; S-2: "1 and 8 move to 256".
const TOO_MANY_ENTRIES: u8 = 1;
pub const MAX_ENTRIES: usize = 256;
/// The limit of before: a panel of more entries is a long one.
pub const SHORT_PANEL: usize = 64;
/// "2: an entry's own label above 24 bytes (after 1)".
const LABEL_TOO_LONG: u8 = 2;
const MAX_LABEL: usize = 24;
/// "3: one of the three row slices is shorter than the entries."
const ROWS_TOO_SHORT: u8 = 3;
/// "4: the reply slice is shorter than the entries, or one of those bytes is above 1."
const BAD_REPLIES: u8 = 4;
/// "5: the update's completions, counted by the Rust's rule, outnumber the lent list."
const LIST_TOO_SHORT: u8 = 5;

/// What lent slices hold before a call.
const OLD_BYTE: u8 = 238;
const OLD_AMOUNT: f32 = f32::from_bits(0x4640_e400);
const OLD_PLACE: f32 = f32::from_bits(0xc640_e400);

/// Completions that the Rust is let list in one update; lent lists are shorter.
const MOST_LISTED: usize = 2000;

/// The three lent slices.
pub struct Slices {
    pub kinds: Vec<u8>,
    pub amounts: Vec<f32>,
    pub places: Vec<f32>,
}

/// What `update` answers.
pub struct Updated {
    pub running: bool,
    pub completed: bool,
    pub listed: usize,
    pub list: Vec<u8>,
}

/// A call's refusal, and what else it answers.
#[derive(Default)]
pub struct Answer {
    pub refusal: u8,
    pub slices: Option<Slices>,
    pub update: Option<Updated>,
    pub introspect: Option<AnimationIntrospection>,
    pub delay: Option<f32>,
    /// Each item's refusal, and the cursor after it.
    pub items: Option<Vec<(u8, f32)>>,
    /// The Rust was not let walk over all the cycles.
    pub long_walk: bool,
}

pub struct Checked {
    pub twins: Twins,
    /// The calls that made the timeline what it is.
    accepted: Vec<Call>,
}

impl Checked {
    pub fn new() -> Self {
        Checked {
            twins: Twins::new(),
            accepted: Vec::new(),
        }
    }

    pub fn call(&mut self, call: &Call) -> Answer {
        self.twins.clear();
        let answer = match call {
            Call::Play(lent)
            | Call::Reset(lent)
            | Call::Seek(_, lent)
            | Call::SeekAbs(_, lent)
            | Call::Reverse(lent) => self.move_entries(call, *lent),
            Call::Pause | Call::Resume | Call::SetTimeScale(_) | Call::Looping(_) => {
                self.accept(call);
                Answer::default()
            }
            Call::Update(update) => self.update(call, update),
            Call::Preview(dt, lent) => self.preview(*dt, *lent),
            Call::Add(add) | Call::AddBoxed(add) => self.add(call, add),
            Call::Introspect => introspected(self.twins.introspect()),
            Call::IntrospectGroup => introspected(self.twins.introspect_group()),
            Call::Delay(pattern, index) => delay(*pattern, *index),
            Call::Stagger(_, durations)
            | Call::GroupParallel(durations)
            | Call::GroupSequence(durations) => {
                self.replace(call, entries_refusal(durations.len()))
            }
            Call::GroupStagger(pattern, durations) => {
                self.replace(call, group_stagger_refusal(*pattern, durations.len()))
            }
            Call::Sequence(items) => {
                self.replace(call, ACCEPTED);
                let items = Some(sequence(items).answers);
                Answer {
                    items,
                    ..Answer::default()
                }
            }
        };
        self.twins.follow();
        answer
    }

    pub fn count(&self) -> usize {
        self.twins.entries().len()
    }

    fn accept(&mut self, call: &Call) -> bool {
        self.accepted.push(call.clone());
        apply(&mut self.twins, call)
    }

    /// Takes the last accepted call back: "A refused call writes nothing; panel and builder are
    /// unchanged." The Rust changes in place, so the calls before it are made again.
    fn take_back(&mut self) {
        self.accepted.pop();
        self.twins = made_by(&self.accepted);
    }

    fn move_entries(&mut self, call: &Call, lent: Lent) -> Answer {
        let mut slices = Slices::new(lent);
        let refusal = slices.refusal(self.count());
        if refusal == ACCEPTED {
            self.accept(call);
            slices.write(&self.twins.rows());
        }
        Answer {
            refusal,
            slices: Some(slices),
            ..Answer::default()
        }
    }

    fn update(&mut self, call: &Call, given: &Update) -> Answer {
        let mut slices = Slices::new(given.lent);
        let mut update = Updated {
            running: false,
            completed: false,
            listed: 0,
            list: vec![OLD_BYTE; given.list_length()],
        };
        let counted = self.count_ahead(given.dt);
        let refusal = self.try_update(call, given, counted, &mut slices, &mut update);
        Answer {
            refusal,
            slices: Some(slices),
            update: Some(update),
            long_walk: too_many(counted),
            ..Answer::default()
        }
    }

    /// "Order: 3, 4, 5. A panel that isn't Playing still checks 3 and 4."
    fn try_update(
        &mut self,
        call: &Call,
        given: &Update,
        counted: Option<usize>,
        slices: &mut Slices,
        update: &mut Updated,
    ) -> u8 {
        let refusal = slices.refusal(self.count());
        if refusal != ACCEPTED {
            return refusal;
        }
        if bad_replies(&given.replies, self.count()) {
            return BAD_REPLIES;
        }
        if too_many(counted) {
            return LIST_TOO_SHORT;
        }
        let running = self.accept(call);
        let completed = self.twins.completed();
        assert!(counted.is_none_or(|count| count == completed.len()));
        if completed.len() > update.list.len() {
            self.take_back();
            return LIST_TOO_SHORT;
        }
        slices.write(&self.twins.rows());
        for (place, &number) in update.list.iter_mut().zip(&completed) {
            *place = u8::try_from(number).expect("a byte has 256 numbers");
        }
        update.running = running;
        update.completed = self.twins.whole_run();
        update.listed = completed.len();
        ACCEPTED
    }

    /// "The preview gives the rows that `update` with room enough would write and changes nothing in
    /// the panel [..]; it refuses by 3 only." It runs on a timeline made by the same calls.
    fn preview(&mut self, dt: f32, lent: Lent) -> Answer {
        let mut slices = Slices::new(lent);
        let refusal = slices.refusal(self.count());
        let long_walk = too_many(self.count_ahead(dt));
        if refusal == ACCEPTED {
            let mut other = made_by(&self.accepted);
            if long_walk {
                other.synchronise_at(other.next_elapsed(dt).min(other.run()));
            } else {
                other.update(dt);
            }
            slices.write(&other.rows());
        }
        Answer {
            refusal,
            slices: Some(slices),
            long_walk,
            ..Answer::default()
        }
    }

    /// The completions of an update that walks over cycles, counted as the Rust does but no further
    /// than to `MOST_LISTED + 1`: the Rust collects thousands of millions of labels if it is let.
    /// Where it is let, its own list is what counts, and must have as many.
    pub fn count_ahead(&self, dt: f32) -> Option<usize> {
        let twins = &self.twins;
        let (prev, next) = (twins.elapsed(), twins.next_elapsed(dt));
        let walks = twins.state() == TimelineState::Playing
            && twins.mode() != Loop::Once
            && !prev.is_nan()
            && !next.is_nan();
        walks.then(|| count_completions(twins.entries(), &twins.mode(), prev, next, twins.base()))
    }

    fn add(&mut self, call: &Call, add: &Add) -> Answer {
        let refusal = entry_refusal(self.count(), &add.label);
        if refusal == ACCEPTED {
            self.accept(call);
        }
        refused(refusal)
    }

    /// "a refusing reader, `stagger` or group builder hands out the empty panel, `Once`, scale 1."
    fn replace(&mut self, call: &Call, refusal: u8) -> Answer {
        *self = Checked::new();
        if refusal == ACCEPTED {
            self.accept(call);
        }
        refused(refusal)
    }
}

// The Rust's part of a call that is accepted

fn made_by(calls: &[Call]) -> Twins {
    let mut twins = Twins::new();
    for call in calls {
        apply(&mut twins, call);
    }
    twins.clear();
    twins.follow();
    twins
}

/// Makes a call that changes the timeline; an update's answer says whether it still runs.
fn apply(twins: &mut Twins, call: &Call) -> bool {
    twins.clear();
    match call {
        Call::Play(_) => twins.play(),
        Call::Pause => twins.pause(),
        Call::Resume => twins.resume(),
        Call::Reset(_) => twins.reset(),
        Call::Update(update) => {
            twins.reply(&update.replies);
            return twins.update(update.dt);
        }
        Call::Seek(progress, _) => twins.seek(*progress),
        Call::SeekAbs(secs, _) => twins.seek_abs(*secs),
        Call::SetTimeScale(scale) => twins.set_time_scale(*scale),
        Call::Add(add) => placed(&add.at, |at| twins.add(&add.label, at, add.duration)),
        Call::AddBoxed(add) => placed(&add.at, |at| {
            twins.add_boxed_with_duration(&add.label, at, add.duration)
        }),
        Call::Looping(mode) => twins.looping(mode.looping()),
        Call::Reverse(_) => twins.reverse(),
        Call::Stagger(delay, durations) => *twins = built(durations, |ls| stagger(ls, *delay)),
        Call::GroupParallel(durations) => {
            *twins = built(durations, |ls| timeline_of(AnimationGroup::parallel(ls)))
        }
        Call::GroupSequence(durations) => {
            *twins = built(durations, |ls| timeline_of(AnimationGroup::sequence(ls)))
        }
        Call::GroupStagger(pattern, durations) => {
            *twins = built(durations, |ls| {
                timeline_of(AnimationGroup::stagger(ls, pattern.stagger_pattern()))
            })
        }
        Call::Sequence(items) => {
            let sequence = sequence(items);
            *twins = Twins::from_timeline(sequence.builder.build(), sequence.records);
        }
        Call::Preview(..) | Call::Introspect | Call::IntrospectGroup | Call::Delay(..) => {}
    }
    true
}

/// The placement as the Rust has it; a label by its image.
fn placed(at: &Place, add: impl FnOnce(At<'_>)) {
    match at {
        Place::Absolute(secs) => add(At::Absolute(*secs)),
        Place::Start => add(At::Start),
        Place::End => add(At::End),
        Place::Label(name) => add(At::Label(&image(name))),
        Place::Offset(secs) => add(At::Offset(*secs)),
    }
}

fn built(durations: &[f32], build: impl FnOnce(Vec<Leaf>) -> Timeline) -> Twins {
    let leaves: Vec<Leaf> = durations.iter().map(|&d| Leaf::new(d)).collect();
    let records = leaves.iter().map(|leaf| Arc::clone(&leaf.record)).collect();
    Twins::from_timeline(build(leaves), records)
}

fn timeline_of(mut group: AnimationGroup) -> Timeline {
    mem::take(group.timeline_mut())
}

/// A sequence, and what was answered on each of its items.
struct Sequenced {
    builder: Sequence,
    records: Vec<Arc<Record>>,
    answers: Vec<(u8, f32)>,
}

/// "panel and builder are unchanged" where an item is refused: it is left out.
fn sequence(items: &[Item]) -> Sequenced {
    let mut builder = Sequence::new();
    let mut records = Vec::new();
    let mut answers = Vec::new();
    for item in items {
        let refusal = match item {
            Item::Then(label, _) | Item::ThenFor(label, _, _) => {
                entry_refusal(records.len(), label)
            }
            Item::Gap(_) => ACCEPTED,
        };
        if refusal == ACCEPTED {
            builder = match item {
                Item::Then(label, duration) => {
                    builder.then(image(label), recorded(*duration, &mut records))
                }
                Item::ThenFor(label, own, duration) => {
                    builder.then_for(image(label), recorded(*own, &mut records), *duration)
                }
                Item::Gap(seconds) => builder.gap(*seconds),
            };
        }
        answers.push((refusal, builder.cursor()));
    }
    Sequenced {
        builder,
        records,
        answers,
    }
}

fn recorded(duration: f32, records: &mut Vec<Arc<Record>>) -> Leaf {
    let leaf = Leaf::new(duration);
    records.push(Arc::clone(&leaf.record));
    leaf
}

// Refusals

fn refused(refusal: u8) -> Answer {
    Answer {
        refusal,
        ..Answer::default()
    }
}

/// Of one more entry beside `count` others: 1, and 2 "after 1".
fn entry_refusal(count: usize, label: &[u8]) -> u8 {
    if count >= MAX_ENTRIES {
        TOO_MANY_ENTRIES
    } else if label.len() > MAX_LABEL {
        LABEL_TOO_LONG
    } else {
        ACCEPTED
    }
}

fn entries_refusal(count: usize) -> u8 {
    if count > MAX_ENTRIES {
        TOO_MANY_ENTRIES
    } else {
        ACCEPTED
    }
}

/// "13: a grid side above 65,535 (far above it Rust's sum may overflow)."
fn pattern_refusal(pattern: Pattern) -> u8 {
    match pattern {
        Pattern::Grid { cols, rows, .. } if cols > MAX_SIDE || rows > MAX_SIDE => GRID_TOO_LARGE,
        _ => ACCEPTED,
    }
}

/// "A group's `stagger` gives it before 1, and also with no animations."
fn group_stagger_refusal(pattern: Pattern, count: usize) -> u8 {
    match pattern_refusal(pattern) {
        ACCEPTED => entries_refusal(count),
        refusal => refusal,
    }
}

/// "or one of those bytes is above 1": those of the entries, not what is lent beyond.
fn bad_replies(replies: &[u8], count: usize) -> bool {
    replies.len() < count || replies[..count].iter().any(|&reply| reply > 1)
}

// The rest

impl Slices {
    fn new(lent: Lent) -> Self {
        let [kinds, amounts, places] = lent.lengths();
        Slices {
            kinds: vec![OLD_BYTE; kinds],
            amounts: vec![OLD_AMOUNT; amounts],
            places: vec![OLD_PLACE; places],
        }
    }

    fn refusal(&self, count: usize) -> u8 {
        let shortest = self
            .kinds
            .len()
            .min(self.amounts.len())
            .min(self.places.len());
        if shortest < count {
            ROWS_TOO_SHORT
        } else {
            ACCEPTED
        }
    }

    /// "An accepted play, reset, seek or update writes every entry's row, 0 where no step is sent.
    /// Rows beyond the entries are not written."
    fn write(&mut self, rows: &[Row]) {
        for (index, row) in rows.iter().enumerate() {
            self.kinds[index] = row.kind;
            self.amounts[index] = row.amount;
            self.places[index] = row.place;
        }
    }
}

fn introspected(seen: AnimationIntrospection) -> Answer {
    Answer {
        introspect: Some(seen),
        ..Answer::default()
    }
}

/// "Every other part of its answer is 0, 0.0 or false".
fn delay(pattern: Pattern, index: u32) -> Answer {
    let refusal = pattern_refusal(pattern);
    let delay = match refusal {
        ACCEPTED => pattern.stagger_pattern().delay(index as usize, 0),
        _ => 0.0,
    };
    Answer {
        refusal,
        delay: Some(delay),
        ..Answer::default()
    }
}

/// Too many completions for any lent list, and for the Rust to be let list them.
fn too_many(counted: Option<usize>) -> bool {
    counted.is_some_and(|count| count > MOST_LISTED)
}

/// The length of the list of timeline.rs's `entry_completion_labels_between`, by its loop.
fn count_completions(entries: &[Entry], mode: &Loop, prev: f32, next: f32, base: f32) -> usize {
    if next <= prev || base <= 0.0 {
        return 0;
    }
    let (cycles, period) = match *mode {
        Loop::Once => (Some(1), base),
        Loop::Times(n) => (Some(n.max(1)), base),
        Loop::Forever => (None, base),
        Loop::PingPong => (None, base * 2.0),
        Loop::PingPongTimes(n) => (Some(n.max(1) / 2 + n.max(1) % 2), base * 2.0),
    };
    let mut count = 0;
    let mut cycle = (prev / period).max(0.0) as u32;
    loop {
        let start = cycle as f32 * period;
        if cycles.is_some_and(|n| cycle >= n) || start > next || count > MOST_LISTED {
            return count;
        }
        let ends = entries
            .iter()
            .map(|entry| start + (entry.start + entry.duration));
        count += ends.filter(|&end| prev < end && end <= next).count();
        cycle = cycle.saturating_add(1);
        if cycle == u32::MAX {
            return count;
        }
    }
}
