//! Random scripts for the trace program. The calls are made on the Rust as they are chosen, so that
//! seconds can be chosen on and beside the starts, ends, bases and runs that the script has come to.

use crate::call::{Add, Call, Item, Lent, Mode, NAMES, Pattern, Place, Update};
use crate::cases;
use crate::checked::{MAX_ENTRIES, SHORT_PANEL};
use crate::rng::Rng;
use crate::tally::Tally;
use crate::trace::{self, Running};
use crate::twins::Twins;
use animato_timeline::TimelineState;

/// Which calls are in the scripts, by their bytes.
#[derive(Clone, Copy)]
pub struct Kinds([bool; NAMES.len()]);

/// The calls that come with `update`, and those that come with the builders.
const UPDATE: [usize; 2] = [4, 11];
const BUILDERS: [usize; 7] = [13, 14, 16, 17, 18, 19, 20];
/// Those that make entries.
const ENTRIES: [usize; 7] = [8, 9, 16, 17, 18, 19, 20];

impl Kinds {
    pub fn all() -> Self {
        Kinds([true; NAMES.len()])
    }

    fn without(mut self, kinds: &[usize]) -> Self {
        kinds.iter().for_each(|&kind| self.0[kind] = false);
        self
    }

    /// `all`, `no-builders`, `no-update` (nor builders), or bytes with commas between them.
    pub fn named(name: &str) -> Option<Self> {
        match name {
            "all" => Some(Kinds::all()),
            "no-builders" => Some(Kinds::all().without(&BUILDERS)),
            "no-update" => Some(Kinds::all().without(&BUILDERS).without(&UPDATE)),
            _ => {
                let mut kinds = Kinds([false; NAMES.len()]);
                for word in name.split(',') {
                    *kinds.0.get_mut(word.parse::<usize>().ok()?)? = true;
                }
                Some(kinds)
            }
        }
    }

    pub fn has(&self, kind: usize) -> bool {
        self.0[kind]
    }

    pub fn make_entries(&self) -> bool {
        ENTRIES.iter().any(|&kind| self.has(kind))
    }
}

/// Calls, and bytes after them that are no whole call.
#[derive(Clone)]
pub struct Script {
    pub calls: Vec<Call>,
    pub tail: Vec<u8>,
}

impl Script {
    pub fn bytes(&self) -> Vec<u8> {
        let calls = self.calls.iter().flat_map(Call::bytes);
        calls.chain(self.tail.iter().copied()).collect()
    }
}

/// How often each call is chosen while a script runs, by its byte.
const WEIGHTS: [u32; NAMES.len()] = [
    24, 6, 8, 6, 80, 24, 40, 10, 6, 4, 10, 20, 4, 4, 10, 6, 2, 2, 2, 2, 2,
];

/// Sizes of the everyday numbers of a script.
const UNITS: [f32; 12] = [
    1.0, 1.0, 1.0, 1.0, 1.0, 0.1, 0.001, 1e6, 3e7, 1e-40, 1e30, 1.5e37,
];

const LOOP_NUMBERS: [u32; 16] = [
    6,
    7,
    8,
    100,
    255,
    256,
    16_777_215,
    16_777_216,
    16_777_217,
    16_777_219,
    0x7fff_ffff,
    0x8000_0000,
    0x8000_0001,
    4_294_967_167,
    u32::MAX - 1,
    u32::MAX,
];

/// Labels: short ones often, so that many are equal.
const LABELS: [&[u8]; 11] = [
    b"",
    b"a",
    b"a",
    b"b",
    b"b",
    b"c",
    b"item_0",
    b"item_1",
    b"item_10",
    b"\xff\x00\"\\",
    b"123456789012345678901234",
];

/// Steps of a script at most, and of one on a long panel.
const STEPS: u32 = 40;
const LONG_STEPS: u32 = 60;

/// Items of a sequence: a byte counts them.
const MOST_ITEMS: usize = 255;

/// A random script, and what is written on it.
pub struct Answered {
    pub script: Script,
    pub text: Vec<u8>,
}

/// A random script of such calls; a long one is on more than 64 entries.
pub fn random(rng: &mut Rng, kinds: Kinds, long: bool, tally: &mut Tally) -> Answered {
    let unit = rng.pick(&UNITS);
    let mut made = Maker {
        rng,
        kinds,
        unit,
        long,
        running: Running::new(tally),
        noted: vec![0.0],
        calls: Vec::new(),
    };
    made.build();
    let steps = if long { LONG_STEPS } else { STEPS };
    for _ in 0..1 + made.rng.below(steps) {
        made.step();
    }
    let tail = made.tail();
    made.running.rest(trace::Script::whole(&tail));
    Answered {
        script: Script {
            calls: made.calls,
            tail,
        },
        text: made.running.text,
    }
}

struct Maker<'a> {
    rng: &'a mut Rng,
    kinds: Kinds,
    unit: f32,
    long: bool,
    running: Running<'a>,
    /// Seconds that the script has been at.
    noted: Vec<f32>,
    calls: Vec<Call>,
}

impl Maker<'_> {
    fn push(&mut self, call: Call) {
        if self.kinds.has(call.byte().into()) {
            self.running.call(&call);
            self.noted.push(self.twins().elapsed());
            self.calls.push(call);
        }
    }

    fn twins(&self) -> &Twins {
        &self.running.timeline.twins
    }

    fn one_in(&mut self, n: u32) -> bool {
        self.rng.below(n) == 0
    }

    /// Entries, a mode, a scale.
    fn build(&mut self) {
        if self.long {
            self.make_long();
        } else {
            self.make_short();
        }
        if !self.one_in(4) {
            let call = Call::Looping(self.mode());
            self.push(call);
        }
        if self.one_in(4) {
            let call = Call::SetTimeScale(self.scale());
            self.push(call);
        }
        if !self.one_in(4) {
            let call = Call::Play(self.lent());
            self.push(call);
        }
    }

    fn make_short(&mut self) {
        let count = match self.rng.below(32) {
            0 => 0,
            1..=7 => 1 + self.rng.below(2),
            8..=24 => 1 + self.rng.below(8),
            25..=29 => self.rng.below(24),
            _ => 62 + self.rng.below(8),
        };
        if self.one_in(4) {
            let call = self.builder(count as usize);
            self.push(call);
        } else {
            self.add_up_to(count as usize);
        }
    }

    /// Most by a builder, since each entry that is added has all of them written; the last by adds.
    fn make_long(&mut self) {
        let count = self.long_count();
        if !self.one_in(32) {
            let built = count - self.rng.below(4) as usize;
            let call = self.builder(built);
            self.push(call);
            if self.count() == 0 {
                let call = self.builder(built.min(MAX_ENTRIES));
                self.push(call);
            }
        }
        self.add_up_to(count);
    }

    fn long_count(&mut self) -> usize {
        let count = match self.rng.below(8) {
            0..=2 => 64 + self.rng.below(6),
            3 => 126 + self.rng.below(5),
            4 => 65 + self.rng.below(192),
            _ => 253 + self.rng.below(6),
        };
        count as usize
    }

    fn add_up_to(&mut self, count: usize) {
        for _ in self.count()..count {
            let call = self.adder();
            self.push(call);
        }
    }

    fn step(&mut self) {
        let playing = self.twins().state() == TimelineState::Playing;
        if !playing && self.one_in(3) {
            let (play, resume) = (Call::Play(self.lent()), Call::Resume);
            let call = if self.one_in(4) { resume } else { play };
            return self.push(call);
        }
        let call = match self.kind() {
            0 => Call::Play(self.lent()),
            1 => Call::Pause,
            2 => Call::Resume,
            3 => Call::Reset(self.lent()),
            4 => return self.update(),
            5 => Call::Seek(self.share(), self.lent()),
            6 => Call::SeekAbs(self.seconds(), self.lent()),
            7 => Call::SetTimeScale(self.scale()),
            8 => Call::Add(self.add()),
            9 => Call::AddBoxed(self.add()),
            10 => Call::Looping(self.mode()),
            11 => Call::Preview(self.dt(), self.lent()),
            12 => Call::Introspect,
            13 => Call::IntrospectGroup,
            14 => Call::Reverse(self.lent()),
            15 => Call::Delay(self.pattern(), self.index()),
            _ if self.long && !self.one_in(4) => {
                let count = self.long_count();
                self.builder(count)
            }
            _ => {
                let most = if self.one_in(8) { 70 } else { 10 };
                let count = self.rng.below(most);
                self.builder(count as usize)
            }
        };
        self.push(call);
    }

    fn kind(&mut self) -> usize {
        let mut at = self.rng.below(WEIGHTS.iter().sum());
        for (kind, &weight) in WEIGHTS.iter().enumerate() {
            if at < weight {
                return kind;
            }
            at -= weight;
        }
        0
    }

    /// Bytes that are no call: often none.
    fn tail(&mut self) -> Vec<u8> {
        match self.rng.below(60) {
            0 => vec![NAMES.len() as u8 + self.rng.below(200) as u8],
            1 => (0..self.rng.below(40))
                .map(|_| self.rng.bits() as u8)
                .filter(|&byte| byte >= 21 || self.kinds.has(byte.into()))
                .collect(),
            2 | 3 => {
                let mut bytes = self.calls.last().map_or(Vec::new(), Call::bytes);
                bytes.pop();
                bytes
            }
            _ => Vec::new(),
        }
    }

    // Calls

    fn update(&mut self) {
        let dt = self.dt();
        if self.one_in(5) {
            let call = Call::Preview(dt, self.lent());
            self.push(call);
        }
        let call = Call::Update(Update {
            dt,
            lent: self.lent(),
            list: self.list(dt),
            replies: self.replies(),
        });
        self.push(call);
    }

    fn adder(&mut self) -> Call {
        if self.one_in(3) {
            Call::AddBoxed(self.add())
        } else {
            Call::Add(self.add())
        }
    }

    fn add(&mut self) -> Add {
        Add {
            label: self.label(),
            at: match self.rng.below(8) {
                0 | 1 => Place::Absolute(self.seconds()),
                2 => Place::Start,
                3 | 4 => Place::End,
                5 => Place::Label(self.label()),
                6 => Place::Offset(self.seconds()),
                _ => Place::Offset(-self.everyday()),
            },
            duration: self.duration(),
        }
    }

    fn builder(&mut self, count: usize) -> Call {
        match self.rng.below(6) {
            0 => Call::Stagger(self.seconds(), self.durations(count)),
            1 => Call::GroupParallel(self.durations(count)),
            2 => Call::GroupSequence(self.durations(count)),
            3 => Call::GroupStagger(self.pattern(), self.durations(count)),
            _ if count * 3 / 2 > MOST_ITEMS => {
                Call::Sequence(self.items(count.min(MOST_ITEMS), 64))
            }
            _ => Call::Sequence(self.items(count * 3 / 2, 4)),
        }
    }

    fn durations(&mut self, count: usize) -> Vec<f32> {
        if self.long && self.one_in(4) {
            return vec![self.everyday(); count];
        }
        (0..count).map(|_| self.duration()).collect()
    }

    /// Of so many items one is a gap.
    fn items(&mut self, count: usize, gap: u32) -> Vec<Item> {
        (0..count).map(|_| self.item(gap)).collect()
    }

    fn item(&mut self, gap: u32) -> Item {
        if self.one_in(gap) {
            Item::Gap(self.seconds())
        } else if self.one_in(3) {
            Item::ThenFor(self.label(), self.duration(), self.duration())
        } else {
            Item::Then(self.label(), self.duration())
        }
    }

    fn pattern(&mut self) -> Pattern {
        let step = f32::from_bits(cases::step(self.rng));
        let count = self.index();
        match self.rng.below(4) {
            0 => Pattern::Grid {
                cols: cases::side(self.rng),
                rows: cases::side(self.rng),
                origin: self.rng.below(9) as u8,
                step,
            },
            1 => Pattern::Random {
                seed: self.rng.bits(),
                min: step,
                max: f32::from_bits(cases::step(self.rng)),
            },
            2 => Pattern::CenterOut { count, step },
            _ => Pattern::EdgesIn { count, step },
        }
    }

    // Operands

    fn index(&mut self) -> u32 {
        match self.rng.below(4) {
            0 => cases::word(self.rng),
            1 if self.long => self.rng.below(300),
            _ => self.rng.below(40),
        }
    }

    fn label(&mut self) -> Vec<u8> {
        if self.is_long() && self.one_in(4) {
            let count = self.count() as u32;
            return format!("item_{}", self.rng.below(count)).into();
        }
        match self.rng.below(32) {
            0 => (0..self.rng.below(27))
                .map(|_| self.rng.bits() as u8)
                .collect(),
            1 => vec![b'x'; self.rng.pick(&[23, 24, 25, 25, 255])],
            _ => self.rng.pick(&LABELS).to_vec(),
        }
    }

    fn mode(&mut self) -> Mode {
        Mode {
            kind: self.rng.below(5) as u8,
            number: match self.rng.below(5) {
                0 => self.rng.pick(&LOOP_NUMBERS),
                _ => self.rng.below(6),
            },
        }
    }

    fn count(&self) -> usize {
        self.running.timeline.count()
    }

    /// Whether there are more than 64 entries, in a script that is to have them.
    fn is_long(&self) -> bool {
        self.long && self.count() > SHORT_PANEL
    }

    fn lent(&mut self) -> Lent {
        let count = self.count() as u16;
        let more = match self.rng.below(8) {
            0 => 2,
            1 => 1,
            _ => 0,
        };
        let [mut kinds, mut amounts, mut places] = [count + more; 3];
        if self.one_in(16) {
            for length in [&mut kinds, &mut amounts, &mut places] {
                if self.one_in(2) {
                    *length = self.other_length(count);
                }
            }
        }
        Lent {
            kinds,
            amounts,
            places,
        }
    }

    fn other_length(&mut self, count: u16) -> u16 {
        if self.is_long() && self.one_in(4) {
            return self.rng.pick(&[1, 63, 64, 65, 128, 255, 256, 257, 300]);
        }
        match self.rng.below(40) {
            0 => self.rng.pick(&[299, 300, 301, 65_535]),
            1..=4 => 0,
            5..=10 => count + 3,
            _ => count.saturating_sub(1),
        }
    }

    fn list(&mut self, dt: f32) -> u16 {
        if self.is_long() && self.one_in(2) {
            let due = self.due(dt) as u16;
            return match self.rng.below(4) {
                0 => self.rng.pick(&[63, 64, 65, 255, 256, 257]),
                1 => due.saturating_sub(1),
                2 => due + 1,
                _ => due,
            };
        }
        let count = self.count() as u32;
        let length = match self.rng.below(32) {
            0 => self.rng.pick(&[255, 256, 999, 1000, 1001, 65_535]),
            1..=4 => self.rng.below(3),
            5..=8 => self.rng.below(count + 1),
            9..=16 => count,
            _ => count * (1 + self.rng.below(4)) + self.rng.below(3),
        };
        length as u16
    }

    /// About how many entries an update completes.
    fn due(&self, dt: f32) -> usize {
        let (prev, next) = (self.twins().elapsed(), self.twins().next_elapsed(dt));
        let ends = self
            .twins()
            .entries()
            .iter()
            .map(|entry| entry.start + entry.duration);
        let counted = self.running.timeline.count_ahead(dt);
        counted.unwrap_or_else(|| ends.filter(|&end| prev < end && end <= next).count())
    }

    fn replies(&mut self) -> Vec<u8> {
        let count = self.count();
        let stops = self.rng.pick(&[0, 0, 0, 8, 2, 1]);
        let mut replies: Vec<u8> = (0..count)
            .map(|_| u8::from(stops == 0 || !self.one_in(stops)))
            .collect();
        if self.is_long() && self.one_in(16) {
            match self.rng.below(4) {
                0 => replies.truncate(self.rng.pick(&[0, 64, 65, 128, 255])),
                1 => replies[count - 1] = 2,
                2 => replies[SHORT_PANEL] = 2,
                _ => replies.resize(300, 2),
            }
            return replies;
        }
        match self.rng.below(32) {
            0 => drop(replies.pop()),
            1 => replies.extend([0, 1, 2, 255]),
            2 if count > 0 => {
                let at = self.rng.below(count as u32) as usize;
                replies[at] = self.rng.pick(&[2, 3, 128, 255]);
            }
            _ => {}
        }
        replies
    }

    fn duration(&mut self) -> f32 {
        match self.rng.below(24) {
            0..=2 => 0.0,
            3 => self.seconds(),
            4 => self.odd(),
            5 => self.everyday() * 1e-6,
            _ => self.everyday(),
        }
    }

    fn scale(&mut self) -> f32 {
        match self.rng.below(8) {
            0 => 0.0,
            1 => self.odd(),
            2 => self.everyday(),
            3 => -1.0,
            _ => self.rng.pick(&[0.1, 0.25, 0.5, 1.0, 1.0, 1.5, 2.0, 3.0]),
        }
    }

    fn share(&mut self) -> f32 {
        let run = self.twins().run();
        match self.rng.below(8) {
            0 => self.odd(),
            1 => self.rng.below(1 << 24) as f32 / (1 << 24) as f32,
            2 => {
                let edge = self.rng.pick(&[0.0, 1.0]);
                self.beside(edge)
            }
            3 | 4 => {
                let share = self.landmark() / run;
                self.beside(share)
            }
            _ => self.rng.below(9) as f32 / self.rng.pick(&[8.0, 7.0, 10.0, 6.0]),
        }
    }

    /// A step that often goes to a landmark, or over some cycles.
    fn dt(&mut self) -> f32 {
        let twins = self.twins();
        let (elapsed, scale, base) = (twins.elapsed(), twins.time_scale(), twins.base());
        match self.rng.below(32) {
            0..=11 => {
                let step = (self.seconds() - elapsed) / scale;
                self.beside(step.abs())
            }
            12..=15 => self.everyday() * 0.125,
            16..=20 => self.everyday(),
            21..=25 => base * self.rng.pick(&[0.25, 0.5, 1.0, 1.0, 2.0, 3.0, 7.5]),
            26 => base * self.rng.pick(&[20.0, 300.0, 1e4, 1e9]),
            27 => 0.0,
            28 => f32::INFINITY,
            29 => f32::NAN,
            _ => self.odd(),
        }
    }

    fn seconds(&mut self) -> f32 {
        match self.rng.below(16) {
            0 => self.odd(),
            1..=5 => self.everyday(),
            _ => {
                let mark = self.landmark();
                self.beside(mark)
            }
        }
    }

    /// A start, an end, the base, the run, some multiple of them, or seconds noted before.
    fn landmark(&mut self) -> f32 {
        let count = self.count() as u32;
        let pick = if count == 0 { 0 } else { self.rng.below(count) };
        let twins = self.twins();
        let (base, run) = (twins.base(), twins.run());
        let (start, end) = match twins.entries().get(pick as usize) {
            Some(entry) => (entry.start, entry.start + entry.duration),
            None => (0.0, 0.0),
        };
        let cycles = self.rng.pick(&[1.0, 1.0, 2.0, 3.0, 4.0, 10.0, 1e7]);
        match self.rng.below(16) {
            0 | 1 => start,
            2 | 3 => end,
            4 => base,
            5 => run,
            6 => base * cycles,
            7 => base * cycles + start,
            8 | 9 => base * cycles + end,
            10 => base * 2.0 * cycles - end,
            11 => run - start,
            12 => run * 0.5,
            _ => {
                let noted = &self.noted;
                noted[self.rng.below(noted.len() as u32) as usize]
            }
        }
    }

    /// The number, or a float next to it.
    fn beside(&mut self, x: f32) -> f32 {
        match self.rng.below(6) {
            0 => x.next_up(),
            1 => x.next_down(),
            _ => x,
        }
    }

    fn everyday(&mut self) -> f32 {
        let number = match self.rng.below(3) {
            0 => self.rng.below(24) as f32 * 0.25,
            1 => self.rng.below(50) as f32 * 0.1,
            _ => self.rng.below(1 << 16) as f32 / 7919.0,
        };
        number * self.unit
    }

    fn odd(&mut self) -> f32 {
        f32::from_bits(cases::float(self.rng))
    }
}
