//! A call of a script, as the trace program's input has it: its operands, and its bytes.

use crate::answer::ORIGINS;
use animato_tween::{Loop, StaggerPattern};

/// More places lent than this count as this many.
const MOST_PLACES: u16 = 300;
/// A longer list counts as this long.
const MOST_LISTED: u16 = 1000;
/// More replies, or more durations, are no call.
const MOST_ITEMS: u16 = 300;

/// How many places are lent of kinds, amounts and places.
#[derive(Clone, Copy, Debug)]
pub struct Lent {
    pub kinds: u16,
    pub amounts: u16,
    pub places: u16,
}

#[derive(Clone, Debug)]
pub struct Update {
    pub dt: f32,
    pub lent: Lent,
    pub list: u16,
    pub replies: Vec<u8>,
}

#[derive(Clone, PartialEq, Debug)]
pub enum Place {
    Absolute(f32),
    Start,
    End,
    Label(Vec<u8>),
    Offset(f32),
}

#[derive(Clone, Debug)]
pub struct Add {
    pub label: Vec<u8>,
    pub at: Place,
    pub duration: f32,
}

/// A loop mode by its number in the order of `Loop`, and the number that some modes carry.
#[derive(Clone, Copy, Debug)]
pub struct Mode {
    pub kind: u8,
    pub number: u32,
}

#[derive(Clone, Copy, Debug)]
pub enum Pattern {
    Grid {
        cols: u32,
        rows: u32,
        origin: u8,
        step: f32,
    },
    Random {
        seed: u32,
        min: f32,
        max: f32,
    },
    CenterOut {
        count: u32,
        step: f32,
    },
    EdgesIn {
        count: u32,
        step: f32,
    },
}

#[derive(Clone, Debug)]
pub enum Item {
    Then(Vec<u8>, f32),
    ThenFor(Vec<u8>, f32, f32),
    Gap(f32),
}

#[derive(Clone, Debug)]
pub enum Call {
    Play(Lent),
    Pause,
    Resume,
    Reset(Lent),
    Update(Update),
    Seek(f32, Lent),
    SeekAbs(f32, Lent),
    SetTimeScale(f32),
    Add(Add),
    AddBoxed(Add),
    Looping(Mode),
    Preview(f32, Lent),
    Introspect,
    IntrospectGroup,
    Reverse(Lent),
    Delay(Pattern, u32),
    Stagger(f32, Vec<f32>),
    GroupParallel(Vec<f32>),
    GroupSequence(Vec<f32>),
    GroupStagger(Pattern, Vec<f32>),
    Sequence(Vec<Item>),
}

/// The calls' names, by their bytes.
pub const NAMES: [&str; 21] = [
    "play",
    "pause",
    "resume",
    "reset",
    "update",
    "seek",
    "seek_abs",
    "set_time_scale",
    "add",
    "add_boxed_with_duration",
    "looping",
    "preview",
    "introspect",
    "introspect (group)",
    "reverse (group)",
    "delay",
    "stagger",
    "group parallel",
    "group sequence",
    "group stagger",
    "sequence",
];

impl Lent {
    /// The lengths of the three slices.
    pub fn lengths(self) -> [usize; 3] {
        [self.kinds, self.amounts, self.places].map(|n| n.min(MOST_PLACES).into())
    }
}

impl Update {
    pub fn list_length(&self) -> usize {
        self.list.min(MOST_LISTED).into()
    }
}

impl Mode {
    pub fn looping(self) -> Loop {
        match self.kind {
            0 => Loop::Once,
            1 => Loop::Times(self.number),
            2 => Loop::Forever,
            3 => Loop::PingPong,
            _ => Loop::PingPongTimes(self.number),
        }
    }
}

impl Pattern {
    pub fn stagger_pattern(self) -> StaggerPattern {
        match self {
            Pattern::Grid {
                cols,
                rows,
                origin,
                step,
            } => StaggerPattern::Grid {
                cols: cols as usize,
                rows: rows as usize,
                origin: ORIGINS[usize::from(origin)],
                step,
            },
            Pattern::Random { seed, min, max } => StaggerPattern::Random {
                seed,
                min_delay: min,
                max_delay: max,
            },
            Pattern::CenterOut { count, step } => StaggerPattern::CenterOut {
                count: count as usize,
                step,
            },
            Pattern::EdgesIn { count, step } => StaggerPattern::EdgesIn {
                count: count as usize,
                step,
            },
        }
    }
}

// From bytes

/// What is left of a script. Each read answers nothing where the bytes run out.
pub struct Reader<'a>(pub &'a [u8]);

impl<'a> Reader<'a> {
    pub fn at_end(&self) -> bool {
        self.0.is_empty()
    }

    fn bytes(&mut self, n: usize) -> Option<&'a [u8]> {
        let (front, rest) = self.0.split_at_checked(n)?;
        self.0 = rest;
        Some(front)
    }

    fn u8(&mut self) -> Option<u8> {
        Some(self.bytes(1)?[0])
    }

    fn u16(&mut self) -> Option<u16> {
        Some(u16::from_le_bytes(self.bytes(2)?.try_into().ok()?))
    }

    fn u32(&mut self) -> Option<u32> {
        Some(u32::from_le_bytes(self.bytes(4)?.try_into().ok()?))
    }

    fn f32(&mut self) -> Option<f32> {
        self.u32().map(f32::from_bits)
    }

    fn lent(&mut self) -> Option<Lent> {
        Some(Lent {
            kinds: self.u16()?,
            amounts: self.u16()?,
            places: self.u16()?,
        })
    }

    fn label(&mut self) -> Option<Vec<u8>> {
        let n = self.u8()?;
        Some(self.bytes(n.into())?.to_vec())
    }

    fn item_count(&mut self) -> Option<u16> {
        self.u16().filter(|&n| n <= MOST_ITEMS)
    }

    fn durations(&mut self) -> Option<Vec<f32>> {
        let n = self.item_count()?;
        (0..n).map(|_| self.f32()).collect()
    }

    fn update(&mut self) -> Option<Update> {
        let (dt, lent, list) = (self.f32()?, self.lent()?, self.u16()?);
        let n = self.item_count()?;
        Some(Update {
            dt,
            lent,
            list,
            replies: self.bytes(n.into())?.to_vec(),
        })
    }

    fn add(&mut self) -> Option<Add> {
        Some(Add {
            label: self.label()?,
            at: match self.u8()? {
                0 => Place::Absolute(self.f32()?),
                1 => Place::Start,
                2 => Place::End,
                3 => Place::Label(self.label()?),
                4 => Place::Offset(self.f32()?),
                _ => return None,
            },
            duration: self.f32()?,
        })
    }

    fn mode(&mut self) -> Option<Mode> {
        Some(Mode {
            kind: self.u8().filter(|&kind| kind <= 4)?,
            number: self.u32()?,
        })
    }

    fn pattern(&mut self) -> Option<Pattern> {
        Some(match self.u8()? {
            0 => Pattern::Grid {
                cols: self.u32()?,
                rows: self.u32()?,
                origin: self.u8().filter(|&origin| origin <= 8)?,
                step: self.f32()?,
            },
            1 => Pattern::Random {
                seed: self.u32()?,
                min: self.f32()?,
                max: self.f32()?,
            },
            2 => Pattern::CenterOut {
                count: self.u32()?,
                step: self.f32()?,
            },
            3 => Pattern::EdgesIn {
                count: self.u32()?,
                step: self.f32()?,
            },
            _ => return None,
        })
    }

    fn item(&mut self) -> Option<Item> {
        Some(match self.u8()? {
            0 => Item::Then(self.label()?, self.f32()?),
            1 => Item::ThenFor(self.label()?, self.f32()?, self.f32()?),
            2 => Item::Gap(self.f32()?),
            _ => return None,
        })
    }

    /// The next call, or nothing where it is cut.
    pub fn call(&mut self) -> Option<Call> {
        Some(match self.u8()? {
            0 => Call::Play(self.lent()?),
            1 => Call::Pause,
            2 => Call::Resume,
            3 => Call::Reset(self.lent()?),
            4 => Call::Update(self.update()?),
            5 => Call::Seek(self.f32()?, self.lent()?),
            6 => Call::SeekAbs(self.f32()?, self.lent()?),
            7 => Call::SetTimeScale(self.f32()?),
            8 => Call::Add(self.add()?),
            9 => Call::AddBoxed(self.add()?),
            10 => Call::Looping(self.mode()?),
            11 => Call::Preview(self.f32()?, self.lent()?),
            12 => Call::Introspect,
            13 => Call::IntrospectGroup,
            14 => Call::Reverse(self.lent()?),
            15 => Call::Delay(self.pattern()?, self.u32()?),
            16 => Call::Stagger(self.f32()?, self.durations()?),
            17 => Call::GroupParallel(self.durations()?),
            18 => Call::GroupSequence(self.durations()?),
            19 => Call::GroupStagger(self.pattern()?, self.durations()?),
            20 => {
                let n = self.u8()?;
                Call::Sequence((0..n).map(|_| self.item()).collect::<Option<_>>()?)
            }
            _ => return None,
        })
    }
}

// To bytes

struct Writer<'a>(&'a mut Vec<u8>);

impl Writer<'_> {
    fn u8(&mut self, n: u8) {
        self.0.push(n);
    }

    fn u16(&mut self, n: u16) {
        self.0.extend(n.to_le_bytes());
    }

    fn u32(&mut self, n: u32) {
        self.0.extend(n.to_le_bytes());
    }

    fn f32(&mut self, x: f32) {
        self.u32(x.to_bits());
    }

    fn lent(&mut self, lent: Lent) {
        for n in [lent.kinds, lent.amounts, lent.places] {
            self.u16(n);
        }
    }

    fn label(&mut self, label: &[u8]) {
        self.u8(label.len() as u8);
        self.0.extend(label);
    }

    fn durations(&mut self, durations: &[f32]) {
        self.u16(durations.len() as u16);
        for &duration in durations {
            self.f32(duration);
        }
    }

    fn update(&mut self, update: &Update) {
        self.f32(update.dt);
        self.lent(update.lent);
        self.u16(update.list);
        self.u16(update.replies.len() as u16);
        self.0.extend(&update.replies);
    }

    fn add(&mut self, add: &Add) {
        self.label(&add.label);
        match &add.at {
            Place::Absolute(secs) => {
                self.u8(0);
                self.f32(*secs);
            }
            Place::Start => self.u8(1),
            Place::End => self.u8(2),
            Place::Label(name) => {
                self.u8(3);
                self.label(name);
            }
            Place::Offset(secs) => {
                self.u8(4);
                self.f32(*secs);
            }
        }
        self.f32(add.duration);
    }

    fn pattern(&mut self, pattern: Pattern) {
        match pattern {
            Pattern::Grid {
                cols,
                rows,
                origin,
                step,
            } => {
                self.u8(0);
                self.u32(cols);
                self.u32(rows);
                self.u8(origin);
                self.f32(step);
            }
            Pattern::Random { seed, min, max } => {
                self.u8(1);
                self.u32(seed);
                self.f32(min);
                self.f32(max);
            }
            Pattern::CenterOut { count, step } => {
                self.u8(2);
                self.u32(count);
                self.f32(step);
            }
            Pattern::EdgesIn { count, step } => {
                self.u8(3);
                self.u32(count);
                self.f32(step);
            }
        }
    }

    fn item(&mut self, item: &Item) {
        match item {
            Item::Then(label, duration) => {
                self.u8(0);
                self.label(label);
                self.f32(*duration);
            }
            Item::ThenFor(label, own, duration) => {
                self.u8(1);
                self.label(label);
                self.f32(*own);
                self.f32(*duration);
            }
            Item::Gap(seconds) => {
                self.u8(2);
                self.f32(*seconds);
            }
        }
    }
}

impl Call {
    /// The call's byte, which is also its place in `NAMES`.
    pub fn byte(&self) -> u8 {
        match self {
            Call::Play(_) => 0,
            Call::Pause => 1,
            Call::Resume => 2,
            Call::Reset(_) => 3,
            Call::Update(_) => 4,
            Call::Seek(..) => 5,
            Call::SeekAbs(..) => 6,
            Call::SetTimeScale(_) => 7,
            Call::Add(_) => 8,
            Call::AddBoxed(_) => 9,
            Call::Looping(_) => 10,
            Call::Preview(..) => 11,
            Call::Introspect => 12,
            Call::IntrospectGroup => 13,
            Call::Reverse(_) => 14,
            Call::Delay(..) => 15,
            Call::Stagger(..) => 16,
            Call::GroupParallel(_) => 17,
            Call::GroupSequence(_) => 18,
            Call::GroupStagger(..) => 19,
            Call::Sequence(_) => 20,
        }
    }

    pub fn bytes(&self) -> Vec<u8> {
        let mut bytes = Vec::new();
        self.write(&mut bytes);
        bytes
    }

    fn write(&self, out: &mut Vec<u8>) {
        let mut out = Writer(out);
        out.u8(self.byte());
        match self {
            Call::Pause | Call::Resume | Call::Introspect | Call::IntrospectGroup => {}
            Call::Play(lent) | Call::Reset(lent) | Call::Reverse(lent) => out.lent(*lent),
            Call::Update(update) => out.update(update),
            Call::Seek(x, lent) | Call::SeekAbs(x, lent) | Call::Preview(x, lent) => {
                out.f32(*x);
                out.lent(*lent);
            }
            Call::SetTimeScale(scale) => out.f32(*scale),
            Call::Add(add) | Call::AddBoxed(add) => out.add(add),
            Call::Looping(mode) => {
                out.u8(mode.kind);
                out.u32(mode.number);
            }
            Call::Delay(pattern, index) => {
                out.pattern(*pattern);
                out.u32(*index);
            }
            Call::Stagger(delay, durations) => {
                out.f32(*delay);
                out.durations(durations);
            }
            Call::GroupParallel(durations) | Call::GroupSequence(durations) => {
                out.durations(durations)
            }
            Call::GroupStagger(pattern, durations) => {
                out.pattern(*pattern);
                out.durations(durations);
            }
            Call::Sequence(items) => {
                out.u8(items.len() as u8);
                for item in items {
                    out.item(item);
                }
            }
        }
    }
}
