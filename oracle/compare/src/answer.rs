//! The Rust's answers: its own methods of f32, and the unchanged `StaggerPattern::delay`. What paper
//! 01 has otherwise stands around them, each time with the paper's sentence.

use crate::record::{Answer, Op, Record};
use animato_tween::{GridOrigin, StaggerPattern};

pub const ORIGINS: [GridOrigin; 9] = [
    GridOrigin::TopLeft,
    GridOrigin::TopRight,
    GridOrigin::BottomLeft,
    GridOrigin::BottomRight,
    GridOrigin::Center,
    GridOrigin::Top,
    GridOrigin::Bottom,
    GridOrigin::Left,
    GridOrigin::Right,
];

/// "13: a grid side above 65,535 (far above it Rust's sum may overflow)."
pub const GRID_TOO_LARGE: u8 = 13;
pub const MAX_SIDE: u32 = 65_535;

pub fn answer(record: &Record) -> Answer {
    let [a, b, c, d, e] = record.operands;
    let f = f32::from_bits;
    match record.op {
        Op::Max => accepted(one_zero(f(a).max(f(b)))),
        Op::Min => accepted(one_zero(f(a).min(f(b)))),
        Op::Clamp => accepted(one_nan(f(a).clamp(f(b), f(c)))),
        Op::IsNan => accepted(f(a).is_nan().into()),
        Op::IsFinite => accepted(f(a).is_finite().into()),
        Op::FromU32 => accepted(one_nan(a as f32)),
        Op::ToU32 => accepted(f(a) as u32),
        Op::Infinity => accepted(one_nan(f32::INFINITY)),
        Op::Grid if a > MAX_SIDE || b > MAX_SIDE => refused(GRID_TOO_LARGE),
        Op::Grid => delay(
            StaggerPattern::Grid {
                cols: a as usize,
                rows: b as usize,
                origin: ORIGINS[c as usize],
                step: f(d),
            },
            e,
        ),
        Op::Random => delay(
            StaggerPattern::Random {
                seed: a,
                min_delay: f(b),
                max_delay: f(c),
            },
            d,
        ),
        Op::CenterOut => delay(
            StaggerPattern::CenterOut {
                count: a as usize,
                step: f(b),
            },
            c,
        ),
        Op::EdgesIn => delay(
            StaggerPattern::EdgesIn {
                count: a as usize,
                step: f(b),
            },
            c,
        ),
    }
}

/// The number of items is read by `Custom` alone, which paper 01 leaves out.
fn delay(pattern: StaggerPattern, index: u32) -> Answer {
    accepted(one_zero(pattern.delay(index as usize, 0)))
}

fn accepted(bits: u32) -> Answer {
    Answer { refusal: 0, bits }
}

/// "Every other part of its answer is 0, 0.0 or false".
fn refused(refusal: u8) -> Answer {
    Answer { refusal, bits: 0 }
}

/// "In runs against the Rust, zeros of either sign agree and NaN agrees with NaN." NaN:
fn one_nan(x: f32) -> u32 {
    if x.is_nan() { 0x7fc0_0000 } else { x.to_bits() }
}

/// The zeros: where `max` or `min` meets both, the Rust leaves the sign of the answer open.
fn one_zero(x: f32) -> u32 {
    if x == 0.0 { 0 } else { one_nan(x) }
}
