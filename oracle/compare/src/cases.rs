//! The cases of `float_cases`: edges, crossed with each other, and random ones near and far from them.

use crate::record::{Op, Record};
use crate::rng::Rng;

/// Bits of floats at the edges, without their sign: zero, subnormals, halves, the ends of the whole
/// numbers (2^23, 2^24) and of the integer types, the largest, infinity, quiet and signalling NaN.
const MAGNITUDES: [u32; 36] = [
    0x0000_0000,
    0x0000_0001,
    0x0000_0002,
    0x007f_ffff,
    0x0080_0000,
    0x0080_0001,
    0x3380_0000,
    0x3eff_ffff,
    0x3f00_0000,
    0x3f00_0001,
    0x3f7f_ffff,
    0x3f80_0000,
    0x3f80_0001,
    0x3fc0_0000,
    0x4000_0000,
    0x4020_0000,
    0x4aff_ffff,
    0x4b00_0000,
    0x4b00_0001,
    0x4b7f_ffff,
    0x4b80_0000,
    0x4b80_0001,
    0x4eff_ffff,
    0x4f00_0000,
    0x4f00_0001,
    0x4f7f_ffff,
    0x4f80_0000,
    0x4f80_0001,
    0x5f00_0000,
    0x7f7f_ffff,
    0x7f80_0000,
    0x7f80_0001,
    0x7fbf_ffff,
    0x7fc0_0000,
    0x7fc0_0001,
    0x7fff_ffff,
];
const SIGN: u32 = 0x8000_0000;

/// Floats that the sample crosses in pairs, and in triples.
const PAIRED: [f32; 17] = [
    f32::NEG_INFINITY,
    f32::MIN,
    -1.0,
    -f32::MIN_POSITIVE,
    -1e-45,
    -0.0,
    0.0,
    1e-45,
    f32::MIN_POSITIVE,
    0.5,
    1.0,
    1.0 + f32::EPSILON,
    16_777_216.0,
    4_294_967_296.0,
    f32::MAX,
    f32::INFINITY,
    f32::NAN,
];
const TRIPLED: [f32; 7] = [
    f32::NEG_INFINITY,
    -1.0,
    -0.0,
    0.0,
    1.0,
    f32::INFINITY,
    f32::NAN,
];

const STEPS: [f32; 13] = [
    0.1,
    1.0,
    1.5,
    0.0,
    -0.0,
    -1.0,
    f32::NAN,
    f32::INFINITY,
    f32::NEG_INFINITY,
    f32::MAX,
    1e38,
    1e-45,
    f32::MIN_POSITIVE,
];

const SIDES: [u32; 15] = [
    0,
    1,
    2,
    3,
    4,
    5,
    8,
    255,
    256,
    65_534,
    65_535,
    65_536,
    65_537,
    0x7fff_ffff,
    u32::MAX,
];

const COUNTS: [u32; 21] = [
    0,
    1,
    2,
    3,
    4,
    5,
    6,
    64,
    255,
    256,
    257,
    65_536,
    16_777_215,
    16_777_216,
    16_777_217,
    33_554_433,
    33_554_435,
    67_108_867,
    0x8000_0000,
    u32::MAX - 1,
    u32::MAX,
];

/// Shortest and longest delays of `Random`.
const RANGES: [(f32, f32); 12] = [
    (0.5, 2.0),
    (0.0, 1.0),
    (2.0, 0.5),
    (-1.0, 1.0),
    (-2.0, -1.0),
    (-0.0, 0.0),
    (f32::NAN, 3.0),
    (3.0, f32::NAN),
    (f32::INFINITY, 1.0),
    (1.0, f32::INFINITY),
    (0.0, f32::MAX),
    (f32::MAX, f32::MAX),
];

/// Hashes of `Random` where the factor is 0, is rounded, or becomes 1 ("hashes from 4,294,967,168
/// give the factor 1.0").
const HASHES: [u32; 14] = [
    0,
    1,
    2,
    16_777_215,
    16_777_216,
    16_777_217,
    16_777_219,
    0x8000_0000,
    4_294_967_039,
    4_294_967_040,
    4_294_967_167,
    4_294_967_168,
    4_294_967_169,
    u32::MAX,
];

/// The fixed sample that the repository keeps.
pub fn sample() -> Vec<Record> {
    let paired = PAIRED.map(f32::to_bits);
    let tripled = TRIPLED.map(f32::to_bits);
    let mut cases = helpers(&paired, &tripled);
    let sides = [(0, 0), (0, 3), (3, 0), (1, 1), (4, 3), (5, 5)];
    let large = [
        (65_535, 65_535),
        (65_535, 65_536),
        (65_536, 65_535),
        (65_536, 1),
        (u32::MAX, 0),
    ];
    for (cols, rows) in sides.into_iter().chain(large) {
        let cells = cols.max(1).wrapping_mul(rows.max(1));
        grids(
            &mut cases,
            cols,
            rows,
            &[0.1],
            &[0, 5, 7, cells.wrapping_sub(1), u32::MAX],
        );
    }
    grids(&mut cases, 4, 3, &STEPS, &[0]);
    for count in [0, 1, 2, 5, 6, 16_777_217, u32::MAX] {
        rows(
            &mut cases,
            count,
            &[0.1],
            &[0, 1, 3, count / 2, count.wrapping_sub(1), u32::MAX],
        );
    }
    rows(&mut cases, 5, &STEPS, &[1]);
    for hash in HASHES {
        randoms(&mut cases, hash, 7, &RANGES[..2]);
    }
    randoms(&mut cases, 0x1234_5678, u32::MAX, &RANGES);
    cases.push(Record::new(
        Op::Random,
        &[0, 0.5f32.to_bits(), 2f32.to_bits(), 0],
    ));
    cases
}

/// Every edge crossed with every other.
pub fn edges() -> Vec<Record> {
    let floats = edge_floats();
    let mut cases = helpers(&floats, &floats);
    for cols in SIDES {
        for rows in SIDES {
            let last = cols.max(1).wrapping_mul(rows.max(1)).wrapping_sub(1);
            let places = [
                0,
                1,
                cols.wrapping_sub(1),
                cols,
                cols / 2,
                last / 2,
                last,
                last.wrapping_add(1),
                u32::MAX,
            ];
            grids(&mut cases, cols, rows, &STEPS[..3], &places);
        }
    }
    for side in [4, 65_535] {
        grids(&mut cases, side, 3, &STEPS, &[0, 2, 5, 11]);
    }
    for count in COUNTS {
        let places = [
            0,
            1,
            2,
            count / 3,
            count / 2,
            (count / 2).wrapping_add(1),
            count.wrapping_sub(2),
            count.wrapping_sub(1),
            count,
            u32::MAX,
        ];
        rows(&mut cases, count, &STEPS, &places);
    }
    for hash in HASHES {
        for index in [0, 1, 2, 63, 255, 65_536, u32::MAX] {
            randoms(&mut cases, hash, index, &RANGES);
        }
    }
    cases
}

/// A random case: of the helpers or of the delays, alike often.
pub fn random(rng: &mut Rng) -> Record {
    use Op::*;
    let op = rng.pick(&[
        Max, Min, Clamp, IsNan, IsFinite, FromU32, ToU32, Grid, Grid, Random, Random, CenterOut,
        EdgesIn,
    ]);
    let operands: &[u32] = match op {
        Max | Min => &two_floats(rng),
        Clamp => &bounded(rng),
        IsNan | IsFinite | ToU32 => &[float(rng)],
        FromU32 => &[word(rng)],
        Infinity => &[],
        Grid => &[side(rng), side(rng), rng.below(9), step(rng), place(rng)],
        Random if rng.below(4) == 0 => &hashed(rng),
        Random => &[word(rng), step(rng), step(rng), place(rng)],
        CenterOut | EdgesIn => &[place(rng), step(rng), place(rng)],
    };
    Record::new(op, operands)
}

// The edges

fn edge_floats() -> Vec<u32> {
    MAGNITUDES.iter().flat_map(|&m| [m, m | SIGN]).collect()
}

/// Powers of two with their neighbours, and from 2^24 on the ties between two floats with theirs.
fn edge_words() -> Vec<u32> {
    let mut words = vec![u32::MAX];
    for k in 0..32 {
        let power = 1u32 << k;
        words.extend([power - 1, power, power.wrapping_add(1)]);
        if k >= 24 {
            let half = 1 << (k - 24);
            let top = power - 1 + power;
            for tie in [power + half, power + 3 * half, top - half + 1] {
                words.extend([tie - 1, tie, tie.wrapping_add(1)]);
            }
        }
    }
    words.sort();
    words.dedup();
    words
}

fn helpers(paired: &[u32], tripled: &[u32]) -> Vec<Record> {
    let mut cases = vec![Record::new(Op::Infinity, &[])];
    for &a in paired {
        for &b in paired {
            cases.push(Record::new(Op::Max, &[a, b]));
            cases.push(Record::new(Op::Min, &[a, b]));
        }
    }
    for &x in tripled {
        for &lo in tripled {
            for &hi in tripled {
                if ordered(lo, hi) {
                    cases.push(Record::new(Op::Clamp, &[x, lo, hi]));
                }
            }
        }
    }
    for x in edge_floats() {
        for op in [Op::IsNan, Op::IsFinite, Op::ToU32] {
            cases.push(Record::new(op, &[x]));
        }
    }
    for n in edge_words() {
        cases.push(Record::new(Op::FromU32, &[n]));
        cases.push(Record::new(Op::ToU32, &[(n as f32).to_bits()]));
    }
    cases
}

/// The Rust panics at other bounds of `clamp`.
fn ordered(lo: u32, hi: u32) -> bool {
    f32::from_bits(lo) <= f32::from_bits(hi)
}

fn grids(cases: &mut Vec<Record>, cols: u32, rows: u32, steps: &[f32], places: &[u32]) {
    for origin in 0..9 {
        for step in steps {
            for &place in places {
                cases.push(Record::new(
                    Op::Grid,
                    &[cols, rows, origin, step.to_bits(), place],
                ));
            }
        }
    }
}

fn rows(cases: &mut Vec<Record>, count: u32, steps: &[f32], places: &[u32]) {
    for op in [Op::CenterOut, Op::EdgesIn] {
        for step in steps {
            for &place in places {
                cases.push(Record::new(op, &[count, step.to_bits(), place]));
            }
        }
    }
}

fn randoms(cases: &mut Vec<Record>, hash: u32, index: u32, ranges: &[(f32, f32)]) {
    for (min, max) in ranges {
        cases.push(Record::new(
            Op::Random,
            &[seed_of(hash, index), min.to_bits(), max.to_bits(), index],
        ));
    }
}

/// The seed by which `random_delay` comes to a hash at an index: its steps, backwards.
fn seed_of(hash: u32, index: u32) -> u32 {
    let mut x = hash;
    x ^= x >> 16;
    x = x.wrapping_mul(inverse(0x846C_A68B));
    x ^= (x >> 15) ^ (x >> 30);
    x = x.wrapping_mul(inverse(0x7FEB_352D));
    x ^= x >> 16;
    x ^ index.wrapping_mul(0x9E37_79B9)
}

/// The inverse of an odd number modulo 2^32; each turn doubles the number of right digits.
fn inverse(odd: u32) -> u32 {
    (0..5).fold(odd, |x, _| {
        x.wrapping_mul(2u32.wrapping_sub(odd.wrapping_mul(x)))
    })
}

// Random operands

/// An edge, a neighbour of one, any bits, or a number of everyday size.
pub fn float(rng: &mut Rng) -> u32 {
    let sign = rng.pick(&[0, 0, SIGN]);
    match rng.below(4) {
        0 => rng.pick(&MAGNITUDES) | sign,
        1 => (rng.pick(&MAGNITUDES) | sign)
            .wrapping_add(rng.below(9))
            .wrapping_sub(4),
        2 => rng.bits(),
        _ => (rng.below(1 << 20) as f32 / 1000.0).to_bits() | sign,
    }
}

/// Two floats, sometimes equal or of opposite sign.
fn two_floats(rng: &mut Rng) -> [u32; 2] {
    let a = float(rng);
    match rng.below(8) {
        0 => [a, a],
        1 => [a, a ^ SIGN],
        _ => [a, float(rng)],
    }
}

/// A float and two bounds in their order.
fn bounded(rng: &mut Rng) -> [u32; 3] {
    let x = float(rng);
    loop {
        let [lo, hi] = two_floats(rng);
        if ordered(lo, hi) {
            return [x, lo, hi];
        }
        if ordered(hi, lo) {
            return [x, hi, lo];
        }
    }
}

/// A number of any size, often near a power of two.
pub fn word(rng: &mut Rng) -> u32 {
    let power = 1u32 << rng.below(32);
    match rng.below(4) {
        0 => power.wrapping_add(rng.below(9)).wrapping_sub(4),
        1 => power.wrapping_add(power >> rng.below(25)),
        2 => rng.bits() >> rng.below(32),
        _ => rng.bits(),
    }
}

pub fn side(rng: &mut Rng) -> u32 {
    match rng.below(4) {
        0 => rng.pick(&SIDES),
        1 => rng.below(20),
        2 => rng.below(400),
        _ => rng.below(65_540),
    }
}

pub fn step(rng: &mut Rng) -> u32 {
    match rng.below(4) {
        0 => rng.pick(&STEPS).to_bits(),
        1 => float(rng),
        _ => (rng.below(1 << 16) as f32 / 1000.0).to_bits(),
    }
}

fn place(rng: &mut Rng) -> u32 {
    match rng.below(4) {
        0 => rng.below(20),
        1 => rng.below(400),
        _ => word(rng),
    }
}

/// `Random` at an edge of the hash.
fn hashed(rng: &mut Rng) -> [u32; 4] {
    let index = place(rng);
    let hash = match rng.below(2) {
        0 => rng.pick(&HASHES),
        _ => u32::MAX - rng.below(300),
    };
    [seed_of(hash, index), step(rng), step(rng), index]
}
