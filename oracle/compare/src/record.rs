//! A case of `float_cases`: the bytes that the program reads, and the line that it answers with.

pub const RECORD_BYTES: usize = 21;
pub const LINE_BYTES: usize = 12;

/// The questions, by their numbers.
#[derive(Clone, Copy, PartialEq, Eq)]
#[repr(u8)]
pub enum Op {
    Max,
    Min,
    Clamp,
    IsNan,
    IsFinite,
    FromU32,
    ToU32,
    Infinity,
    Grid,
    Random,
    CenterOut,
    EdgesIn,
}

impl Op {
    pub const ALL: [(Op, &'static str); 12] = [
        (Op::Max, "max"),
        (Op::Min, "min"),
        (Op::Clamp, "clamp"),
        (Op::IsNan, "is_nan"),
        (Op::IsFinite, "is_finite"),
        (Op::FromU32, "from_u32"),
        (Op::ToU32, "to_u32"),
        (Op::Infinity, "infinity"),
        (Op::Grid, "delay Grid"),
        (Op::Random, "delay Random"),
        (Op::CenterOut, "delay CenterOut"),
        (Op::EdgesIn, "delay EdgesIn"),
    ];

    pub fn name(self) -> &'static str {
        Op::ALL[self as usize].1
    }
}

/// A question and its operands; floats are given by their bits, operands that it has not are 0.
#[derive(Clone, Copy)]
pub struct Record {
    pub op: Op,
    pub operands: [u32; 5],
}

impl Record {
    pub fn new(op: Op, given: &[u32]) -> Self {
        let mut operands = [0; 5];
        operands[..given.len()].copy_from_slice(given);
        Record { op, operands }
    }

    /// The number of the question, then the five operands, little-endian.
    pub fn write(&self, out: &mut Vec<u8>) {
        out.push(self.op as u8);
        for operand in self.operands {
            out.extend_from_slice(&operand.to_le_bytes());
        }
    }
}

/// What is answered: a refusal (0: none) and a number, or a float's bits.
#[derive(Clone, Copy)]
pub struct Answer {
    pub refusal: u8,
    pub bits: u32,
}

impl Answer {
    pub fn line(self) -> String {
        format!("{:02x} {:08x}\n", self.refusal, self.bits)
    }
}
