//! The comparison of `float_cases`: the float helpers and the delays.

use crate::answer::answer;
use crate::cases;
use crate::port;
use crate::record::{LINE_BYTES, Op, RECORD_BYTES, Record};
use crate::rng::Rng;
use std::fs;

const PROGRAM: &str = "float_cases";

/// Records in one run of the program.
const BATCH: usize = 1 << 20;

/// How many differences are printed.
const SHOWN: usize = 10;

/// How many answers were compared for each question, and how many differ.
#[derive(Default)]
struct Tally {
    compared: [u64; Op::ALL.len()],
    different: usize,
}

/// Compares all edges, then random cases up to `cases` in all. At least `least` answers must have
/// been compared, and at least one in a thousand of them for each question with operands.
pub fn compare(seed: u64, cases: u64, least: u64) -> Result<(), String> {
    let mut rng = Rng::new(seed);
    let mut tally = Tally::default();
    compare_batch(&cases::edges(), &mut tally)?;
    while tally.total() < cases && tally.different == 0 {
        let left = (cases - tally.total()).min(BATCH as u64);
        let batch: Vec<Record> = (0..left).map(|_| cases::random(&mut rng)).collect();
        compare_batch(&batch, &mut tally)?;
    }
    println!(
        "{PROGRAM}: seed {seed}, {} answers, {} differences",
        tally.total(),
        tally.different
    );
    for (op, name) in Op::ALL {
        println!("  {name:<16}{:>10}", tally.compared[op as usize]);
    }
    tally.verdict(least)
}

/// Writes the fixed sample and the Rust's answers to where `rt` replays it.
pub fn write_sample() -> Result<(), String> {
    let records = cases::sample();
    let lines: String = records.iter().map(|r| answer(r).line()).collect();
    let folder = port::root().join("crates").join(PROGRAM);
    fs::write(folder.join("stdin"), bytes(&records)).map_err(|e| e.to_string())?;
    fs::write(folder.join("stdout"), lines).map_err(|e| e.to_string())?;
    println!("{PROGRAM}: a sample of {} records", records.len());
    Ok(())
}

fn bytes(records: &[Record]) -> Vec<u8> {
    let mut input = Vec::with_capacity(records.len() * RECORD_BYTES);
    for record in records {
        record.write(&mut input);
    }
    input
}

fn compare_batch(records: &[Record], tally: &mut Tally) -> Result<(), String> {
    let output = port::Port(None).run(PROGRAM, &bytes(records))?;
    if output.len() != records.len() * LINE_BYTES {
        return Err(format!(
            "{PROGRAM}: {} records gave {} bytes",
            records.len(),
            output.len()
        ));
    }
    for (record, line) in records.iter().zip(output.chunks(LINE_BYTES)) {
        let expected = answer(record).line();
        if line != expected.as_bytes() {
            tally.different += 1;
            if tally.different <= SHOWN {
                show(record, &expected, line);
            }
        }
        tally.compared[record.op as usize] += 1;
    }
    Ok(())
}

fn show(record: &Record, expected: &str, line: &[u8]) {
    let name = record.op.name();
    let port = String::from_utf8_lossy(line);
    println!(
        "{name} {:08x?}: Rust {}, port {}",
        record.operands,
        expected.trim_end(),
        port.trim_end()
    );
}

impl Tally {
    fn total(&self) -> u64 {
        self.compared.iter().sum()
    }

    fn verdict(&self, least: u64) -> Result<(), String> {
        if self.different > 0 {
            return Err(format!("{PROGRAM}: {} answers differ", self.different));
        }
        if self.total() < least {
            return Err(format!(
                "{PROGRAM}: {} answers, fewer than {least}",
                self.total()
            ));
        }
        for (op, name) in Op::ALL {
            if op != Op::Infinity && self.compared[op as usize] < least / 1000 {
                return Err(format!("{PROGRAM}: too few answers for {name}"));
            }
        }
        Ok(())
    }
}
