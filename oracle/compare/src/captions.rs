//! The comparison of `caption_cases`: the captions of venue lists and sheets, against venue.rs.

use crate::caption_cases::{self, Case, ENDS, End, MOST_LIST, MOST_SHEET, hex};
use crate::caption_tally::Tally;
use crate::port::{self, Port};
use crate::rng::Rng;
use std::fs;
use std::io::{self, Read, Write as _};

const PROGRAM: &str = "caption_cases";

/// Of the random sheets, one in so many has more than 64 entries.
const ONE_LONG_SHEET_IN: u32 = 32;

/// Bytes in one run of the program, about.
const BATCH_BYTES: usize = 2_000_000;

// What the program prints

/// A line for each record; `cut` for one that is too long or that the input cuts, which ends the run.
fn answers(input: &[u8]) -> String {
    let mut out = String::new();
    let mut rest = input;
    while !rest.is_empty() {
        let Some((case, after)) = first_record(rest) else {
            out.push_str(CUT);
            break;
        };
        out.push_str(&case.line());
        rest = after;
    }
    out
}

const CUT: &str = "cut\n";

fn first_record(bytes: &[u8]) -> Option<(Case, &[u8])> {
    let (list, rest) = counted(bytes, MOST_LIST)?;
    let (sheet, rest) = counted(rest, MOST_SHEET)?;
    let (entry, rest) = rest.split_first_chunk()?;
    Some((Case::new(list, sheet, u32::from_le_bytes(*entry)), rest))
}

pub fn counted(bytes: &[u8], most: usize) -> Option<(&[u8], &[u8])> {
    let (length, rest) = bytes.split_first_chunk()?;
    let length = u32::from_le_bytes(*length) as usize;
    if length > most {
        return None;
    }
    rest.split_at_checked(length)
}

/// Answers the records on standard input.
pub fn write_answers() -> Result<(), String> {
    let mut input = Vec::new();
    let fail = |e: io::Error| e.to_string();
    io::stdin().read_to_end(&mut input).map_err(fail)?;
    let text = answers(&input);
    io::stdout().write_all(text.as_bytes()).map_err(fail)
}

// The comparison

pub struct Options {
    pub seed: u64,
    pub cases: u64,
    pub least: u64,
    pub port: Port,
}

/// Cases that wait to be compared, and what was met.
struct Run<'a> {
    port: &'a Port,
    waiting: Vec<Case>,
    bytes: usize,
    batches: usize,
    tally: Tally,
    /// The first failure: nothing is compared after it.
    failed: Option<String>,
}

/// Compares good and damaged lists and sheets, and random ones until there are `cases` of them; each batch
/// has another end.
pub fn compare(options: &Options) -> Result<(), String> {
    let mut run = Run {
        port: &options.port,
        waiting: Vec::new(),
        bytes: 0,
        batches: 0,
        tally: Tally::default(),
        failed: None,
    };
    run.flush();
    caption_cases::fixed_by(&mut |case| run.push(case));
    let mut rng = Rng::new(options.seed);
    while run.tally.cases < options.cases && run.failed.is_none() {
        run.push(match rng.below(ONE_LONG_SHEET_IN) {
            0 => caption_cases::random_long(&mut rng),
            _ => caption_cases::random(&mut rng),
        });
    }
    run.flush();
    while run.batches < ENDS.len() && run.failed.is_none() {
        run.push(caption_cases::whole());
        run.flush();
    }
    if let Some(failed) = run.failed {
        return Err(failed);
    }
    println!("{PROGRAM}: seed {}, no differences", options.seed);
    run.tally.print();
    run.tally
        .verdict(options.least)
        .map_err(|why| format!("{PROGRAM}: {why}"))
}

impl Run<'_> {
    fn push(&mut self, case: Case) {
        if self.failed.is_some() {
            return;
        }
        self.tally.add(&case);
        self.bytes += case.list.len() + case.sheet.len() + 12;
        self.waiting.push(case);
        if self.bytes > BATCH_BYTES {
            self.flush();
        }
    }

    /// Compares all that waits, in one run of the program.
    fn flush(&mut self) {
        let number = self.batches % ENDS.len();
        let end = &ENDS[number];
        self.failed = self
            .failed
            .take()
            .or(same(&self.waiting, end, self.port).err());
        self.tally.ends[number] += 1;
        self.batches += 1;
        self.waiting.clear();
        self.bytes = 0;
    }
}

/// The input of these cases and this end.
fn input(cases: &[Case], end: &End) -> Vec<u8> {
    let mut input: Vec<u8> = cases.iter().flat_map(Case::record).collect();
    input.extend((end.bytes)());
    input
}

/// Runs the program on the cases and the end, and compares line by line.
fn same(cases: &[Case], end: &End, port: &Port) -> Result<(), String> {
    let output = port.run(PROGRAM, &input(cases, end))?;
    let mut rest = output.as_slice();
    for case in cases {
        let expected = case.line();
        match rest.strip_prefix(expected.as_bytes()) {
            Some(after) => rest = after,
            None => return Err(shown(case, &expected, rest)),
        }
    }
    let expected = if end.cut { CUT } else { "" };
    if rest != expected.as_bytes() {
        return Err(format!(
            "{PROGRAM}: the input ends: {}: the answers differ after the last record\nexpected: {expected:?}\nport:     {:?}",
            end.name,
            String::from_utf8_lossy(&rest[..rest.len().min(SHOWN)])
        ));
    }
    Ok(())
}

/// Of long bytes, so many are shown.
const SHOWN: usize = 200;

fn shown(case: &Case, expected: &str, output: &[u8]) -> String {
    let part = |bytes: &[u8]| {
        let shown = hex(&bytes[..bytes.len().min(SHOWN)]);
        let more = if bytes.len() > SHOWN { ".." } else { "" };
        format!("{} bytes: {shown}{more}", bytes.len())
    };
    let line = |line: &[u8]| {
        let line = line.split(|&byte| byte == b'\n').next().unwrap_or_default();
        let shown = String::from_utf8_lossy(&line[..line.len().min(2 * SHOWN)]).into_owned();
        let more = if line.len() > 2 * SHOWN { ".." } else { "" };
        format!("{shown}{more}")
    };
    format!(
        "{PROGRAM}: the answers to this record differ\nlist, {}\nsheet, {}\nentry {}\nexpected: {}\nport:     {}",
        part(&case.list),
        part(&case.sheet),
        case.entry,
        line(expected.as_bytes()),
        line(output)
    )
}

// The sample

/// Writes the sample, which ends in a record that is cut, and the answers to it, to where `rt` replays them.
pub fn write_sample() -> Result<(), String> {
    let cases = caption_cases::sample();
    let end = ENDS.iter().find(|end| end.name == SAMPLE_END);
    let stdin = input(&cases, end.ok_or("no such end")?);
    let stdout = answers(&stdin);
    let folder = port::root().join("crates").join(PROGRAM);
    let fail = |e: io::Error| format!("{PROGRAM}: {e}");
    fs::create_dir_all(&folder).map_err(fail)?;
    fs::write(folder.join("stdin"), &stdin).map_err(fail)?;
    fs::write(folder.join("stdout"), &stdout).map_err(fail)?;
    println!(
        "{PROGRAM}: a sample of {} records, {} bytes, and {} bytes of text",
        cases.len(),
        stdin.len(),
        stdout.len()
    );
    Ok(())
}

const SAMPLE_END: &str = "one byte before the sheet's end";

#[cfg(test)]
mod tests {
    use super::*;
    use crate::lists;

    /// Two records and a cut one: the lines by hand.
    #[test]
    fn the_lines_of_records() {
        let list = [1, 0, 10, 0, 1, 0, 11, 0, 3, 0, b'b', b'B', b'a', b'r'];
        let sheet = lists::sheet(&[b"b", b""]);
        let cases = [0, 1, 2].map(|entry| Case::new(&list, &sheet, entry));
        let lines = "0 L 11 3 426172\n0 S 45 0 -\n16 S 0 0 -\n";
        assert_eq!(answers(&input(&cases, &ENDS[0])), lines);
        for end in &ENDS[1..] {
            let text = answers(&input(&cases, end));
            assert_eq!(text, format!("{lines}cut\n"), "{}", end.name);
        }
        assert_eq!(answers(&[]), "");
    }
}
