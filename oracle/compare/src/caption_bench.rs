//! Speed of captions: the port's program `caption_bench` beside a plain function of Rust, in one pass and
//! with nothing set aside.

use crate::captions::counted;
use crate::lists::{self, Words};
use crate::port::{Program, root};
use crate::venue::{Caption, Source};
use std::fs::{self, File};
use std::hint::black_box;
use std::io::{self, Read};
use std::process::Stdio;
use std::time::Instant;

const PROGRAM: &str = "caption_bench";

// The caption in one pass

fn u16_at(bytes: &[u8], at: usize) -> usize {
    usize::from(u16::from_le_bytes([bytes[at], bytes[at + 1]]))
}

fn is_zero(bytes: &[u8]) -> bool {
    bytes.iter().all(|&byte| byte == 0)
}

/// The same as venue.rs, as a program would have it that is to be fast.
pub fn caption(list: &[u8], sheet: &[u8], entry: u32) -> Caption {
    let refused = |refusal| Caption {
        refusal,
        source: Source::Sheet,
        at: 0,
        len: 0,
    };
    let shown = |source, (at, len)| Caption {
        refusal: 0,
        source,
        at,
        len,
    };
    let count = match count(sheet) {
        Ok(count) => count,
        Err(number) => return refused(number),
    };
    let entry = entry as usize;
    if entry >= count {
        return refused(16);
    }
    let label = (u16_at(sheet, 12 + 4 * entry), u16_at(sheet, 14 + 4 * entry));
    match words(list, &sheet[label.0..][..label.1]) {
        Some(Some(words)) => shown(Source::List, words),
        Some(None) => shown(Source::Sheet, label),
        None => refused(16),
    }
}

/// How many entries a good sheet has, or its number.
fn count(sheet: &[u8]) -> Result<usize, u8> {
    let Some((header, rest)) = sheet.split_first_chunk::<12>() else {
        return Err(7);
    };
    let n = usize::from(header[1]) + 256 * usize::from(header[3]);
    if header[0] != 1 {
        return Err(6);
    }
    if n > 256 {
        return Err(8);
    }
    if header[2] > 4 || !matches!(header[2], 1 | 4) && !is_zero(&header[4..8]) {
        return Err(9);
    }
    if rest.len() < 16 * n {
        return Err(7);
    }
    let (pairs, rest) = rest.split_at(4 * n);
    let mut end = 12 + 16 * n;
    for pair in pairs.chunks_exact(4) {
        if u16_at(pair, 0) != end || u16_at(pair, 2) > 24 {
            return Err(11);
        }
        end += u16_at(pair, 2);
    }
    if end != sheet.len() {
        return Err(7);
    }
    for record in rest[..12 * n].chunks_exact(12) {
        let (kind, target) = (record[0], usize::from(record[1]));
        if kind > 4 || (kind == 3 && target >= n) || (kind != 3 && target != 0) {
            return Err(10);
        }
        if !is_zero(&record[2..4]) || (matches!(kind, 1..=3) && !is_zero(&record[4..8])) {
            return Err(12);
        }
    }
    Ok(n)
}

/// Where the words of the label stand, if it has some; nothing where the list is of another shape.
fn words(list: &[u8], label: &[u8]) -> Option<Option<(usize, usize)>> {
    let (number, rest) = list.split_first_chunk::<2>()?;
    let bytes = 8 * u16_at(number, 0);
    let mut end = 2 + bytes;
    let mut found = None;
    for pairs in rest.get(..bytes)?.chunks_exact(8) {
        let [at, len] = [u16_at(pairs, 0), u16_at(pairs, 2)];
        let words = (u16_at(pairs, 4), u16_at(pairs, 6));
        if at != end || words.0 != at + len {
            return None;
        }
        end = words.0 + words.1;
        if found.is_none() && len == label.len() && list.get(at..at + len) == Some(label) {
            found = Some(words);
        }
    }
    (end == list.len()).then_some(found)
}

// The calls

/// A list and a sheet, and the entry whose caption is asked for.
struct Job {
    name: String,
    list: Vec<u8>,
    sheet: Vec<u8>,
    entry: u32,
    /// Calls of it, to one of the longest list.
    times: u32,
}

/// Asks so many times, with the number of the call in the list's last byte: the sum of all `at + len`.
fn sum(calls: u32, list: &mut [u8], sheet: &[u8], entry: u32) -> u32 {
    (0..calls).fold(0, |sum: u32, call| {
        if let Some(last) = list.last_mut() {
            *last = call as u8;
        }
        let caption = caption(black_box(list), black_box(sheet), black_box(entry));
        let Caption { at, len, .. } = black_box(caption);
        sum.wrapping_add((at + len) as u32)
    })
}

impl Job {
    /// u32 calls, u32 a and a bytes of the list, u32 b and b bytes of the sheet, u32 entry.
    fn input(&self, calls: u32) -> Vec<u8> {
        let mut input = calls.to_le_bytes().to_vec();
        for part in [&self.list, &self.sheet] {
            input.extend((part.len() as u32).to_le_bytes());
            input.extend(part);
        }
        input.extend(self.entry.to_le_bytes());
        input
    }
}

/// Makes the calls of the input on standard input, and prints what `caption_bench` prints.
pub fn run() -> Result<(), String> {
    let mut input = Vec::new();
    let read = io::stdin().read_to_end(&mut input);
    read.map_err(|e| e.to_string())?;
    println!("{}", answer(&input).ok_or("caption-calls: no such input")?);
    Ok(())
}

fn answer(input: &[u8]) -> Option<u32> {
    let (calls, rest) = input.split_first_chunk()?;
    let (list, rest) = counted(rest, usize::MAX)?;
    let (sheet, rest) = counted(rest, usize::MAX)?;
    let (entry, _) = rest.split_first_chunk()?;
    let [calls, entry] = [calls, entry].map(|bytes| u32::from_le_bytes(*bytes));
    Some(sum(calls, &mut list.to_vec(), sheet, entry))
}

// The comparison

/// Three letters.
fn letters(k: u32) -> Vec<u8> {
    [k / 676 % 26, k / 26 % 26, k % 26]
        .map(|letter| b'a' + letter as u8)
        .to_vec()
}

/// As many codes as can be, which are all empty but the last; as many as can be of three bytes with words of
/// three bytes; and 40 of them. The label is the last code, or none.
fn jobs() -> Vec<Job> {
    let mut most: Words = vec![(vec![], vec![]); 8190];
    most.push((b"last".to_vec(), b"words".to_vec()));
    let of_three = |count| (0..count).map(|k| (letters(k), b"wrd".to_vec())).collect();
    let kinds = [
        ("8,191 codes, all but the last empty", most, 1),
        ("4,681 codes of 3 bytes", of_three(4681), 1),
        ("40 codes of 3 bytes", of_three(40), 100),
    ];
    let mut jobs = Vec::new();
    for (name, words, times) in kinds {
        let last: &[u8] = words.last().map_or(&[], |(code, _)| code);
        let labels = [b"g1", last, b"g2", b"bar", b"???"];
        for (which, entry) in [("the last is equal", 1), ("none is equal", 4)] {
            jobs.push(Job {
                name: format!("{name}, {which}"),
                list: lists::write(&words),
                sheet: lists::sheet(&labels),
                entry,
                times,
            });
        }
    }
    jobs
}

/// Times both sides: microseconds a call, the best of some rounds.
pub fn bench(calls: u32, rounds: u64, port: Option<&str>) -> Result<(), String> {
    let program = Program::new(PROGRAM, port)?;
    println!("microseconds a call, best of {rounds} rounds");
    for job in jobs() {
        let calls = calls.saturating_mul(job.times).max(1);
        let (mut rust, mut whole, mut none) = (f64::MAX, f64::MAX, f64::MAX);
        for _ in 0..rounds.max(1) {
            let mut list = job.list.clone();
            let start = Instant::now();
            let expected = sum(calls, &mut list, &job.sheet, job.entry);
            rust = rust.min(start.elapsed().as_secs_f64());
            whole = whole.min(timed(&program, &job.input(calls), expected)?);
            none = none.min(timed(&program, &job.input(0), 0)?);
        }
        let each = |seconds: f64| seconds * 1e6 / f64::from(calls);
        println!(
            "{:<58}{calls:>8} calls  Rust {:>8.3}  port {:>8.3}  ratio {:.2}",
            job.name,
            each(rust),
            each(whole - none),
            (whole - none) / rust
        );
    }
    Ok(())
}

/// The seconds of a run of the program, which must print this sum.
fn timed(program: &Program, input: &[u8], expected: u32) -> Result<f64, String> {
    let fail = |e: io::Error| format!("{PROGRAM}: {e}");
    let folder = root().join("target/oracle/input");
    let file = folder.join(format!("{PROGRAM}.{}", std::process::id()));
    fs::create_dir_all(&folder).map_err(fail)?;
    fs::write(&file, input).map_err(fail)?;
    let stdin = File::open(&file).map_err(fail)?;
    let mut command = program.command();
    let start = Instant::now();
    let output = command.stdin(stdin).stdout(Stdio::piped()).output();
    let seconds = start.elapsed().as_secs_f64();
    fs::remove_file(&file).map_err(fail)?;
    let printed = String::from_utf8_lossy(&output.map_err(fail)?.stdout).into_owned();
    match printed == format!("{expected}\n") {
        true => Ok(seconds),
        false => Err(format!("{PROGRAM}: {printed:?}, and not {expected}")),
    }
}

#[cfg(test)]
mod tests {
    use super::*;
    use crate::caption_cases;
    use crate::rng::Rng;
    use crate::venue;

    /// All cases of the comparison that do not depend on a seed, and random ones.
    #[test]
    fn one_pass_gives_the_same() {
        let mut rng = Rng::new(7);
        let random = (0..20_000).map(|_| caption_cases::random(&mut rng));
        for case in caption_cases::fixed().into_iter().chain(random) {
            let (list, sheet, entry) = (&case.list, &case.sheet, case.entry);
            assert_eq!(
                caption(list, sheet, entry),
                venue::caption(list, sheet, entry)
            );
        }
    }

    /// The lists are good, and the last code is found or none. By hand: of the 40 codes the pairs end at
    /// 322, and of the text the last words are the last 3 of 240 bytes.
    #[test]
    fn the_jobs() {
        let found = jobs().into_iter().map(|job| {
            let caption = caption(&job.list, &job.sheet, job.entry);
            (caption.refusal, caption.source, caption.at)
        });
        let found: Vec<(u8, Source, usize)> = found.collect();
        assert_eq!(found[0], (0, Source::List, 65_534));
        assert_eq!(found[2], (0, Source::List, 65_533));
        assert_eq!(found[4], (0, Source::List, 322 + 237));
        assert!([1, 3, 5].iter().all(|&job| found[job].1 == Source::Sheet));
    }

    /// By hand: `a` with the word `x` at 11: two calls of 11 + 1. The last byte changes, and not the answer.
    #[test]
    fn the_sum() {
        let mut list = [1, 0, 10, 0, 1, 0, 11, 0, 1, 0, b'a', b'x'];
        assert_eq!(sum(2, &mut list, &lists::sheet(&[b"a"]), 0), 24);
        assert_eq!(list[11], 1);
        assert_eq!(sum(2, &mut [], &lists::sheet(&[b"a"]), 0), 0);
    }
}
