//! The cases of `caption_cases`: venue lists and sheets, good and damaged, with an entry; and where an input
//! can end.

use crate::damage;
use crate::lists;
use crate::reader::{self, Described};
use crate::rng::Rng;
use crate::venue::{self, Caption};
use std::fmt::Write as _;

/// The longest list and the longest sheet that the program takes.
pub const MOST_LIST: usize = 140_000;
pub const MOST_SHEET: usize = 12_000;

/// The numbers by which sheets are refused, and that of a caption.
pub const SHEET: std::ops::RangeInclusive<u8> = 6..=12;
pub const CAPTION: u8 = 16;

#[derive(Clone)]
pub struct Case {
    pub list: Vec<u8>,
    pub sheet: Vec<u8>,
    pub entry: u32,
}

impl Case {
    pub fn new(list: &[u8], sheet: &[u8], entry: u32) -> Self {
        Case {
            list: list.to_vec(),
            sheet: sheet.to_vec(),
            entry,
        }
    }

    /// u32 a and a bytes, u32 b and b bytes, u32 entry.
    pub fn record(&self) -> Vec<u8> {
        let mut out = Vec::new();
        for part in [&self.list, &self.sheet] {
            out.extend((part.len() as u32).to_le_bytes());
            out.extend(part);
        }
        out.extend(self.entry.to_le_bytes());
        out
    }

    /// `refusal source at len text`, the text as hex pairs or `-` where it is empty.
    pub fn line(&self) -> String {
        let caption = venue::caption(&self.list, &self.sheet, self.entry);
        let Caption {
            refusal, at, len, ..
        } = caption;
        let mut text = hex(caption.text(&self.list, &self.sheet));
        if text.is_empty() {
            text.push('-');
        }
        format!("{refusal} {} {at} {len} {text}\n", caption.letter())
    }
}

pub fn hex(bytes: &[u8]) -> String {
    let mut out = String::with_capacity(2 * bytes.len());
    for byte in bytes {
        write!(out, "{byte:02x}").expect("a string takes all");
    }
    out
}

// Ends of an input

/// What stands behind the last whole record, and whether it is `cut`.
pub struct End {
    pub name: &'static str,
    pub bytes: fn() -> Vec<u8>,
    pub cut: bool,
}

const fn cut(name: &'static str, bytes: fn() -> Vec<u8>) -> End {
    let cut = true;
    End { name, bytes, cut }
}

/// In each part of a record; and records that are too long: whole and with one behind, or a number alone.
pub const ENDS: [End; 24] = [
    End {
        name: "after a record, or before any",
        bytes: Vec::new,
        cut: false,
    },
    cut("one byte of the list's length", || first_bytes(1)),
    cut("three bytes of the list's length", || first_bytes(3)),
    cut("before the list", || first_bytes(4)),
    cut("after a byte of the list", || first_bytes(5)),
    cut("one byte before the list's end", || first_bytes(17)),
    cut("before the sheet's length", || first_bytes(18)),
    cut("one byte of the sheet's length", || first_bytes(19)),
    cut("three bytes of the sheet's length", || first_bytes(21)),
    cut("before the sheet", || first_bytes(22)),
    cut("after a byte of the sheet", || first_bytes(23)),
    cut("one byte before the sheet's end", || first_bytes(67)),
    cut("before the entry", || first_bytes(68)),
    cut("one byte of the entry", || first_bytes(69)),
    cut("three bytes of the entry", || first_bytes(71)),
    cut("a list of 140,001 bytes, and a record", || {
        too_long(MOST_LIST + 1, 46)
    }),
    cut("a list of 140,001 bytes, none there", || {
        vec![0xe1, 0x22, 2, 0]
    }),
    cut("a list of 2^31 bytes", || vec![0, 0, 0, 128, 0, 0]),
    cut("a list of 2^32 - 1 bytes", || vec![255; 80]),
    cut("a sheet of 12,001 bytes, and a record", || {
        too_long(2, MOST_SHEET + 1)
    }),
    cut("a sheet of 12,001 bytes, none there", || {
        vec![2, 0, 0, 0, 0, 0, 0xe1, 0x2e, 0, 0]
    }),
    cut("a sheet of 2^31 bytes", || {
        vec![0, 0, 0, 0, 0, 0, 0, 128, 1, 2, 3, 4]
    }),
    cut("a sheet of 2^32 - 1 bytes", || {
        [&[0; 4][..], &[255; 80]].concat()
    }),
    cut("a list and a sheet that are too long", || {
        too_long(MOST_LIST + 1, MOST_SHEET + 1)
    }),
];

/// A record of 72 bytes: the list from 4 to 18, the sheet from 22 to 68.
pub fn whole() -> Case {
    let list = lists::write(&lists::words(&[(b"b", b"Bar")]));
    Case::new(&list, &lists::sheet(&[b"a", b"b"]), 1)
}

fn first_bytes(count: usize) -> Vec<u8> {
    let mut bytes = whole().record();
    bytes.truncate(count);
    bytes
}

/// A record with so many bytes, and a good one behind it that is not read.
fn too_long(list: usize, sheet: usize) -> Vec<u8> {
    let long = Case::new(&vec![0; list], &vec![0; sheet], 0);
    [long.record(), whole().record()].concat()
}

// The cases

/// Entries on both sides of a count, and those that would be right in fewer bits.
fn entries(count: u32) -> Vec<u32> {
    let sides = [0, count.saturating_sub(1), count, count + 1];
    let far = [256, 65_535, 65_536, 1 << 31, u32::MAX];
    let mut entries = [&sides[..], &far].concat();
    entries.sort_unstable();
    entries.dedup();
    entries
}

fn count(sheet: &[u8]) -> u32 {
    lists::labels(sheet).len() as u32
}

/// Good lists and sheets, each with each.
fn good(push: &mut dyn FnMut(Case)) {
    for sheet in lists::sheets() {
        for words in lists::small() {
            for entry in entries(count(&sheet)).into_iter().chain(0..count(&sheet)) {
                push(Case::new(&lists::write(&words), &sheet, entry));
            }
        }
    }
    for count in [64, 65, 255, 256] {
        let sheet = lists::sheet_of(count as usize);
        let labels = lists::labels(&sheet);
        let words = |label: &Vec<u8>| (label.clone(), [b"= ", &label[..]].concat());
        let all: lists::Words = labels.iter().rev().map(words).collect();
        let half = all.iter().step_by(2).cloned().collect();
        for list in [lists::write(&all), lists::write(&half)] {
            for entry in (0..count).chain(entries(count)) {
                push(Case::new(&list, &sheet, entry));
            }
        }
    }
    let longest = lists::sheet(&[&[b'l'; 24][..]; 256]);
    for entry in entries(256) {
        push(Case::new(
            &lists::write(&lists::small()[12]),
            &longest,
            entry,
        ));
        push(Case::new(&[0, 0], &longest, entry));
    }
}

/// Small lists with every bit flipped, every truncation, bytes after the end, each field on both sides of
/// what is right, and pairs out of turn.
fn damaged_lists(push: &mut dyn FnMut(Case)) {
    let sheets = lists::sheets();
    for words in lists::small() {
        let good = lists::write(&words);
        let mut bad: Vec<Vec<u8>> = lists::misshapen(&words);
        let after = (1..=12).flat_map(|n| [0, 1].map(|byte| damage::Fault::Append(vec![byte; n])));
        let faults = [
            damage::flips(&good),
            damage::cuts(&good),
            lists::fields(&good),
        ]
        .concat();
        let faults = faults.into_iter().chain(after);
        bad.extend(faults.map(|fault| fault.applied(&good)));
        for sheet in &sheets[1..] {
            let count = count(sheet);
            for (number, list) in (0..).zip(&bad) {
                push(Case::new(list, sheet, number % count));
            }
        }
    }
}

/// Small sheets with every bit flipped, every truncation, bytes after the end, other fields, and other counts
/// with each byte 3; long ones with other fields and counts; and those of too many entries.
fn damaged_sheets(push: &mut dyn FnMut(Case)) {
    let list = lists::write(&lists::small()[9]);
    for sheet in &lists::sheets()[..4] {
        let mut faults = [damage::flips(sheet), damage::cuts(sheet)].concat();
        faults.extend(damage::appended(sheet));
        faults.extend(damage::fields(sheet));
        faults.extend(damage::counts(sheet));
        faults.extend(damage::high_bytes(sheet));
        for (number, fault) in (0..).zip(faults) {
            push(Case::new(&list, &fault.applied(sheet), number % 3));
        }
    }
    for sheet in [65, 255, 256].map(lists::sheet_of) {
        let faults = [damage::fields(&sheet), damage::counts(&sheet)].concat();
        for (fault, entry) in faults.iter().zip([0, 64, 255].iter().cycle()) {
            push(Case::new(&list, &fault.applied(&sheet), *entry));
        }
    }
    for sheet in damage::too_many() {
        push(Case::new(&list, &sheet, 0));
        push(Case::new(&list, &sheet, 256));
    }
}

/// Lists of another shape, each in another way.
fn bad_lists() -> Vec<Vec<u8>> {
    let words = lists::words(&[(b"a", b"A"), (b"ab", b"AB")]);
    let good = lists::write(&words);
    let mut bad = vec![vec![], vec![0], vec![0, 0, 0], vec![1, 0], vec![255, 255]];
    bad.push(good[..good.len() - 1].to_vec());
    bad.push([&good[..], &[0]].concat());
    bad.extend(lists::misshapen(&words).into_iter().step_by(3));
    bad
}

/// Sheets with each field damaged, each with good and bad lists and with all kinds of entries.
fn both_damaged(push: &mut dyn FnMut(Case)) {
    let mut all = bad_lists();
    all.push(lists::write(&lists::small()[8]));
    for sheet in &lists::sheets()[1..3] {
        for fault in [damage::fields(sheet), damage::counts(sheet)].concat() {
            let damaged = fault.applied(sheet);
            for list in &all {
                for entry in entries(count(sheet)) {
                    push(Case::new(list, &damaged, entry));
                }
            }
        }
    }
}

/// Long lists, whole and with few faults, and those of as many bytes as the program takes.
fn long(push: &mut dyn FnMut(Case)) {
    for lists::Long { list, labels } in lists::long() {
        let labels: Vec<&[u8]> = labels.iter().map(Vec::as_slice).collect();
        let sheet = lists::sheet(&labels);
        for entry in 0..labels.len() as u32 {
            push(Case::new(&list, &sheet, entry));
        }
        if labels.len() > 2 {
            push(Case::new(&list[..list.len() - 1], &sheet, 0));
            push(Case::new(&[&list[..], b"w"].concat(), &sheet, 0));
            push(Case::new(&list, &sheet, labels.len() as u32));
            push(Case::new(&list, &sheet[..sheet.len() - 1], 0));
        }
    }
    let sheet = lists::sheet(&[b"a", b""]);
    let mut longest = vec![0; MOST_LIST];
    push(Case::new(&longest, &sheet, 0));
    for number in [1, 8191, 8192, 65_535_u16] {
        longest[..2].copy_from_slice(&number.to_le_bytes());
        push(Case::new(&longest, &sheet, 1));
    }
    let mut padded = sheet.clone();
    padded.resize(MOST_SHEET, 0);
    push(Case::new(&[0, 0], &padded, 0));
    push(Case::new(&longest, &padded, 0));
    push(Case::new(&longest, &vec![0; MOST_SHEET], 0));
}

/// All cases that do not depend on a seed.
pub fn fixed_by(push: &mut dyn FnMut(Case)) {
    for part in [good, damaged_lists, damaged_sheets, both_damaged, long] {
        part(push);
    }
}

#[cfg(test)]
pub fn fixed() -> Vec<Case> {
    let mut cases = Vec::new();
    fixed_by(&mut |case| cases.push(case));
    cases
}

/// One random list in so many is long.
const ONE_LONG_IN: u32 = 8000;

pub fn random(rng: &mut Rng) -> Case {
    let sheet = match rng.below(32) {
        0 => damage::noise(rng),
        _ => damage::random(rng),
    };
    random_with(rng, sheet)
}

/// With a sheet of more than 64 entries, or with another count.
pub fn random_long(rng: &mut Rng) -> Case {
    let mut sheet = match rng.below(8) {
        0 => damage::random_longest(rng),
        _ => damage::random_long(rng),
    };
    if rng.below(8) == 0 {
        damage::random_count(rng).apply(&mut sheet);
    }
    random_with(rng, sheet)
}

fn random_with(rng: &mut Rng, mut sheet: Vec<u8>) -> Case {
    let labels = lists::labels(&sheet);
    let entry = match rng.below(24) {
        0 => labels.len() as u32 + rng.below(3),
        1 => rng.pick(&entries(labels.len() as u32)),
        2 => rng.bits(),
        _ => rng.below(labels.len().max(1) as u32),
    };
    let mut words = lists::random(rng, &labels);
    if let (0, Some((_, last))) = (rng.below(ONE_LONG_IN), words.last_mut()) {
        last.resize(rng.pick(&[30_000, 65_000, 65_534, 65_535]), b'w');
    }
    let mut list = lists::write(&words);
    match rng.below(24) {
        0 => list = lists::noise(rng),
        1 => {
            let lists = lists::misshapen(&words);
            list = lists.get(rng.below(64) as usize).cloned().unwrap_or(list);
        }
        2..=6 => {
            let faults = 1 + rng.below(2);
            let faults: Vec<damage::Fault> = (0..faults)
                .map(|_| lists::random_fault(rng, &list))
                .collect();
            faults.iter().for_each(|fault| fault.apply(&mut list));
        }
        _ => {}
    }
    if rng.below(6) == 0 {
        for _ in 0..1 + rng.below(2) {
            sheet = damage::random_fault(rng, &sheet).applied(&sheet);
        }
    }
    Case { list, sheet, entry }
}

// The sample

/// Random cases of the sample, and the longest record of them.
const SAMPLED: usize = 120;
const SAMPLED_BYTES: usize = 200;

/// Good and damaged ones, of every kind that short records have.
pub fn sample() -> Vec<Case> {
    let (sheets, small) = (lists::sheets(), lists::small());
    let mut cases = Vec::new();
    for sheet in &sheets {
        for words in &small {
            let list = lists::write(words);
            cases.extend((0..count(sheet)).map(|entry| Case::new(&list, sheet, entry)));
        }
        let list = lists::write(&small[2]);
        let entries = entries(count(sheet)).into_iter();
        cases.extend(entries.map(|entry| Case::new(&list, sheet, entry)));
    }
    let of_64 = lists::sheet_of(64);
    cases.extend([0, 24, 63, 64].map(|entry| Case::new(&lists::write(&small[0]), &of_64, entry)));
    for words in [&small[1], &small[6], &small[8]] {
        let good = lists::write(words);
        let faults = lists::fields(&good);
        let mut bad: Vec<Vec<u8>> = faults.iter().map(|fault| fault.applied(&good)).collect();
        bad.extend(lists::misshapen(words));
        let numbered = (0..).zip(bad);
        cases.extend(numbered.map(|(number, list)| Case::new(&list, &sheets[3], number % 3)));
    }
    cases.extend(sampled_sheets(&sheets[2]));
    cases.extend(sampled_numbers(&sheets[2], SHEET, reader::old_read));
    let mut rng = Rng::new(1);
    let random = std::iter::repeat_with(|| random(&mut rng));
    let random = random.filter(|case| case.record().len() <= SAMPLED_BYTES);
    cases.extend(random.take(SAMPLED));
    // the records above are those of before S-2, those below are of it
    let moved = [8, 12].into_iter();
    cases.extend(sampled_numbers(&sheets[2], moved, reader::read));
    cases.extend(sampled_long_sheets());
    cases
}

/// Sheets of 65, 255 and 256 entries, of which the last has a code and most have empty labels; and such with
/// other counts.
fn sampled_long_sheets() -> Vec<Case> {
    let list = lists::write(&lists::words(&[(b"last", b"The last"), (b"a", b"A")]));
    let sheet = |count: usize| {
        let mut labels: Vec<&[u8]> = vec![b""; count];
        labels[64.min(count - 2)] = b"no code";
        labels[count - 1] = b"last";
        lists::sheet(&labels)
    };
    let [of_65, of_255, of_256] = [65, 255, 256].map(sheet);
    let mut cases: Vec<Case> = Vec::new();
    let mut ask = |sheet: &[u8], entries: &[u32]| {
        cases.extend(entries.iter().map(|&entry| Case::new(&list, sheet, entry)));
    };
    ask(&of_65, &[63, 64, 65]);
    ask(&of_255, &[254, 255]);
    ask(&of_256, &[0, 64, 255, 256, 511, 65_536]);
    ask(&lists::sheet(&[&b""[..]; 257]), &[0, 256]);
    ask(&of_256[..of_256.len() - 1], &[255]);
    let small = lists::sheet(&[b"last", b"a"]);
    for fault in damage::counts(&small) {
        ask(&fault.applied(&small), &[0]);
    }
    for fault in damage::high_bytes(&small).iter().step_by(103) {
        ask(&fault.applied(&small), &[1]);
    }
    cases
}

/// Each field of the sheet damaged, with a good list or a bad one.
fn sampled_sheets(sheet: &[u8]) -> Vec<Case> {
    let lists = sampled_lists();
    let faults = damage::fields(sheet);
    let numbered = (0..).zip(&faults);
    let case = |(number, fault): (usize, &damage::Fault)| {
        let (list, entry) = (&lists[number % 2], [0, 1, 2][number % 3]);
        Case::new(list, &fault.applied(sheet), entry)
    };
    numbered.map(case).collect()
}

/// A good list and a bad one.
fn sampled_lists() -> [Vec<u8>; 2] {
    let good = lists::write(&lists::small()[8]);
    let bad = [&good[..], &[0]].concat();
    [good, bad]
}

/// For each of these numbers one sheet that this reader refuses by it, with either list, and with an entry that
/// is there and one that is not.
fn sampled_numbers(sheet: &[u8], numbers: impl Iterator<Item = u8>, read: Read) -> Vec<Case> {
    let [good, bad] = sampled_lists();
    let faults = damage::fields(sheet);
    let damaged: Vec<Vec<u8>> = faults.iter().map(|fault| fault.applied(sheet)).collect();
    let mut cases = Vec::new();
    for number in numbers {
        let refused = |sheet: &&Vec<u8>| sheet.len() > 1 && read(sheet) == Err(number);
        if let Some(damaged) = damaged.iter().find(refused) {
            for (list, entry) in [(&good, 0), (&bad, 0), (&good, u32::MAX), (&bad, u32::MAX)] {
                cases.push(Case::new(list, damaged, entry));
            }
        }
    }
    cases
}

type Read = fn(&[u8]) -> Result<Described, u8>;

#[cfg(test)]
mod tests {
    use super::*;

    /// Where the record of the ends has its parts.
    #[test]
    fn the_record_that_is_cut() {
        let record = whole().record();
        assert_eq!(record.len(), 72);
        assert_eq!(record[..4], [14, 0, 0, 0]);
        assert_eq!(record[18..22], [46, 0, 0, 0]);
        assert_eq!(record[68..], [1, 0, 0, 0]);
    }
}
