//! What the sheets of `sheet_cases` have met, counted; and what request S-2 says of the reader and the log of
//! before, looked for on each of them.

use crate::reader::{self, MOST_ENTRIES};
use std::collections::BTreeSet;

/// The numbers by which sheets are refused.
const REFUSALS: std::ops::RangeInclusive<u8> = 6..=12;

/// As many entries as a panel had before.
const OLD_MOST_ENTRIES: usize = 64;

/// Counts on both sides of the limits, those of before and those of now.
const COUNTS: [usize; 5] = [64, 65, 255, 256, 257];

/// Of the accepted sheets, one in so many has more than 64 entries, at least.
const ONE_LONGER_IN: u64 = 10;

/// By the number.
type Numbers = [u64; 16];

#[derive(Default)]
pub struct Tally {
    pub sheets: u64,
    pub damaged: u64,
    numbers: Numbers,
    /// By the numbers that the two faults of a sheet give alone, the smaller first.
    pairs: [Numbers; 16],
    /// Those that claim `COUNTS` entries.
    counts: [Numbers; COUNTS.len()],
    /// All bytes 3.
    high_bytes: BTreeSet<u8>,
    before: Before,
}

impl Tally {
    /// Whether no sheet has been added.
    pub fn is_new(&self) -> bool {
        self.numbers == [0; 16]
    }

    /// Adds a sheet that has been answered, with its number; it says which promise of S-2 the sheet breaks.
    pub fn add(&mut self, sheet: &[u8], number: u8) -> Result<(), &'static str> {
        let number = usize::from(number);
        self.numbers[number] += 1;
        if sheet.len() >= 12 {
            self.high_bytes.insert(sheet[3]);
            let claimed = reader::claimed(sheet);
            for (count, numbers) in COUNTS.iter().zip(&mut self.counts) {
                numbers[number] += u64::from(claimed == *count);
            }
        }
        self.before.add(sheet)
    }

    /// Adds two faults in a sheet, by the numbers that they give alone.
    pub fn pair(&mut self, one: u8, other: u8) {
        let [low, high] = [one.min(other), one.max(other)].map(usize::from);
        self.pairs[low][high] += 1;
    }

    pub fn print(&self) {
        println!("{} sheets, {} of them damaged", self.sheets, self.damaged);
        println!("  accepted   {:>9}", self.numbers[0]);
        for number in REFUSALS {
            let count = self.numbers[usize::from(number)];
            println!("  refusal {number:<2} {count:>9}");
        }
        println!("two faults in a sheet, by the numbers that each gives alone (- is none):");
        print_head();
        for low in numbers() {
            let first = format!("{:>8}", "").repeat(numbers().filter(|&high| high < low).count());
            let pairs = numbers().filter(|&high| high >= low);
            let row = pairs.map(|high| self.pairs[usize::from(low)][usize::from(high)]);
            println!("  {:>3}{first}{}", name(low), columns(row));
        }
        println!("by the count that a sheet has, and its number:");
        print_head();
        for (count, row) in COUNTS.iter().zip(&self.counts) {
            let row = numbers().map(|number| row[usize::from(number)]);
            println!("  {count:>3}{}", columns(row));
        }
        println!("high bytes of a count: {}", self.high_bytes.len());
        self.before.print();
    }

    /// Fails where there were too few sheets or too few long ones, or where a number, a pair of numbers, a byte
    /// 3 or a count with one of its numbers was not met.
    pub fn verdict(&self, least: u64) -> Result<(), String> {
        if self.damaged < least {
            let damaged = self.damaged;
            return Err(format!("{damaged} damaged sheets, fewer than {least}"));
        }
        for low in REFUSALS {
            if self.numbers[usize::from(low)] == 0 {
                return Err(format!("no refusal by {low}"));
            }
            for high in low..=*REFUSALS.end() {
                if self.pairs[usize::from(low)][usize::from(high)] == 0 {
                    return Err(format!("no faults of {low} and {high} together"));
                }
            }
        }
        self.counts_verdict()?;
        self.before.verdict(self.numbers[0])
    }

    fn counts_verdict(&self) -> Result<(), String> {
        if self.high_bytes.len() < 256 {
            return Err(format!("{} bytes 3, not all", self.high_bytes.len()));
        }
        for (count, row) in COUNTS.into_iter().zip(&self.counts) {
            let possible: &[u8] = match count > MOST_ENTRIES {
                true => &[6, 8],
                false => &[0, 6, 7, 9, 10, 11, 12],
            };
            if let Some(number) = possible
                .iter()
                .find(|&&number| row[usize::from(number)] == 0)
            {
                return Err(format!("no sheet of {count} entries with {number}"));
            }
        }
        Ok(())
    }
}

/// None, and the refusals.
fn numbers() -> impl Iterator<Item = u8> {
    std::iter::once(0).chain(REFUSALS)
}

fn name(number: u8) -> String {
    match number {
        0 => "-".to_string(),
        _ => number.to_string(),
    }
}

fn print_head() {
    let head: String = numbers().map(|high| format!("{:>8}", name(high))).collect();
    println!("     {head}");
}

fn columns(row: impl Iterator<Item = u64>) -> String {
    row.map(|count| format!("{count:>8}")).collect()
}

// The reader and the log of before S-2

/// "Stored sheets keep their bytes and reading; an older reader meets a longer sheet with 12 or 8, an older log
/// with 8 or 7."
#[derive(Default)]
struct Before {
    /// Accepted by the reader of before.
    kept: u64,
    /// Accepted ones of more than 64 entries.
    longer: u64,
    /// Those, by the number of the reader of before, and by that of the log.
    reader: Numbers,
    log: Numbers,
    /// Refused ones that have another number now: by that of before, and by that of now.
    moved: [Numbers; 16],
}

impl Before {
    fn add(&mut self, sheet: &[u8]) -> Result<(), &'static str> {
        let number = reader::old_number(sheet);
        match (reader::old_read(sheet), reader::read(sheet)) {
            (Ok(then), Ok(now)) => {
                self.kept += 1;
                if now != then || now.entries.len() > OLD_MOST_ENTRIES {
                    return Err("this sheet of before is read otherwise now");
                }
                if reader::write(&now) != sheet {
                    return Err("this sheet of before is written otherwise now");
                }
            }
            (Ok(_), Err(_)) => return Err("this sheet of before is refused now"),
            (Err(_), Ok(now)) => {
                let log = reader::old_log_number(sheet);
                self.longer += 1;
                self.reader[usize::from(number)] += 1;
                self.log[usize::from(log)] += 1;
                if now.entries.len() <= OLD_MOST_ENTRIES {
                    return Err("this sheet is no longer one, and was refused before");
                }
                if ![12, 8].contains(&number) || ![8, 7].contains(&log) {
                    return Err(
                        "this longer sheet meets the reader or the log of before otherwise",
                    );
                }
            }
            (Err(then), Err(now)) if then != now => {
                self.moved[usize::from(then)][usize::from(now)] += 1;
                if ![12, 8].contains(&then) {
                    return Err("this sheet had another number before");
                }
            }
            (Err(_), Err(_)) => {}
        }
        Ok(())
    }

    fn print(&self) {
        let by_number = |counts: &Numbers| {
            let met = (0..).zip(counts).filter(|&(_, &count)| count > 0);
            let met: Vec<String> = met
                .map(|(number, count): (u8, _)| format!("{number}: {count}"))
                .collect();
            met.join(", ")
        };
        println!("before S-2:");
        println!("  accepted, read and written as now: {}", self.kept);
        println!("  accepted now, of more than 64 entries: {}", self.longer);
        println!("    by their numbers then: {}", by_number(&self.reader));
        println!("    and in a log then: {}", by_number(&self.log));
        for (then, counts) in self.moved.iter().enumerate() {
            if *counts != [0; 16] {
                println!("  refused by {then}, and now by {}", by_number(counts));
            }
        }
    }

    /// Fails where too few of the accepted sheets are long ones, or where one of the old numbers was not met.
    fn verdict(&self, accepted: u64) -> Result<(), String> {
        let (longer, least) = (self.longer, accepted.div_ceil(ONE_LONGER_IN));
        if longer < least {
            return Err(format!(
                "{longer} accepted sheets of more than 64 entries, fewer than {least}"
            ));
        }
        let [reader, log] = [(self.reader, [12, 8]), (self.log, [8, 7])]
            .map(|(counts, numbers)| numbers.iter().all(|&number: &usize| counts[number] > 0));
        match reader && log && self.kept > 0 {
            true => Ok(()),
            false => Err("the reader or the log of before was not met with each number".into()),
        }
    }
}
