//! What the cases of `caption_cases` have met, counted.

use crate::caption_cases::{CAPTION, Case, ENDS, MOST_LIST, MOST_SHEET, SHEET};
use crate::lists;
use crate::reader;
use crate::venue::{self, Caption, Code, Source};

/// A case as the tally sees it.
pub struct Seen<'a> {
    case: &'a Case,
    caption: Caption,
    /// None where the list is of another shape.
    codes: Option<Vec<Code>>,
    /// Where the caption is accepted.
    label: &'a [u8],
}

impl<'a> Seen<'a> {
    pub fn new(case: &'a Case) -> Self {
        let caption = venue::caption(&case.list, &case.sheet, case.entry);
        let places = reader::label_places(&case.sheet).unwrap_or_default();
        let place = places.get(case.entry as usize);
        Seen {
            case,
            caption,
            codes: venue::codes(&case.list).ok(),
            label: place.map_or(&[], |&(at, len)| &case.sheet[at..][..len]),
        }
    }

    fn accepted(&self) -> bool {
        self.caption.refusal == 0
    }

    fn of_list(&self) -> bool {
        self.accepted() && self.caption.source == Source::List
    }

    fn of_sheet(&self) -> bool {
        self.accepted() && self.caption.source == Source::Sheet
    }

    /// The sheet is accepted, and the list is not.
    fn bad_list(&self) -> bool {
        self.caption.refusal == CAPTION && self.codes.is_none()
    }

    /// The count that the sheet claims; bytes that it has not are 0.
    fn claimed(&self) -> u32 {
        let byte = |at| self.case.sheet.get(at).map_or(0, |&byte| u32::from(byte));
        byte(1) + 256 * byte(3)
    }

    /// Not below the count that the sheet claims.
    pub fn bad_entry(&self) -> bool {
        self.case.entry >= self.claimed()
    }

    /// Whether a code of the list of an accepted caption is so.
    fn any_code(&self, is: impl Fn(&[u8]) -> bool) -> bool {
        let codes = self.codes.iter().flatten();
        self.accepted() && { codes }.any(|code| is(code.code.of(&self.case.list)))
    }

    /// The words of all codes that are equal to the label.
    fn equal(&self) -> impl Iterator<Item = &'a [u8]> {
        let (list, label) = (&self.case.list, self.label);
        let codes = self.codes.iter().flatten();
        let equal = codes.filter(move |code| code.code.of(list) == label);
        equal
            .map(|code| code.words.of(list))
            .collect::<Vec<_>>()
            .into_iter()
    }

    fn claims(&self, codes: u16) -> bool {
        self.bad_list() && self.case.list.starts_with(&codes.to_le_bytes())
    }
}

/// A kind of case that must be met.
type Kind = (&'static str, fn(&Seen) -> bool);

const KINDS: [Kind; 30] = [
    ("the first of several equal codes, with other words", |s| {
        s.of_list() && s.equal().any(|words| Some(words) != s.equal().next())
    }),
    ("a code that the label goes on from, from the sheet", |s| {
        s.of_sheet()
            && s.any_code(|c| !c.is_empty() && c.len() < s.label.len() && s.label.starts_with(c))
    }),
    ("a code that goes on from the label, from the sheet", |s| {
        s.of_sheet()
            && !s.label.is_empty()
            && s.any_code(|c| c.len() > s.label.len() && c.starts_with(s.label))
    }),
    ("the same two, from the list", |s| {
        s.of_list()
            && s.any_code(|c| c.len() < s.label.len() && s.label.starts_with(c))
            && s.any_code(|c| c.len() > s.label.len() && c.starts_with(s.label))
    }),
    (
        "a code of which the last byte alone differs, from the sheet",
        |s| s.of_sheet() && s.any_code(|c| last_differs(c, s.label)),
    ),
    (
        "a code of which the first byte alone differs, from the sheet",
        |s| s.of_sheet() && s.label.len() > 1 && s.any_code(|c| first_differs(c, s.label)),
    ),
    ("an empty code found", |s| s.of_list() && s.label.is_empty()),
    ("an empty code passed over", |s| {
        !s.label.is_empty() && s.any_code(<[u8]>::is_empty)
    }),
    ("an empty label shown", |s| {
        s.of_sheet() && s.label.is_empty()
    }),
    ("empty words", |s| s.of_list() && s.caption.len == 0),
    ("words equal to their code", |s| {
        s.of_list() && !s.label.is_empty() && s.equal().next() == Some(s.label)
    }),
    ("a label of 24 bytes found", |s| {
        s.of_list() && s.label.len() == 24
    }),
    ("a code above 24 bytes", |s| s.any_code(|c| c.len() > 24)),
    ("a label with a NUL found", |s| {
        s.of_list() && s.label.contains(&0)
    }),
    ("a label with a byte above 127 found", |s| {
        s.of_list() && s.label.iter().any(|&byte| byte > 127)
    }),
    ("entry 63", |s| s.accepted() && s.case.entry == 63),
    ("no codes", |s| s.accepted() && s.case.list.len() == 2),
    ("8,191 codes, from the list", |s| {
        s.of_list() && s.codes.as_ref().is_some_and(|codes| codes.len() == 8191)
    }),
    ("8,191 codes, from the sheet", |s| {
        s.of_sheet() && s.codes.as_ref().is_some_and(|codes| codes.len() == 8191)
    }),
    ("an end past 65,535, from the list", |s| {
        s.of_list() && s.caption.at + s.caption.len > 65_535
    }),
    ("an end past 65,535, from the sheet", |s| {
        s.of_sheet() && s.case.list.len() > 65_535
    }),
    ("words of 65,535 bytes", |s| {
        s.of_list() && s.caption.len == 65_535
    }),
    ("the longest list", |s| {
        s.accepted() && s.case.list.len() == lists::LONGEST
    }),
    ("8,192 codes claimed", |s| s.claims(8192)),
    ("65,535 codes claimed", |s| s.claims(65_535)),
    ("a list of no bytes", |s| {
        s.bad_list() && s.case.list.is_empty()
    }),
    ("a list of one byte", |s| {
        s.bad_list() && s.case.list.len() == 1
    }),
    ("no codes in three bytes", |s| {
        s.claims(0) && s.case.list.len() == 3
    }),
    ("a list of 140,000 bytes", |s| {
        s.case.list.len() == MOST_LIST
    }),
    ("a sheet of 12,000 bytes", |s| {
        s.case.sheet.len() == MOST_SHEET
    }),
];

/// Those of sheets of more than 64 entries.
const LONG_SHEETS: [Kind; 7] = [
    ("an entry from 64 on, from the list", |s| {
        s.of_list() && s.case.entry > 63
    }),
    ("entry 64", |s| s.accepted() && s.case.entry == 64),
    ("entry 255, from the list", |s| {
        s.of_list() && s.case.entry == 255
    }),
    ("entry 255, from the sheet", |s| {
        s.of_sheet() && s.case.entry == 255
    }),
    ("entry 256 of 256 entries", |s| {
        s.case.entry == 256 && s.caption.refusal == CAPTION && !s.bad_list() && s.claimed() == 256
    }),
    ("257 entries claimed", |s| {
        s.caption.refusal == 8 && s.claimed() == 257
    }),
    ("a sheet of 10,252 bytes, accepted", |s| {
        s.accepted() && s.case.sheet.len() == 10_252
    }),
];

fn last_differs(code: &[u8], label: &[u8]) -> bool {
    match (code, label) {
        ([code @ .., a], [label @ .., b]) => code == label && a != b,
        _ => false,
    }
}

fn first_differs(code: &[u8], label: &[u8]) -> bool {
    match (code, label) {
        ([a, code @ ..], [b, label @ ..]) => code == label && a != b,
        _ => false,
    }
}

#[derive(Default)]
pub struct Tally {
    pub cases: u64,
    from_list: u64,
    from_sheet: u64,
    /// By the refusal.
    numbers: [u64; 17],
    /// Refused by 16: for the list alone, for the entry alone, for both.
    list: u64,
    entry: u64,
    both: u64,
    /// By the sheet's number: with a bad list, with a bad entry, with both.
    pub with_list: [u64; 17],
    pub with_entry: [u64; 17],
    pub with_both: [u64; 17],
    kinds: [u64; KINDS.len()],
    long_sheets: [u64; LONG_SHEETS.len()],
    /// By the number of the end.
    pub ends: [u64; ENDS.len()],
}

impl Tally {
    pub fn add(&mut self, case: &Case) {
        let seen = Seen::new(case);
        let number = usize::from(seen.caption.refusal);
        self.cases += 1;
        self.numbers[number] += 1;
        self.from_list += u64::from(seen.of_list());
        self.from_sheet += u64::from(seen.of_sheet());
        let (list, entry) = (seen.codes.is_none(), seen.bad_entry());
        if number == usize::from(CAPTION) {
            self.list += u64::from(list && !entry);
            self.entry += u64::from(entry && !list);
            self.both += u64::from(list && entry);
        } else {
            self.with_list[number] += u64::from(list && !entry);
            self.with_entry[number] += u64::from(entry && !list);
            self.with_both[number] += u64::from(list && entry);
        }
        for (count, (_, is)) in self.kinds.iter_mut().zip(KINDS) {
            *count += u64::from(is(&seen));
        }
        for (count, (_, is)) in self.long_sheets.iter_mut().zip(LONG_SHEETS) {
            *count += u64::from(is(&seen));
        }
    }

    /// What must be met, with how often it was.
    fn lines(&self) -> Vec<(String, u64)> {
        let mut lines = vec![
            ("accepted, from the list".to_string(), self.from_list),
            ("accepted, from the sheet".to_string(), self.from_sheet),
        ];
        for number in SHEET {
            let at = usize::from(number);
            lines.push((format!("refusal {number}"), self.numbers[at]));
            for (with, count) in [
                ("a list of another shape", self.with_list[at]),
                ("an entry not below the count", self.with_entry[at]),
                ("both", self.with_both[at]),
            ] {
                lines.push((format!("refusal {number}, with {with}"), count));
            }
        }
        for (why, count) in [
            ("the list's shape", self.list),
            ("the entry", self.entry),
            ("both", self.both),
        ] {
            lines.push((format!("refusal 16, for {why}"), count));
        }
        let long_sheets = LONG_SHEETS.iter().zip(self.long_sheets);
        let kinds = KINDS.iter().zip(self.kinds).chain(long_sheets);
        lines.extend(kinds.map(|((name, _), count)| (name.to_string(), count)));
        let ends = ENDS.iter().zip(&self.ends);
        lines.extend(ends.map(|(end, &count)| (format!("the input ends: {}", end.name), count)));
        lines
    }

    pub fn print(&self) {
        println!("{} cases", self.cases);
        for (name, count) in self.lines() {
            println!("  {name:<62} {count:>7}");
        }
    }

    /// Fails where there were too few cases, or where something was not met.
    pub fn verdict(&self, least: u64) -> Result<(), String> {
        if self.cases < least {
            let cases = self.cases;
            return Err(format!("{cases} cases, fewer than {least}"));
        }
        match self.lines().iter().find(|(_, count)| *count == 0) {
            Some((name, _)) => Err(format!("not met: {name}")),
            None => Ok(()),
        }
    }
}
