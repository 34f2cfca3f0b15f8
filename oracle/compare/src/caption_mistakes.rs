//! Finders of captions that have a mistake: the cases of `caption_cases` must tell each of them from a right
//! one.

use crate::caption_cases::{CAPTION, Case, SHEET, fixed, sample};
use crate::caption_tally::{Seen, Tally};
use crate::reader;
use crate::venue::{self, Source};

/// What a finder can have wrong.
#[derive(Clone, Copy, PartialEq, Debug)]
enum Mistake {
    Nothing,
    LastWins,
    CodeStartsLabel,
    LabelStartsCode,
    LengthsOnly,
    FirstByteUnseen,
    LastByteUnseen,
    EndsAtNul,
    SevenBits,
    CodeOf24,
    WordsAreCodes,
    EmptyCodeUnseen,
    EmptyWordsUnseen,
    AllCodesThenAllWords,
    ListFirst,
    EntryFirst,
    EntryOf8Bits,
    EntryOf16Bits,
    EntryUpToCount,
    EntryUpTo63,
    EntryUpTo254,
    CountOf8Bits,
    CaptionOfRefused,
    NoCodesOfAnyLength,
    FirstUnchecked,
    TurnUnchecked,
    WordsTurnUnchecked,
    CodesTurnUnchecked,
    LastPairUnchecked,
    EndUnchecked,
    EndBefore,
    EndAfter,
    LabelsOf24,
    CheckedUpToFound,
    SumsOf16Bits,
    EndsOf16Bits,
    CodesUpTo8190,
}

/// Those that short lists can show, and those that they cannot.
const SHORT: [Mistake; 33] = [
    Mistake::LastWins,
    Mistake::CodeStartsLabel,
    Mistake::LabelStartsCode,
    Mistake::LengthsOnly,
    Mistake::FirstByteUnseen,
    Mistake::LastByteUnseen,
    Mistake::EndsAtNul,
    Mistake::SevenBits,
    Mistake::CodeOf24,
    Mistake::WordsAreCodes,
    Mistake::EmptyCodeUnseen,
    Mistake::EmptyWordsUnseen,
    Mistake::AllCodesThenAllWords,
    Mistake::ListFirst,
    Mistake::EntryFirst,
    Mistake::EntryOf8Bits,
    Mistake::EntryOf16Bits,
    Mistake::EntryUpToCount,
    Mistake::EntryUpTo63,
    Mistake::EntryUpTo254,
    Mistake::CountOf8Bits,
    Mistake::CaptionOfRefused,
    Mistake::NoCodesOfAnyLength,
    Mistake::FirstUnchecked,
    Mistake::TurnUnchecked,
    Mistake::WordsTurnUnchecked,
    Mistake::CodesTurnUnchecked,
    Mistake::LastPairUnchecked,
    Mistake::EndUnchecked,
    Mistake::EndBefore,
    Mistake::EndAfter,
    Mistake::LabelsOf24,
    Mistake::CheckedUpToFound,
];
const LONG: [Mistake; 3] = [
    Mistake::SumsOf16Bits,
    Mistake::EndsOf16Bits,
    Mistake::CodesUpTo8190,
];

type Answer = (u8, Source, usize, usize);

const NONE: Answer = (CAPTION, Source::Sheet, 0, 0);

/// The caption with a mistake, in one pass over the pairs.
fn with(mistake: Mistake, case: &Case) -> Answer {
    let Case { list, sheet, entry } = case;
    let is = |other| mistake == other;
    let places = match reader::label_places(sheet) {
        Ok(places) => places,
        Err(_) if is(Mistake::ListFirst) && venue::codes(list).is_err() => return NONE,
        Err(_) if is(Mistake::EntryFirst) && Seen::new(case).bad_entry() => return NONE,
        Err(number) => return (number, Source::Sheet, 0, 0),
    };
    let entry = match mistake {
        Mistake::EntryOf8Bits => *entry as usize % 256,
        Mistake::EntryOf16Bits => *entry as usize % 65_536,
        _ => *entry as usize,
    };
    let places = match mistake {
        Mistake::EntryUpTo63 => &places[..places.len().min(64)],
        Mistake::EntryUpTo254 => &places[..places.len().min(255)],
        Mistake::CountOf8Bits => &places[..places.len() % 256],
        _ => &places[..],
    };
    let place = match places.get(entry) {
        Some(&place) => place,
        None if is(Mistake::EntryUpToCount) && entry == places.len() => (0, 0),
        None => return NONE,
    };
    let label = &sheet[place.0..][..place.1];
    match passed(mistake, list, label) {
        Some(Some((at, len))) => (0, Source::List, at, len),
        Some(None) => (0, Source::Sheet, place.0, place.1),
        None if is(Mistake::CaptionOfRefused) => (CAPTION, Source::Sheet, place.0, place.1),
        None => NONE,
    }
}

/// The words, if there are some; nothing where the list is refused.
fn passed(mistake: Mistake, list: &[u8], label: &[u8]) -> Option<Option<(usize, usize)>> {
    let is = |other| mistake == other;
    let u16_at = |at: usize| {
        let bytes = [*list.get(at)?, *list.get(at + 1)?];
        Some(usize::from(u16::from_le_bytes(bytes)))
    };
    let sum = |sum: usize| match is(Mistake::SumsOf16Bits) {
        true => sum % 65_536,
        false => sum,
    };
    let n = u16_at(0)?;
    if n == 0 && is(Mistake::NoCodesOfAnyLength) {
        return Some(None);
    }
    if n > 8190 && is(Mistake::CodesUpTo8190) || list.len() < 2 + 8 * n {
        return None;
    }
    let mut end = sum(2 + 8 * n);
    let mut found = None;
    for pair in 0..2 * n {
        let [at, len] = [u16_at(2 + 4 * pair)?, u16_at(4 + 4 * pair)?];
        let unchecked = match pair {
            0 => is(Mistake::FirstUnchecked),
            _ if pair + 1 == 2 * n && is(Mistake::LastPairUnchecked) => true,
            _ if pair % 2 == 0 && is(Mistake::CodesTurnUnchecked) => true,
            _ if pair % 2 == 1 && is(Mistake::WordsTurnUnchecked) => true,
            _ => is(Mistake::TurnUnchecked),
        };
        if at != end && !unchecked || len > 24 && is(Mistake::LabelsOf24) {
            return None;
        }
        end = sum(at + len);
        let code = list.get(at..at + len).unwrap_or_default();
        let is_code = match mistake {
            Mistake::AllCodesThenAllWords => pair < n,
            Mistake::WordsAreCodes => pair + 1 < 2 * n,
            _ => pair % 2 == 0,
        };
        if is_code && equal(mistake, code, label) && (found.is_none() || is(Mistake::LastWins)) {
            let words = match mistake {
                Mistake::AllCodesThenAllWords => pair + n,
                _ => pair + 1,
            };
            found = Some((u16_at(2 + 4 * words)?, u16_at(4 + 4 * words)?));
            if is(Mistake::CheckedUpToFound) {
                return Some(found);
            }
        }
    }
    let length = match mistake {
        Mistake::SumsOf16Bits => list.len() % 65_536,
        _ => list.len(),
    };
    let ends = match mistake {
        Mistake::EndUnchecked => true,
        Mistake::EndBefore => end <= length,
        Mistake::EndAfter => end >= length,
        Mistake::EndsOf16Bits => end == length && end < 65_536,
        _ => end == length,
    };
    if !ends {
        return None;
    }
    Some(found.filter(|words| words.1 > 0 || !is(Mistake::EmptyWordsUnseen)))
}

fn equal(mistake: Mistake, code: &[u8], label: &[u8]) -> bool {
    let to_nul = |bytes: &[u8]| bytes.split(|&byte| byte == 0).next().map(<[u8]>::to_vec);
    let low = |bytes: &[u8]| bytes.iter().map(|byte| byte % 128).collect::<Vec<_>>();
    let same_length = code.len() == label.len();
    match mistake {
        Mistake::CodeStartsLabel => label.starts_with(code),
        Mistake::LabelStartsCode => code.starts_with(label),
        Mistake::LengthsOnly => same_length,
        Mistake::FirstByteUnseen => same_length && code.get(1..) == label.get(1..),
        Mistake::LastByteUnseen => {
            let most = label.len().saturating_sub(1);
            same_length && code[..most] == label[..most]
        }
        Mistake::EndsAtNul => to_nul(code) == to_nul(label),
        Mistake::SevenBits => low(code) == low(label),
        Mistake::CodeOf24 => code[..code.len().min(24)] == *label,
        Mistake::EmptyCodeUnseen => !code.is_empty() && code == label,
        _ => code == label,
    }
}

fn told_apart(mistake: Mistake, cases: &[Case]) -> bool {
    cases.iter().any(|case| {
        let caption = venue::caption(&case.list, &case.sheet, case.entry);
        let right = (caption.refusal, caption.source, caption.at, caption.len);
        with(mistake, case) != right
    })
}

/// The cases that every run has tell each of them apart, and no right finder.
#[test]
fn wrong_finders_are_told_apart() {
    let cases = fixed();
    assert!(!told_apart(Mistake::Nothing, &cases));
    for mistake in [&SHORT[..], &LONG].concat() {
        assert!(told_apart(mistake, &cases), "{mistake:?}");
    }
}

/// The stored sample tells them apart, but for those that need a long list; it is within its size.
#[test]
fn wrong_finders_are_told_apart_by_the_sample() {
    let cases = sample();
    assert!(!told_apart(Mistake::Nothing, &cases));
    for mistake in SHORT {
        assert!(told_apart(mistake, &cases), "{mistake:?}");
    }
    let mut tally = Tally::default();
    cases.iter().for_each(|case| tally.add(case));
    for number in SHEET.map(usize::from) {
        let met = [tally.with_list, tally.with_entry, tally.with_both];
        assert!(met.iter().all(|met| met[number] > 0), "{number}");
    }
}
