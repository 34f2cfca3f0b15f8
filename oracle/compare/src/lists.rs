//! Good venue lists, and what can be wrong with them; sheets whose labels they are to meet.

use crate::damage::Fault;
use crate::reader::{self, At, Described, Entry, Mode};
use crate::rng::Rng;

/// Codes and their words, in the list's order.
pub type Words = Vec<(Vec<u8>, Vec<u8>)>;

/// The longest list that can be well formed: its last words start at 65,535 and have 65,535 bytes.
pub const LONGEST: usize = 131_070;

// Good lists

pub fn words(codes: &[(&[u8], &[u8])]) -> Words {
    let owned = |(code, words): &(&[u8], &[u8])| (code.to_vec(), words.to_vec());
    codes.iter().map(owned).collect()
}

/// The list of these codes: well formed where the last words start at 65,535 or before. Above it, offsets
/// and number are cut to 16 bits.
pub fn write(words: &Words) -> Vec<u8> {
    write_apart(words, usize::MAX, 0)
}

/// The same, with one pair, by its number, and all after it `apart` bytes too far on (below 0: so far back)
/// and each in turn from there: nothing else is wrong.
fn write_apart(words: &Words, at: usize, apart: isize) -> Vec<u8> {
    let mut list = (words.len() as u16).to_le_bytes().to_vec();
    let mut text = Vec::new();
    let start = 2 + 8 * words.len();
    let parts = words.iter().flat_map(|(code, words)| [code, words]);
    for (number, part) in parts.enumerate() {
        let mut offset = start + text.len();
        if number == at {
            let filler = vec![b'-'; apart.max(0) as usize];
            text.extend(filler);
            offset = offset.saturating_add_signed(apart);
            text.truncate(offset.saturating_sub(start));
        }
        list.extend((offset as u16).to_le_bytes());
        list.extend((part.len() as u16).to_le_bytes());
        text.extend(part);
    }
    list.extend(text);
    list
}

/// Lists so small that every bit can be flipped: no codes, empty ones, equal ones, each the start of the
/// next one.
pub fn small() -> Vec<Words> {
    vec![
        vec![],
        words(&[(b"a", b"A!")]),
        words(&[(b"", b"x")]),
        words(&[(b"b", b"")]),
        words(&[(b"", b"")]),
        words(&[(b"a", b"a")]),
        words(&[(b"a", b"1"), (b"a", b"22")]),
        words(&[(b"", b"1"), (b"", b"22"), (b"\0", b"\xff")]),
        words(&[(b"a", b""), (b"ab", b"two"), (b"abc", b"3")]),
        words(&[(b"abc", b"3"), (b"ab", b""), (b"a", b"ab"), (b"ac", b"")]),
        words(&[(b"\x7f", b"7"), (b"\xff\0", b"b"), (b"\0", b"a")]),
        words(&[(b"b", b"\0\x80\xff"), (b"\x80", b"8"), (b"\xff", b"f")]),
        words(&[(&[b'l'; 25], b"25"), (&[b'l'; 24], b"24"), (b"l", b"l")]),
    ]
}

/// Lists of one byte and more that are in turn but not in the sheet's shape, as a whole: pairs set apart
/// and made to overlap, and pairs exchanged.
pub fn misshapen(words: &Words) -> Vec<Vec<u8>> {
    let mut lists = Vec::new();
    for pair in 0..2 * words.len() {
        lists.extend([1, 2, -1, -2].map(|apart| write_apart(words, pair, apart)));
    }
    let good = write(words);
    for pair in 1..2 * words.len() {
        let mut list = good.clone();
        let (before, after) = list.split_at_mut(2 + 4 * pair);
        before[4 * pair - 2..].swap_with_slice(&mut after[..4]);
        lists.push(list);
    }
    lists.retain(|list| *list != good);
    lists
}

// Faults

/// How many pairs a good list has.
fn pairs(list: &[u8]) -> usize {
    2 * usize::from(u16_at(list, 0))
}

fn u16_at(list: &[u8], at: usize) -> u16 {
    u16::from_le_bytes([list[at], list[at + 1]])
}

/// The number of codes, and each offset and length, on both sides of what is right and at the ends; the
/// list's length on both sides. Of a long list the first pairs and the last ones.
pub fn fields(list: &[u8]) -> Vec<Fault> {
    let mut faults = Vec::new();
    let mut set = |at: usize, others: &[u16]| {
        let right = u16_at(list, at);
        let beside = [right.wrapping_sub(1), right.wrapping_add(1), right ^ 256];
        for value in beside.iter().chain(others) {
            let fault = Fault::Set(at, value.to_le_bytes().to_vec());
            if *value != right && !faults.contains(&fault) {
                faults.push(fault);
            }
        }
    };
    set(0, &[0, 8191, 8192, 65_535]);
    let count = pairs(list);
    for pair in (0..count).filter(|&pair| pair < 4 || pair + 3 >= count) {
        let at = 2 + 4 * pair;
        set(at, &[0, 2, 65_535]);
        set(at + 2, &[0, 24, 25, 32_768, 65_535]);
    }
    let ends = [0, 1, 2, 2 + 4 * count, (2 + 4 * count).saturating_sub(1)];
    let ends = ends.into_iter().chain([list.len() - 1]);
    faults.extend(ends.filter(|&end| end < list.len()).map(Fault::Cut));
    faults.push(Fault::Append(vec![0]));
    faults
}

/// A fault of any kind, of a good list.
pub fn random_fault(rng: &mut Rng, list: &[u8]) -> Fault {
    let length = list.len() as u32;
    let byte = rng.bits() as u8;
    match rng.below(8) {
        0 => Fault::Cut(rng.below(length) as usize),
        1 => Fault::Append(vec![byte; 1 + rng.below(8) as usize]),
        2 => Fault::Flip(rng.below(8 * length) as usize),
        3 => Fault::Set(rng.below(length) as usize, vec![byte]),
        _ => {
            let at = 2 * rng.below(1 + 2 * pairs(list) as u32) as usize;
            let right = u16_at(list, at);
            let value = match rng.below(6) {
                0 => rng.bits() as u16,
                1 => rng.pick(&[0, 1, 2, 24, 25, 8191, 8192, 32_768, 65_535]),
                2 => right.wrapping_add(1 + rng.below(4) as u16),
                3 => right.wrapping_sub(1 + rng.below(4) as u16),
                4 => right.wrapping_add(1),
                _ => right.wrapping_sub(1),
            };
            Fault::Set(at, value.to_le_bytes().to_vec())
        }
    }
}

/// Bytes that are no damaged list: of any length, and mostly with a small number of codes.
pub fn noise(rng: &mut Rng) -> Vec<u8> {
    let length = match rng.below(16) {
        0 => rng.below(2000),
        1 => rng.below(4),
        _ => rng.below(60),
    };
    let mut bytes: Vec<u8> = (0..length)
        .map(|_| match rng.below(3) {
            0 => rng.bits() as u8,
            _ => rng.below(3) as u8,
        })
        .collect();
    if rng.below(4) != 0 {
        let number = rng.below(4) as u8;
        Fault::Set(0, vec![number, 0]).apply(&mut bytes);
        Fault::Set(2, vec![2 + 8 * number, 0]).apply(&mut bytes);
    }
    bytes
}

// Random lists for a sheet's labels

const LETTERS: &[u8] = b"aab\0\x80\xff";

fn letters(rng: &mut Rng, length: u32) -> Vec<u8> {
    (0..length).map(|_| rng.pick(LETTERS)).collect()
}

/// A code: a label, what is nearly one, or what was a code before.
fn random_code(rng: &mut Rng, labels: &[Vec<u8>], before: &Words) -> Vec<u8> {
    let mut code = match labels {
        [] => Vec::new(),
        _ => labels[rng.below(labels.len() as u32) as usize].clone(),
    };
    match rng.below(16) {
        0 => code.truncate(code.len().saturating_sub(1)),
        1 => code.truncate(rng.below(1 + code.len() as u32) as usize),
        2 => code.push(rng.pick(LETTERS)),
        3 => {
            let longer = 25 + rng.below(40) as usize;
            code.resize(longer, rng.pick(LETTERS));
        }
        4 | 5 => {
            if let Some(last) = code.last_mut() {
                *last ^= rng.pick(&[1, 2, 32, 128]);
            }
        }
        6 => {
            if let Some(first) = code.first_mut() {
                *first ^= rng.pick(&[1, 128]);
            }
        }
        7 => code.clear(),
        8 | 9 => {
            let length = rng.pick(&[0, 1, 1, 2, 3, 24]);
            code = letters(rng, length);
        }
        10 | 11 if !before.is_empty() => {
            code = before[rng.below(before.len() as u32) as usize].0.clone();
        }
        _ => {}
    }
    code
}

fn random_words(rng: &mut Rng, code: &[u8]) -> Vec<u8> {
    match rng.below(8) {
        0 | 1 => Vec::new(),
        2 => code.to_vec(),
        3 => {
            let length = rng.below(60);
            letters(rng, length)
        }
        _ => {
            let length = 1 + rng.below(8);
            letters(rng, length)
        }
    }
}

/// Codes for a sheet with these labels.
pub fn random(rng: &mut Rng, labels: &[Vec<u8>]) -> Words {
    let count = match rng.below(200) {
        0 => rng.below(400),
        1..=9 => rng.below(40),
        _ => rng.below(6),
    };
    let mut words = Vec::new();
    for _ in 0..count {
        let code = random_code(rng, labels, &words);
        let shown = random_words(rng, &code);
        words.push((code, shown));
    }
    words
}

// Sheets

/// A good sheet with these labels.
pub fn sheet(labels: &[&[u8]]) -> Vec<u8> {
    let entry = |label: &&[u8]| Entry {
        at: At::End,
        label: label.to_vec(),
        duration: 0x3f80_0000,
    };
    reader::write(&Described {
        mode: Mode::Once,
        scale: 0x3f80_0000,
        entries: labels.iter().map(entry).collect(),
    })
}

/// Small sheets, whose labels the small lists have, have nearly, and have not.
pub fn sheets() -> Vec<Vec<u8>> {
    vec![
        sheet(&[]),
        sheet(&[b"a"]),
        sheet(&[b"", b"ab"]),
        sheet(&[b"a", b"b", b"abc"]),
        sheet(&[b"\0", b"\xff", b"\xff\0", &[b'l'; 24], &[b'l'; 23]]),
    ]
}

/// So many entries: labels of each length, the empty one and 24 bytes among them.
pub fn sheet_of(entries: usize) -> Vec<u8> {
    let labels: Vec<Vec<u8>> = (0..entries)
        .map(|k| vec![b'a' + (k / 25) as u8; k % 25])
        .collect();
    let labels: Vec<&[u8]> = labels.iter().map(Vec::as_slice).collect();
    sheet(&labels)
}

pub fn labels(sheet: &[u8]) -> Vec<Vec<u8>> {
    let entries = reader::read(sheet).map_or(Vec::new(), |described| described.entries);
    entries.into_iter().map(|entry| entry.label).collect()
}

// Long lists

/// A long list, and labels that it is to be asked for.
pub struct Long {
    pub list: Vec<u8>,
    pub labels: Vec<Vec<u8>>,
}

/// Good ones: as many codes as can be, ends past 65,535, the longest words and the longest list; and bad
/// ones that are right in sums of 16 bits.
pub fn long() -> Vec<Long> {
    let of = |words: &Words, labels: &[&[u8]]| Long {
        list: write(words),
        labels: labels.iter().map(|label| label.to_vec()).collect(),
    };
    let filled = |byte: u8, length: usize| vec![byte; length];
    let mut all = Vec::new();
    // 8,191 codes: the equal one stands last, and five bytes are left for it
    let mut most = vec![(vec![], vec![]); 8190];
    most.push((b"zulus".to_vec(), b"words".to_vec()));
    all.push(of(&most, &[b"zulus", b"zulu", b"", b"none"]));
    most[8190] = (b"a".to_vec(), filled(b'w', 65_535));
    all.push(of(&most, &[b"a", b"b", b""]));
    // one more: 65,538 bytes of pairs, which is 2 in 16 bits
    most.push((b"b".to_vec(), b"w".to_vec()));
    all.push(of(&most, &[b"b", b""]));
    all.push(of(&vec![(vec![], vec![]); 8192], &[b"b", b""]));
    // three bytes each
    let three: Words = (0..4681)
        .map(|k| {
            let code = format!("{k:03x}").into_bytes();
            (code[code.len() - 3..].to_vec(), b"wrd".to_vec())
        })
        .collect();
    all.push(of(&three, &[b"248", b"fff", b"xyz", b"24"]));
    // the longest words, and a code before and after them
    let longest = vec![(b"a".to_vec(), filled(b'w', 65_535))];
    all.push(of(&longest, &[b"a", b"w", b"b"]));
    let (first, second) = (filled(b'v', 40_000), filled(b'w', 50_000));
    let two = vec![(b"a".to_vec(), first.clone()), (b"b".to_vec(), second)];
    all.push(of(&two, &[b"a", b"b", b"c"]));
    // words that start at 65,535 and at 65,536, which is 0 in 16 bits; the code is what stands before them
    for start in [65_534, 65_535, 65_536] {
        for length in [0, 1, 65_534, 65_535] {
            let code = filled(b'c', start - 10);
            let words = vec![(code, filled(b'w', length))];
            all.push(of(&words, &[b"c", b""]));
        }
    }
    // the equal code behind long words, its own words at 65,535
    let before = filled(b'v', 65_535 - 18 - 2);
    let behind = vec![
        (b"x".to_vec(), before),
        (b"b".to_vec(), filled(b'w', 65_535)),
    ];
    all.push(of(&behind, &[b"x", b"b", b"w"]));
    // a list that ends past 65,535 with nothing after
    let (third, fourth) = (filled(b'x', 30_000), filled(b'y', 1));
    let three = vec![
        (b"a".to_vec(), first),
        (b"b".to_vec(), third),
        (b"c".to_vec(), fourth),
    ];
    all.push(of(&three, &[b"a", b"c"]));
    all
}

#[cfg(test)]
mod tests {
    use super::*;
    use crate::venue;

    #[test]
    fn good_lists_are_in_shape() {
        let mut rng = Rng::new(5);
        let labels = labels(&sheet_of(64));
        let random = (0..200).map(|_| random(&mut rng, &labels));
        for words in small().into_iter().chain(random) {
            let list = write(&words);
            let codes = venue::codes(&list).expect("a good list");
            let read = codes.iter().map(|code| {
                let (code, words) = (code.code.of(&list), code.words.of(&list));
                (code.to_vec(), words.to_vec())
            });
            assert_eq!(read.collect::<Words>(), words);
        }
    }

    #[test]
    fn the_longest_list() {
        let good = long().into_iter().map(|long| long.list);
        let good = good.filter(|list| venue::codes(list).is_ok());
        assert_eq!(good.map(|list| list.len()).max(), Some(LONGEST));
    }

    /// `b` with `Bar`, its words one byte too far on and one too far back.
    #[test]
    fn apart() {
        let words = words(&[(b"b", b"Bar")]);
        let on = [1, 0, 10, 0, 1, 0, 12, 0, 3, 0, b'b', b'-', b'B', b'a', b'r'];
        let back = [1, 0, 10, 0, 1, 0, 10, 0, 3, 0, b'B', b'a', b'r'];
        assert_eq!(write_apart(&words, 1, 1), on);
        assert_eq!(write_apart(&words, 1, -1), back);
        assert_eq!(write_apart(&words, 0, -1)[2..4], [9, 0]);
    }
}
