//! The caption of an entry: from request S-1, "Stewards want the venue's own words", sentence by sentence.
//! The sheet's own numbers and its labels' places are those of reader.rs. Nothing here is of the port.

use crate::reader;

/// "New 16, after the sheet's own numbers: a list of another shape, or an entry number not below the
/// sheet's count."
const CAPTION: u8 = 16;

/// "the caption shown is a part of the venue list or of the sheet, and the answer says of which and where."
#[derive(Clone, Copy, PartialEq, Debug)]
pub struct Caption {
    pub refusal: u8,
    pub source: Source,
    pub at: usize,
    pub len: usize,
}

#[derive(Clone, Copy, PartialEq, Debug)]
pub enum Source {
    Sheet,
    List,
}

impl Caption {
    /// The bytes shown: "The bytes are not copied".
    pub fn text<'a>(&self, list: &'a [u8], sheet: &'a [u8]) -> &'a [u8] {
        match self.source {
            Source::Sheet => &sheet[self.at..][..self.len],
            Source::List => &list[self.at..][..self.len],
        }
    }

    pub fn letter(&self) -> char {
        match self.source {
            Source::Sheet => 'S',
            Source::List => 'L',
        }
    }
}

/// The caption of an entry.
pub fn caption(list: &[u8], sheet: &[u8], entry: u32) -> Caption {
    // "The refused caption is the empty start of the sheet."
    found(list, sheet, entry).unwrap_or_else(|refusal| Caption {
        refusal,
        source: Source::Sheet,
        at: 0,
        len: 0,
    })
}

fn found(list: &[u8], sheet: &[u8], entry: u32) -> Result<Caption, u8> {
    // "after the sheet's own numbers"
    let labels = reader::label_places(sheet)?;
    // "a list of another shape,"
    let codes = codes(list)?;
    // "or an entry number not below the sheet's count."
    let label = labels.get(entry as usize).ok_or(CAPTION)?;
    Ok(chosen(list, &codes, sheet, *label))
}

/// "The first code equal to the label wins; otherwise the label is shown."
fn chosen(list: &[u8], codes: &[Code], sheet: &[u8], (at, len): (usize, usize)) -> Caption {
    let label = &sheet[at..][..len];
    let equal = codes.iter().find(|code| code.code.of(list) == label);
    let (source, at, len) = match equal {
        Some(code) => (Source::List, code.words.at, code.words.len),
        None => (Source::Sheet, at, len),
    };
    Caption {
        refusal: 0,
        source,
        at,
        len,
    }
}

// The list

/// A pair: "u16 offset and u16 length", "offsets from the list's start".
#[derive(Clone, Copy, PartialEq, Debug)]
pub struct Pair {
    pub at: usize,
    pub len: usize,
}

impl Pair {
    pub fn of(self, list: &[u8]) -> &[u8] {
        &list[self.at..][..self.len]
    }
}

/// "two pairs for each, code and words in turn".
#[derive(Clone, Copy, PartialEq, Debug)]
pub struct Code {
    pub code: Pair,
    pub words: Pair,
}

/// The codes of a list, or the number that refuses it.
pub fn codes(list: &[u8]) -> Result<Vec<Code>, u8> {
    let pairs = claimed_pairs(list).ok_or(CAPTION)?;
    if !in_shape(list.len(), &pairs) {
        return Err(CAPTION);
    }
    let both = |two: &[Pair]| Code {
        code: two[0],
        words: two[1],
    };
    Ok(pairs.chunks_exact(2).map(both).collect())
}

/// "a u16 number of codes, then two pairs for each": all pairs, wherever they lead; none where the list
/// is too short to have them.
fn claimed_pairs(list: &[u8]) -> Option<Vec<Pair>> {
    let (number, rest) = list.split_first_chunk::<2>()?;
    let bytes = 2 * 4 * usize::from(u16::from_le_bytes(*number));
    let pair = |bytes: &[u8]| Pair {
        at: usize::from(u16::from_le_bytes([bytes[0], bytes[1]])),
        len: usize::from(u16::from_le_bytes([bytes[2], bytes[3]])),
    };
    Some(rest.get(..bytes)?.chunks_exact(4).map(pair).collect())
}

/// "in the sheet's shape (offsets from the list's start, the first right after the pairs, the last ending
/// the list, any lengths; 2 bytes for no codes), then the text".
fn in_shape(length: usize, pairs: &[Pair]) -> bool {
    let text = 2 + 4 * pairs.len();
    let (Some(first), Some(last)) = (pairs.first(), pairs.last()) else {
        // "2 bytes for no codes"
        return length == 2;
    };
    // the sheet's: "each next where the one before ends"
    let in_turn = |two: &[Pair]| two[1].at == two[0].at + two[0].len;
    first.at == text && pairs.windows(2).all(in_turn) && last.at + last.len == length
}

#[cfg(test)]
mod tests {
    use super::*;

    // Worked out by hand from the paper, byte for byte.

    /// Two entries, `a` and `b`: labels at 44 and 45.
    const A_B: [u8; 46] = [
        1, 2, 0, 0, 0, 0, 0, 0, 0, 0, 0x80, 0x3f, // header
        44, 0, 1, 0, 45, 0, 1, 0, // pairs
        1, 0, 0, 0, 0, 0, 0, 0, 0, 0, 0x80, 0x3f, // record of a
        2, 0, 0, 0, 0, 0, 0, 0, 0, 0, 0, 0x3f, // record of b
        b'a', b'b',
    ];

    /// Two entries, `ab` at 44 and an empty label at 46.
    const AB_EMPTY: [u8; 46] = [
        1, 2, 0, 0, 0, 0, 0, 0, 0, 0, 0x80, 0x3f, // header
        44, 0, 2, 0, 46, 0, 0, 0, // pairs
        1, 0, 0, 0, 0, 0, 0, 0, 0, 0, 0x80, 0x3f, // record of ab
        1, 0, 0, 0, 0, 0, 0, 0, 0, 0, 0x80, 0x3f, // record of the other
        b'a', b'b',
    ];

    /// No entries.
    const NONE: [u8; 12] = [1, 0, 0, 0, 0, 0, 0, 0, 0, 0, 0x80, 0x3f];

    /// One code, `b`, with the words `Bar`: pairs up to 10.
    const BAR: [u8; 14] = [
        1, 0, // one code
        10, 0, 1, 0, 11, 0, 3, 0, // b, Bar
        b'b', b'B', b'a', b'r',
    ];

    /// Three codes: `a` with `A`, `a` with `AA`, `ab` with nothing: pairs up to 26.
    const TWICE: [u8; 33] = [
        3, 0, // three codes
        26, 0, 1, 0, 27, 0, 1, 0, // a, A
        28, 0, 1, 0, 29, 0, 2, 0, // a, AA
        31, 0, 2, 0, 33, 0, 0, 0, // ab, nothing
        b'a', b'A', b'a', b'A', b'A', b'a', b'b',
    ];

    const REFUSED: (u8, Source, usize, usize) = (16, Source::Sheet, 0, 0);

    fn answer(list: &[u8], sheet: &[u8], entry: u32) -> (u8, Source, usize, usize) {
        let it = caption(list, sheet, entry);
        (it.refusal, it.source, it.at, it.len)
    }

    fn with<const N: usize>(bytes: [u8; N], changes: &[(usize, u8)]) -> [u8; N] {
        let mut bytes = bytes;
        for &(at, byte) in changes {
            bytes[at] = byte;
        }
        bytes
    }

    #[test]
    fn an_equal_code_shows_its_words() {
        assert_eq!(answer(&BAR, &A_B, 1), (0, Source::List, 11, 3));
        assert_eq!(caption(&BAR, &A_B, 1).text(&BAR, &A_B), b"Bar");
    }

    #[test]
    fn with_no_equal_code_the_label_is_shown() {
        assert_eq!(answer(&BAR, &A_B, 0), (0, Source::Sheet, 44, 1));
        assert_eq!(caption(&BAR, &A_B, 0).text(&BAR, &A_B), b"a");
        // the words are no code: `A` and `AA` are not looked at, and neither is `ab`
        assert_eq!(answer(&TWICE, &A_B, 1), (0, Source::Sheet, 45, 1));
    }

    #[test]
    fn the_first_of_two_equal_codes_wins() {
        assert_eq!(answer(&TWICE, &A_B, 0), (0, Source::List, 27, 1));
    }

    #[test]
    fn empty_words_are_shown_at_their_place() {
        assert_eq!(answer(&TWICE, &AB_EMPTY, 0), (0, Source::List, 33, 0));
    }

    #[test]
    fn a_part_of_a_label_is_not_equal() {
        // the code `b` is a part of `ab`; the label `a` begins `ab`, the last code of the list
        assert_eq!(answer(&BAR, &AB_EMPTY, 0), (0, Source::Sheet, 44, 2));
        let others = with(TWICE, &[(26, b'x'), (28, b'x')]);
        assert_eq!(answer(&others, &A_B, 0), (0, Source::Sheet, 44, 1));
    }

    #[test]
    fn an_empty_code_equals_an_empty_label() {
        // one empty code at 10, and `Bar` there, too
        let empty = [1, 0, 10, 0, 0, 0, 10, 0, 3, 0, b'B', b'a', b'r'];
        assert_eq!(answer(&empty, &AB_EMPTY, 1), (0, Source::List, 10, 3));
        assert_eq!(answer(&empty, &AB_EMPTY, 0), (0, Source::Sheet, 44, 2));
        assert_eq!(answer(&BAR, &AB_EMPTY, 1), (0, Source::Sheet, 46, 0));
        // nothing but pairs
        let nothing = [1, 0, 10, 0, 0, 0, 10, 0, 0, 0];
        assert_eq!(answer(&nothing, &AB_EMPTY, 1), (0, Source::List, 10, 0));
    }

    #[test]
    fn no_codes_have_two_bytes() {
        assert_eq!(answer(&[0, 0], &A_B, 1), (0, Source::Sheet, 45, 1));
        for list in [&[][..], &[0], &[1], &[0, 0, 0], &[1, 0], &[0, 1]] {
            assert_eq!(answer(list, &A_B, 1), REFUSED);
        }
    }

    #[test]
    fn an_entry_not_below_the_count() {
        for entry in [2, 3, 65_535, 65_536, 1 << 31, u32::MAX] {
            assert_eq!(answer(&BAR, &A_B, entry), REFUSED);
        }
        assert_eq!(answer(&BAR, &NONE, 0), REFUSED);
        assert_eq!(answer(&[0, 0], &NONE, 0), REFUSED);
    }

    #[test]
    fn the_first_starts_right_after_the_pairs() {
        for first in [0, 2, 9, 11] {
            assert_eq!(answer(&with(BAR, &[(2, first)]), &A_B, 0), REFUSED);
        }
        // 10 and 256
        assert_eq!(answer(&with(BAR, &[(3, 1)]), &A_B, 0), REFUSED);
        // a byte between the pairs and the text, and all else in turn
        let apart = [1, 0, 11, 0, 1, 0, 12, 0, 3, 0, 0, b'b', b'B', b'a', b'r'];
        assert_eq!(answer(&apart, &A_B, 0), REFUSED);
    }

    #[test]
    fn each_next_starts_where_the_one_before_ends() {
        // `Bar` from 10 on or from 12 on
        for (at, len) in [(10, 4), (12, 2), (10, 3), (12, 3)] {
            let list = with(BAR, &[(6, at), (8, len)]);
            assert_eq!(answer(&list, &A_B, 0), REFUSED);
        }
        // between words and the next code, behind the one that is equal
        let gap = with(TWICE, &[(10, 29), (12, 0)]);
        assert_eq!(answer(&gap, &A_B, 0), REFUSED);
        // a longer code that takes a byte of its words: in turn again
        let moved = with(BAR, &[(4, 2), (6, 12), (8, 2)]);
        assert_eq!(answer(&moved, &A_B, 1), (0, Source::Sheet, 45, 1));
    }

    #[test]
    fn the_last_ends_the_list() {
        assert_eq!(answer(&BAR[..13], &A_B, 1), REFUSED);
        assert_eq!(answer(&[&BAR[..], &[0]].concat(), &A_B, 1), REFUSED);
        assert_eq!(answer(&with(BAR, &[(8, 2)]), &A_B, 1), REFUSED);
        assert_eq!(answer(&with(BAR, &[(8, 4)]), &A_B, 1), REFUSED);
        assert_eq!(answer(&with(BAR, &[(9, 1)]), &A_B, 1), REFUSED);
    }

    #[test]
    fn the_number_of_codes() {
        for number in [0, 2, 255] {
            assert_eq!(answer(&with(BAR, &[(0, number)]), &A_B, 1), REFUSED);
        }
        assert_eq!(answer(&with(BAR, &[(1, 1)]), &A_B, 1), REFUSED);
        // the pairs are not whole
        assert_eq!(answer(&BAR[..9], &A_B, 1), REFUSED);
        assert_eq!(answer(&BAR[..10], &A_B, 1), REFUSED);
    }

    /// "after the sheet's own numbers": with a good list, a bad one, and an entry that is not there.
    #[test]
    fn the_sheet_s_own_numbers_come_first() {
        let sheets = [
            (6, with(A_B, &[(0, 2)])),
            (7, with(A_B, &[(18, 2)])),
            (8, with(A_B, &[(3, 1)])),
            (9, with(A_B, &[(2, 5)])),
            (10, with(A_B, &[(32, 5)])),
            (11, with(A_B, &[(12, 45)])),
            (12, with(A_B, &[(35, 1)])),
        ];
        for (number, sheet) in sheets {
            for list in [&BAR[..], &BAR[..13], &[]] {
                for entry in [0, 1, 2, u32::MAX] {
                    let refused = (number, Source::Sheet, 0, 0);
                    assert_eq!(answer(list, &sheet, entry), refused);
                }
            }
        }
        assert_eq!(answer(&[], &[], 0), (7, Source::Sheet, 0, 0));
    }

    /// Request S-2: 256 entries, whose labels start at 12 + 16 x 256, which is 4,108; all are empty but the last
    /// one, `b`.
    #[test]
    fn entry_255_of_256() {
        let mut sheet = vec![1, 0, 0, 1, 0, 0, 0, 0, 0, 0, 0x80, 0x3f];
        sheet.extend([12, 16, 0, 0].repeat(255));
        sheet.extend([12, 16, 1, 0]);
        sheet.extend([1, 0, 0, 0, 0, 0, 0, 0, 0, 0, 0x80, 0x3f].repeat(256));
        sheet.push(b'b');
        assert_eq!(answer(&BAR, &sheet, 255), (0, Source::List, 11, 3));
        assert_eq!(answer(&[0, 0], &sheet, 255), (0, Source::Sheet, 4108, 1));
        for entry in [0, 64, 254] {
            assert_eq!(answer(&BAR, &sheet, entry), (0, Source::Sheet, 4108, 0));
        }
        for entry in [256, 257, 511, 512, u32::MAX] {
            assert_eq!(answer(&BAR, &sheet, entry), REFUSED);
        }
        // 257 entries
        sheet[1] = 1;
        assert_eq!(answer(&BAR, &sheet, 0), (8, Source::Sheet, 0, 0));
        assert_eq!(answer(&[], &sheet, 256), (8, Source::Sheet, 0, 0));
    }

    /// "any lengths": of a code, too, and ends may pass what an offset can say.
    #[test]
    fn ends_past_65_535() {
        // the code has 65,525 bytes from 10 on; the words start at 65,535, as far as an offset can say
        let mut list = vec![1, 0, 10, 0, 0xf5, 0xff, 0xff, 0xff, 0xff, 0xff];
        list.resize(131_070, b'w');
        assert_eq!(answer(&list, &A_B, 0), (0, Source::Sheet, 44, 1));
        list.push(b'w');
        assert_eq!(answer(&list, &A_B, 0), REFUSED);
        // the code is `a`, and the words go from 11 to 65,546
        let mut list = vec![1, 0, 10, 0, 1, 0, 11, 0, 0xff, 0xff, b'a'];
        list.resize(65_546, b'w');
        assert_eq!(answer(&list, &A_B, 0), (0, Source::List, 11, 65_535));
        // 65,546 is 10 where a sum has 16 bits
        assert_eq!(answer(&list[..65_545], &A_B, 0), REFUSED);
        assert_eq!(answer(&list[..10], &A_B, 0), REFUSED);
    }

    /// 8,191 codes leave five bytes of text before the last words; 8,192 have no room for an offset.
    #[test]
    fn as_many_codes_as_offsets_can_follow() {
        // all are empty, at 65,530, but the last: `a` at 65,530, and its words `A` at 65,531
        let mut list = vec![0xff, 0x1f];
        list.extend([0xfa, 0xff, 0, 0].repeat(16_380));
        list.extend([0xfa, 0xff, 1, 0, 0xfb, 0xff, 1, 0]);
        list.extend(b"aA");
        assert_eq!(list.len(), 65_532);
        assert_eq!(answer(&list, &A_B, 0), (0, Source::List, 65_531, 1));
        assert_eq!(answer(&list, &A_B, 1), (0, Source::Sheet, 45, 1));
        assert_eq!(answer(&list, &AB_EMPTY, 1), (0, Source::List, 65_530, 0));
        // 2 + 8 x 8,192 is 65,538, and 2 where a sum has 16 bits
        let mut list = vec![0, 0x20];
        list.extend([2, 0, 0, 0].repeat(16_384));
        assert_eq!(list.len(), 65_538);
        assert_eq!(answer(&list, &A_B, 0), REFUSED);
    }
}
