//! The text of the program `captions`: all captions of a sheet, in ASCII. And the samples that people run.

use crate::damage::Fault;
use crate::lists::{self, Words};
use crate::port::root;
use crate::reader;
use crate::venue;
use std::fmt::Write as _;
use std::fs;
use std::io::{self, Write as _};
use std::path::Path;

/// `captions 0 n` and a line for each entry; or `captions N` where sheet or list is refused.
pub fn text(list: &[u8], sheet: &[u8]) -> String {
    let count = match count(list, sheet) {
        Ok(count) => count,
        Err(number) => return format!("captions {number}\n"),
    };
    let mut out = format!("captions 0 {count}\n");
    for entry in 0..count as u32 {
        let caption = venue::caption(list, sheet, entry);
        let (source, at, len) = (caption.letter(), caption.at, caption.len);
        write!(out, "{entry} {source} {at} {len}").expect("a string takes all");
        if len > 0 {
            out.push(' ');
            caption
                .text(list, sheet)
                .iter()
                .for_each(|&byte| put(byte, &mut out));
        }
        out.push('\n');
    }
    out
}

/// The sheet's count, or the number: "after the sheet's own numbers: a list of another shape". No entry is
/// asked for here.
fn count(list: &[u8], sheet: &[u8]) -> Result<usize, u8> {
    let labels = reader::label_places(sheet)?;
    venue::codes(list)?;
    Ok(labels.len())
}

/// Bytes 0x20 to 0x7e but the backslash as they are, every other one as `\x` and two hex digits.
fn put(byte: u8, out: &mut String) {
    match byte {
        b'\\' => out.push_str("\\x5c"),
        0x20..=0x7e => out.push(char::from(byte)),
        _ => write!(out, "\\x{byte:02x}").expect("a string takes all"),
    }
}

/// Prints the text of a list and a sheet, in files.
pub fn print(list: &str, sheet: &str) -> Result<(), String> {
    let read = |file: &str| fs::read(file).map_err(|e| format!("{file}: {e}"));
    let text = text(&read(list)?, &read(sheet)?);
    let written = io::stdout().write_all(text.as_bytes());
    written.map_err(|e| e.to_string())
}

// Samples

/// Five entries: `vip` has no code in either list, and the last label is empty.
fn gates() -> Vec<u8> {
    lists::sheet(&[b"g1", b"g2", b"bar", b"vip", b""])
}

fn spoken(codes: &[(&str, &str)]) -> Words {
    let bytes =
        |(code, words): &(&str, &str)| (code.as_bytes().to_vec(), words.as_bytes().to_vec());
    codes.iter().map(bytes).collect()
}

/// `bar` twice, `ba` and `bars` beside it, empty words for `g2`, and an empty code.
fn german() -> Vec<u8> {
    lists::write(&spoken(&[
        ("g1", "Südtor"),
        ("ba", "Bahnsteig"),
        ("bar", "Getränke"),
        ("bars", "Gaststätten"),
        ("bar", "Küche"),
        ("g2", ""),
        ("", "für alle"),
    ]))
}

/// `g1` twice, of which the first has empty words, and a backslash.
fn french() -> Vec<u8> {
    lists::write(&spoken(&[
        ("bar", "Bière et café"),
        ("g1", ""),
        ("g1", "Première porte"),
        ("g2", "Entrée \\ côté forêt"),
    ]))
}

/// A list and a sheet by their name, whose first part is the number.
fn damaged() -> Vec<(&'static str, Vec<u8>, Vec<u8>)> {
    let (list, sheet) = (french(), gates());
    let set = |bytes: &[u8], at: usize, byte: u8| Fault::Set(at, vec![byte]).applied(bytes);
    let on = |bytes: &[u8], at: usize| set(bytes, at, bytes[at] + 1);
    vec![
        ("16-one-byte", vec![4], sheet.clone()),
        ("16-no-codes-and-a-byte", vec![0, 0, 0], sheet.clone()),
        // the offset of the first code
        ("16-offset", on(&list, 2), sheet.clone()),
        // the length of the second code: the captions of the first would not need it
        ("16-second-code", on(&list, 2 + 8 + 2), sheet.clone()),
        ("16-end", [&list[..], b"!"].concat(), sheet.clone()),
        // the second label's offset, and the list as in 16-end
        (
            "11-sheet-before-16",
            [&list[..], b"!"].concat(),
            on(&sheet, 16),
        ),
        ("7-sheet-of-11-bytes", list.clone(), sheet[..11].to_vec()),
    ]
}

/// Writes `samples/captions`.
pub fn write_samples() -> Result<(), String> {
    let folder = root().join("samples/captions");
    let sheet = gates();
    let write = || -> io::Result<()> {
        fs::create_dir_all(folder.join("damaged"))?;
        fs::write(folder.join("gates.sheet"), &sheet)?;
        for (name, list) in [("german", german()), ("french", french())] {
            write_list(&folder, name, &list, &sheet)?;
        }
        for (name, list, sheet) in damaged() {
            let folder = folder.join("damaged");
            write_list(&folder, name, &list, &sheet)?;
            fs::write(folder.join(format!("{name}.sheet")), sheet)?;
        }
        Ok(())
    };
    write().map_err(|e| format!("samples/captions: {e}"))
}

fn write_list(folder: &Path, name: &str, list: &[u8], sheet: &[u8]) -> io::Result<()> {
    fs::write(folder.join(format!("{name}.list")), list)?;
    fs::write(folder.join(format!("{name}.captions")), text(list, sheet))
}

#[cfg(test)]
mod tests {
    use super::*;
    use crate::damage;
    use crate::rng::Rng;

    /// By hand: three entries, `a` at 60, `\` and a byte above 127 at 61, an empty label at 63. Of the list,
    /// the code `a` stands at 18, its words `A b` at 19, the empty code and its empty words at 22.
    #[test]
    fn the_text_of_three_entries() {
        let sheet = lists::sheet(&[b"a", b"\\\xe4", b""]);
        let list = [
            &[2, 0, 18, 0, 1, 0, 19, 0, 3, 0, 22, 0, 0, 0, 22, 0, 0, 0][..],
            b"aA b",
        ]
        .concat();
        let expected = "captions 0 3\n0 L 19 3 A b\n1 S 61 2 \\x5c\\xe4\n2 L 22 0\n";
        assert_eq!(text(&list, &sheet), expected);
    }

    /// By hand: every byte at the limits of what stands as it is.
    #[test]
    fn the_bytes_that_stand_as_they_are() {
        let sheet = lists::sheet(&[b"\x00\x1f\x20\x7e\x7f\x80\xff\n", b" "]);
        let expected = "captions 0 2\n0 S 44 8 \\x00\\x1f ~\\x7f\\x80\\xff\\x0a\n1 S 52 1  \n";
        assert_eq!(text(&[0, 0], &sheet), expected);
    }

    #[test]
    fn the_text_of_a_refused_pair() {
        let none = lists::sheet(&[]);
        assert_eq!(text(&[0, 0], &none), "captions 0 0\n");
        assert_eq!(text(&[0], &none), "captions 16\n");
        assert_eq!(text(&[0], &none[..11]), "captions 7\n");
    }

    /// What the program reads at most: one byte more than the longest list, and the longest sheet, have.
    const READ_LIST: usize = lists::LONGEST + 1;
    const READ_SHEET: usize = 10_253;

    /// That it reads no more changes no text. A list above 131,070 bytes is refused, since its last pair
    /// ends at 65,535 + 65,535 at most; and so is its start of 131,071 bytes. A sheet above 10,252 bytes is
    /// refused, since its labels end at 12 + 16 x 256 + 24 x 256 at most; its start of 10,253 bytes has all
    /// that is checked before, 12 + 16 x 256 bytes, and ends elsewhere, too: the same number.
    #[test]
    fn what_is_not_read_changes_no_text() {
        let start = |bytes: &[u8], most: usize| bytes[..bytes.len().min(most)].to_vec();
        let same = |list: &[u8], sheet: &[u8]| {
            let read = text(&start(list, READ_LIST), &start(sheet, READ_SHEET));
            assert_eq!(text(list, sheet), read);
            read
        };
        let (list, sheet) = (german(), gates());
        let longest = lists::long().into_iter().map(|long| long.list);
        let longest = { longest }.find(|list| list.len() == lists::LONGEST);
        let longest = longest.expect("a list");
        assert_eq!(text(&longest, &sheet).lines().next(), Some("captions 0 5"));
        for length in [0, 1, 2, 131_070, 131_071, 131_072, 140_000] {
            let mut list = longest.clone();
            list.resize(length, b'w');
            same(&list, &sheet);
            let mut list = vec![0; 2];
            list.resize(length, 0);
            same(&list, &sheet);
        }
        let mut refused = Vec::new();
        let mut rng = Rng::new(9);
        for good in [damage::small(), damage::large(), damage::longer()].concat() {
            for length in [2572, 2573, 10_251, 10_252, 10_253, 10_254, 12_000, 70_000] {
                for _ in 0..20 {
                    let mut sheet = damage::random_fault(&mut rng, &good).applied(&good);
                    sheet.resize(length, 0);
                    refused.push(same(&list, &sheet));
                }
            }
        }
        for number in [6, 7, 8, 9, 11, 12] {
            assert!(refused.contains(&format!("captions {number}\n")));
        }
    }

    /// The samples are those that would be written, and the damaged ones have the number of their name.
    #[test]
    fn the_samples() {
        let folder = root().join("samples/captions");
        let stored = |file: String| fs::read(folder.join(file)).expect("a sample");
        assert_eq!(stored("gates.sheet".into()), gates());
        for (name, list) in [("german", german()), ("french", french())] {
            assert_eq!(stored(format!("{name}.list")), list);
            let text = text(&list, &gates()).into_bytes();
            assert_eq!(stored(format!("{name}.captions")), text);
        }
        for (name, list, sheet) in damaged() {
            let (number, _) = name.split_once('-').expect("a number");
            let text = text(&list, &sheet);
            assert_eq!(text, format!("captions {number}\n"));
            assert_eq!(stored(format!("damaged/{name}.list")), list);
            assert_eq!(stored(format!("damaged/{name}.sheet")), sheet);
            assert_eq!(
                stored(format!("damaged/{name}.captions")),
                text.into_bytes()
            );
        }
    }

    /// By hand, from the lists: where `german` has its words. Seven codes, so the text starts at 58: `g1`,
    /// 7 bytes of words, `ba`, 9, `bar`, 9, `bars`, 12, `bar`, 6, `g2`, none, no code, 9.
    #[test]
    fn the_german_sample() {
        let expected = "captions 0 5\n\
            0 L 60 7 S\\xc3\\xbcdtor\n\
            1 L 117 0\n\
            2 L 81 9 Getr\\xc3\\xa4nke\n\
            3 S 99 3 vip\n\
            4 L 117 9 f\\xc3\\xbcr alle\n";
        assert_eq!(text(&german(), &gates()), expected);
    }
}
