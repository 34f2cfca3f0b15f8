//! What the Rust shows of a timeline in its Debug output alone: labels, starts, durations, marks, and
//! whether the whole-run completion has fired.

use animato_timeline::Timeline;
use std::fmt::{self, Write};

#[derive(Clone, PartialEq, Debug)]
pub struct Entry {
    pub label: Vec<u8>,
    pub start: f32,
    pub duration: f32,
    pub completed: bool,
}

/// A label has any bytes, the Rust's is a string: each byte stands as the character of its number, so
/// labels are equal where their bytes are, and ASCII stays itself (`item_0`).
pub fn image(label: &[u8]) -> String {
    label.iter().map(|&byte| char::from(byte)).collect()
}

pub fn entries(timeline: &Timeline) -> Vec<Entry> {
    let text = format!("{timeline:?}");
    let mut rest = Scan(&text);
    rest.expect("Timeline { entries: [");
    let mut entries = Vec::new();
    while rest.skip("TimelineEntry { label: ") {
        let label = rest.quoted();
        rest.expect(", start_at: ");
        let start = rest.number();
        rest.expect(", duration: ");
        let duration = rest.number();
        rest.expect(", completed: ");
        let completed = rest.flag();
        rest.expect(" }");
        rest.skip(", ");
        entries.push(Entry {
            label,
            start,
            duration,
            completed,
        });
    }
    rest.expect("], elapsed: ");
    entries
}

/// The marks, and whether the whole-run completion has fired. Of all the output only these flags are
/// kept, in a string that can serve again.
pub fn marks(timeline: &Timeline, kept: &mut String) -> (Vec<bool>, bool) {
    kept.clear();
    let mut flags = Flags {
        seen: Seen::Other,
        kept,
    };
    write!(flags, "{timeline:?}").expect("flags take all");
    let mut marks: Vec<bool> = kept.bytes().map(|flag| flag == b't').collect();
    let fired = marks.pop().expect("the last flag");
    assert_eq!(marks.len(), timeline.entry_count());
    (marks, fired)
}

/// Keeps the first letters of the flags. A field's name, what is between, and a flag are each written
/// as one part; a label stands in quotes, which are parts of their own.
struct Flags<'a> {
    seen: Seen,
    kept: &'a mut String,
}

#[derive(PartialEq)]
enum Seen {
    Name,
    Colon,
    Other,
}

impl Write for Flags<'_> {
    fn write_str(&mut self, part: &str) -> fmt::Result {
        self.seen = match part {
            "completed" | "complete_fired" => Seen::Name,
            ": " if self.seen == Seen::Name => Seen::Colon,
            "true" | "false" if self.seen == Seen::Colon => {
                self.kept.push_str(&part[..1]);
                Seen::Other
            }
            _ => Seen::Other,
        };
        Ok(())
    }
}

struct Scan<'a>(&'a str);

impl Scan<'_> {
    fn skip(&mut self, word: &str) -> bool {
        let rest = self.0.strip_prefix(word);
        self.0 = rest.unwrap_or(self.0);
        rest.is_some()
    }

    fn expect(&mut self, word: &str) {
        assert!(
            self.skip(word),
            "Debug output: {word:?} is not at {:?}",
            self.0
        );
    }

    fn until(&mut self, ends: &[char]) -> &str {
        let (word, rest) = self.0.split_at(self.0.find(ends).unwrap_or(self.0.len()));
        self.0 = rest;
        word
    }

    fn number(&mut self) -> f32 {
        self.until(&[',', ' ']).parse().expect("a float")
    }

    fn flag(&mut self) -> bool {
        self.until(&[',', ' ']).parse().expect("a flag")
    }

    fn next(&mut self) -> char {
        let c = self.0.chars().next().expect("a character");
        self.0 = &self.0[c.len_utf8()..];
        c
    }

    /// A string in quotes, as the bytes of its label.
    fn quoted(&mut self) -> Vec<u8> {
        self.expect("\"");
        let mut label = Vec::new();
        loop {
            let c = match self.next() {
                '"' => return label,
                '\\' => self.escaped(),
                c => c,
            };
            label.push(u8::try_from(c).expect("the image of a byte"));
        }
    }

    fn escaped(&mut self) -> char {
        match self.next() {
            't' => '\t',
            'r' => '\r',
            'n' => '\n',
            '0' => '\0',
            'u' => {
                self.expect("{");
                let code = u32::from_str_radix(self.until(&['}']), 16).expect("a code");
                self.expect("}");
                char::from_u32(code).expect("a character")
            }
            c => c,
        }
    }
}

#[cfg(test)]
mod tests {
    use super::*;
    use crate::leaf::Leaf;
    use animato_core::Update;
    use animato_timeline::At;
    use std::sync::Arc;

    #[test]
    fn every_byte_comes_back_from_a_label() {
        let labels: Vec<Vec<u8>> = (0..=255).map(|byte| vec![byte, b'"', byte]).collect();
        let timeline = labels.iter().fold(Timeline::new(), |timeline, label| {
            timeline.add(image(label), Leaf::new(1.5), At::End)
        });
        let read = entries(&timeline);
        assert!(labels.iter().eq(read.iter().map(|entry| &entry.label)));
        assert_eq!((read[2].start, read[2].duration), (3.0, 1.5));
    }

    #[test]
    fn marks_are_told_from_labels() {
        let labels = [
            "completed",
            "completed: true",
            ": ",
            "true",
            "complete_fired",
        ];
        let marks_at = |secs: f32| {
            let (mut timeline, mut records) = (Timeline::new(), Vec::new());
            for label in labels {
                let leaf = Leaf::new(1.0);
                records.push(Arc::clone(&leaf.record));
                timeline = timeline.add(label, leaf, At::End);
                timeline = timeline.on_entry_complete(label, || ());
            }
            timeline.play();
            records.iter().for_each(|record| record.clear());
            timeline.update(secs);
            marks(&timeline, &mut String::new())
        };
        assert_eq!(
            marks_at(2.5),
            (vec![true, true, false, false, false], false)
        );
        assert_eq!(marks_at(5.0), (vec![true; 5], true));
    }

    #[test]
    fn odd_floats_come_back() {
        for bits in [
            0x0000_0001,
            0x007f_ffff,
            0x3dcc_cccd,
            0x7f7f_ffff,
            0x7f80_0000,
        ] {
            let x = f32::from_bits(bits);
            let timeline = Timeline::new().add("", Leaf::new(x), At::Absolute(x));
            let read = &entries(&timeline)[0];
            assert_eq!(
                (read.start.to_bits(), read.duration.to_bits()),
                (bits, bits)
            );
        }
    }
}
