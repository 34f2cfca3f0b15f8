//! Cases worked out by hand from paper 01 and request S-2, in rules.txt: bytes of a script, and the text that
//! answers it. They hold the rules that stand around the Rust, so that no misreading stands on both sides.

pub struct Case {
    #[cfg_attr(not(test), expect(dead_code))]
    pub name: String,
    pub bytes: Vec<u8>,
    pub expected: String,
}

/// rules.txt: `=` and a name start a case, `#` a comment; after `:` are the script's bytes; every
/// other line is one of the text, with `{x}` for the bits of the float x (`{x+y}`, `{x-y}`).
/// `[n*t]` is t n times, for the indices from 0, and `[m..n*t]` from m; in t, `#` is the index, and in
/// the text `%` is `item_` and the index, in hex.
pub fn cases() -> Vec<Case> {
    let mut cases: Vec<Case> = Vec::new();
    for line in include_str!("rules.txt").lines() {
        if let Some(name) = line.strip_prefix("= ") {
            cases.push(Case {
                name: name.into(),
                bytes: Vec::new(),
                expected: String::new(),
            });
            continue;
        }
        if line.is_empty() || line.starts_with('#') {
            continue;
        }
        let case = cases.last_mut().expect("a name comes first");
        match line.strip_prefix(": ") {
            Some(words) => repeated(words)
                .split_whitespace()
                .for_each(|word| put(&mut case.bytes, word)),
            None => case.expected += &(text_line(line) + "\n"),
        }
    }
    cases
}

/// A word of a script: a byte; a float, known by a point or an e, or `inf`, `-inf`, `nan`; `h7` a u16, `w7`
/// a u32; `"a"` or `'61` a label, as text or in hex; `R2` or `R2,1,2` three lengths; `D1.0,2.0`
/// durations; `2*7` a word twice.
fn put(bytes: &mut Vec<u8>, word: &str) {
    if let Some((times, word)) = word.split_once('*') {
        for _ in 0..number(times) {
            put(bytes, word);
        }
    } else if let Some(text) = word.strip_prefix('"') {
        put_label(bytes, text.trim_end_matches('"').as_bytes());
    } else if let Some(hex) = word.strip_prefix('\'') {
        let pairs = (0..hex.len() / 2).map(|k| u8::from_str_radix(&hex[2 * k..2 * k + 2], 16));
        put_label(bytes, &pairs.collect::<Result<Vec<u8>, _>>().expect(hex));
    } else if let Some(n) = word.strip_prefix('h') {
        bytes.extend((number(n) as u16).to_le_bytes());
    } else if let Some(n) = word.strip_prefix('w') {
        bytes.extend(number(n).to_le_bytes());
    } else if let Some(lengths) = word.strip_prefix('R') {
        let lengths: Vec<u32> = lengths.split(',').map(number).collect();
        for k in 0..3 {
            bytes.extend((lengths[k % lengths.len()] as u16).to_le_bytes());
        }
    } else if let Some(durations) = word.strip_prefix('D') {
        let durations: Vec<&str> = durations.split_terminator(',').collect();
        bytes.extend((durations.len() as u16).to_le_bytes());
        durations.iter().for_each(|word| put(bytes, word));
    } else if word.contains(['.', 'e']) || word.ends_with("inf") || word == "nan" {
        bytes.extend(float(word).to_bits().to_le_bytes());
    } else {
        bytes.push(number(word) as u8);
    }
}

fn put_label(bytes: &mut Vec<u8>, label: &[u8]) {
    bytes.push(label.len() as u8);
    bytes.extend(label);
}

fn number(word: &str) -> u32 {
    word.parse().unwrap_or_else(|_| panic!("a number: {word}"))
}

/// A float, or the sum or the difference of two.
fn float(word: &str) -> f32 {
    let two = |sign, sum: fn(f32, f32) -> f32| {
        let (a, b) = word.split_once(sign)?;
        Some(sum(a.parse().ok()?, b.parse().ok()?))
    };
    let one = word.parse().ok();
    one.or_else(|| two('+', |a, b| a + b))
        .or_else(|| two('-', |a, b| a - b))
        .unwrap_or_else(|| panic!("a float: {word}"))
}

fn text_line(line: &str) -> String {
    replaced(&repeated(line), ['{', '}'], |x| {
        format!("{:08x}", float(x).to_bits())
    })
}

fn repeated(line: &str) -> String {
    replaced(line, ['[', ']'], |part| {
        let (times, text) = part.split_once('*').expect("a star");
        let (from, to) = times.split_once("..").unwrap_or(("0", times));
        let item = |index: u32| {
            text.replace('%', &hex(&format!("item_{index}")))
                .replace('#', &index.to_string())
        };
        (number(from)..number(to)).map(item).collect()
    })
}

fn hex(text: &str) -> String {
    text.bytes().map(|byte| format!("{byte:02x}")).collect()
}

/// The line with what stands between the two signs replaced.
fn replaced(line: &str, [open, close]: [char; 2], by: impl Fn(&str) -> String) -> String {
    let mut parts = line.split(open);
    let mut text = parts.next().unwrap_or_default().to_string();
    for part in parts {
        let (inside, after) = part.split_once(close).expect("a closing sign");
        text += &(by(inside) + after);
    }
    text
}

#[cfg(test)]
mod tests {
    use super::*;
    use crate::tally::Tally;
    use crate::trace::{Script, script_text};

    #[test]
    fn the_cases_are_answered_as_worked_out_by_hand() {
        for case in cases() {
            let text = script_text(Script::whole(&case.bytes), &mut Tally::default());
            let text = String::from_utf8(text).expect("text");
            for (line, expected) in text.lines().zip(case.expected.lines()) {
                assert_eq!(line, expected, "in case '{}'", case.name);
            }
            assert_eq!(text, case.expected, "in case '{}'", case.name);
        }
    }
}
