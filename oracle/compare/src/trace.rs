//! The trace program's output, as the Rust has it: a text, or a digest of each script.

use crate::call::{Call, Reader};
use crate::checked::{Answer, Checked, Slices, Updated};
use crate::tally::Tally;
use animato_core::{AnimationIntrospection, AnimationKind, PlaybackState};
use animato_timeline::TimelineState;
use std::io::Write;

/// The longest script.
pub const MOST_BYTES: usize = 65_536;

/// The first byte of the input.
pub const TEXT: u8 = 0;
pub const DIGESTS: u8 = 1;

/// What is written on an input.
pub fn answer(input: &[u8]) -> Vec<u8> {
    let mut out = Vec::new();
    let mut tally = Tally::default();
    let Some((&form, mut rest)) = input.split_first() else {
        return out;
    };
    if form > DIGESTS {
        return out;
    }
    let mut number = 0;
    while let Some(script) = next_script(&mut rest) {
        number += 1;
        let text = script_text(script, &mut tally);
        if form == TEXT {
            writeln!(out, "script {number}").expect("a vector takes all");
            out.extend(text);
        } else {
            out.extend(digest_line(&text));
        }
    }
    out
}

/// The bytes of a script, as far as they are there.
#[derive(Clone, Copy)]
pub struct Script<'a> {
    pub bytes: &'a [u8],
    /// Whether all of it is there.
    pub whole: bool,
}

impl<'a> Script<'a> {
    pub fn whole(bytes: &'a [u8]) -> Self {
        Script { bytes, whole: true }
    }
}

/// The next script of an input, as far as it is there.
pub fn next_script<'a>(rest: &mut &'a [u8]) -> Option<Script<'a>> {
    if rest.is_empty() {
        return None;
    }
    let length = rest
        .split_first_chunk()
        .map(|(length, bytes)| (u32::from_le_bytes(*length) as usize, bytes));
    let Some((length, bytes)) = length.filter(|&(length, _)| length <= MOST_BYTES) else {
        *rest = &[];
        return Some(Script {
            bytes: &[],
            whole: false,
        });
    };
    let (script, after) = bytes.split_at(length.min(bytes.len()));
    *rest = after;
    Some(Script {
        bytes: script,
        whole: script.len() == length,
    })
}

/// FNV-1a of 32 bits.
pub fn digest(bytes: &[u8]) -> u32 {
    bytes.iter().fold(0x811c_9dc5, |hash, &byte| {
        (hash ^ u32::from(byte)).wrapping_mul(0x0100_0193)
    })
}

pub fn digest_line(text: &[u8]) -> Vec<u8> {
    format!("{:08x}\n", digest(text)).into_bytes()
}

/// What is written on a script, its first line left out.
pub fn script_text(script: Script, tally: &mut Tally) -> Vec<u8> {
    let mut running = Running::new(tally);
    running.rest(script);
    running.text
}

/// A script that runs, call by call, and what is written on it.
pub struct Running<'a> {
    pub timeline: Checked,
    pub text: Vec<u8>,
    calls: u32,
    tally: &'a mut Tally,
}

impl<'a> Running<'a> {
    pub fn new(tally: &'a mut Tally) -> Self {
        Running {
            timeline: Checked::new(),
            text: Vec::new(),
            calls: 0,
            tally,
        }
    }

    pub fn call(&mut self, call: &Call) {
        let timeline = &mut self.timeline;
        self.calls += 1;
        self.tally.before(timeline, call);
        let answer = timeline.call(call);
        self.tally.after(timeline, call, &answer);
        call_lines(self.calls, call, timeline, &answer, &mut self.text);
    }

    /// What comes after the calls that were made.
    pub fn rest(&mut self, script: Script) {
        let mut rest = Reader(script.bytes);
        while !rest.at_end() {
            match rest.call() {
                Some(call) => self.call(&call),
                None => return self.cut(),
            }
        }
        if !script.whole {
            self.cut();
        }
    }

    fn cut(&mut self) {
        self.tally.cut += 1;
        self.text.extend(b"cut\n");
    }
}

fn call_lines(n: u32, call: &Call, timeline: &mut Checked, answer: &Answer, out: &mut Vec<u8>) {
    let twins = &mut timeline.twins;
    let (marks, fired) = twins.marks();
    decimal(out, n);
    field(out, call.byte());
    field(out, answer.refusal);
    letter(out, state_letter(twins.state()));
    float(out, twins.elapsed());
    float(out, twins.time_scale());
    field(out, fired);
    field(out, twins.entries().len() as u32);
    float(out, twins.base());
    float(out, twins.run());
    float(out, twins.progress());
    out.push(b' ');
    if marks.is_empty() {
        out.push(b'-');
    }
    out.extend(marks.iter().map(|&mark| b'0' + u8::from(mark)));
    out.push(b'\n');
    if let Some(slices) = &answer.slices {
        rows_line(slices, out);
    }
    if let Some(update) = &answer.update {
        update_line(update, out);
    }
    if matches!(call.byte(), 8 | 9 | 16..=20) {
        entries_line(timeline, out);
    }
    if let Some(seen) = &answer.introspect {
        introspect_line(seen, out);
    }
    if let Some(delay) = answer.delay {
        out.extend(b"  delay");
        float(out, delay);
        out.push(b'\n');
    }
    if let Some(items) = &answer.items {
        out.extend(b"  items");
        for &(refusal, cursor) in items {
            field(out, refusal);
            out.push(b':');
            hex(out, cursor);
        }
        out.push(b'\n');
    }
}

fn rows_line(slices: &Slices, out: &mut Vec<u8>) {
    let lengths = [&slices.amounts, &slices.places].map(Vec::len);
    let longest = lengths.into_iter().fold(slices.kinds.len(), usize::max);
    out.extend(b"  rows");
    for index in 0..longest {
        out.push(b' ');
        match slices.kinds.get(index) {
            Some(&kind) => decimal(out, kind.into()),
            None => out.push(b'.'),
        }
        for floats in [&slices.amounts, &slices.places] {
            out.push(b':');
            match floats.get(index) {
                Some(&x) => hex(out, x),
                None => out.push(b'.'),
            }
        }
    }
    out.push(b'\n');
}

fn update_line(update: &Updated, out: &mut Vec<u8>) {
    out.extend(b"  update");
    field(out, update.running);
    field(out, update.completed);
    field(out, update.listed as u32);
    for &byte in &update.list {
        field(out, byte);
    }
    out.push(b'\n');
}

fn entries_line(timeline: &Checked, out: &mut Vec<u8>) {
    out.extend(b"  entries");
    for entry in timeline.twins.entries() {
        float(out, entry.start);
        out.push(b':');
        hex(out, entry.duration);
        out.push(b':');
        if entry.label.is_empty() {
            out.push(b'-');
        }
        for byte in &entry.label {
            hex_digit(out, byte >> 4);
            hex_digit(out, byte & 15);
        }
    }
    out.push(b'\n');
}

fn introspect_line(seen: &AnimationIntrospection, out: &mut Vec<u8>) {
    out.extend(b"  introspect");
    letter(out, kind_letter(seen.kind));
    float(out, seen.progress);
    float(out, seen.elapsed);
    match seen.duration {
        Some(duration) => float(out, duration),
        None => letter(out, b'-'),
    }
    letter(out, playback_letter(seen.state));
    out.push(b'\n');
}

fn state_letter(state: TimelineState) -> u8 {
    match state {
        TimelineState::Idle => b'I',
        TimelineState::Playing => b'P',
        TimelineState::Paused => b'H',
        TimelineState::Completed => b'C',
    }
}

fn playback_letter(state: PlaybackState) -> u8 {
    match state {
        PlaybackState::Idle => b'I',
        PlaybackState::Playing => b'P',
        PlaybackState::Paused => b'H',
        PlaybackState::Complete => b'C',
    }
}

fn kind_letter(kind: AnimationKind) -> u8 {
    match kind {
        AnimationKind::Timeline => b'T',
        AnimationKind::Group => b'G',
        _ => b'?',
    }
}

// Fields: each has a space before it.

fn letter(out: &mut Vec<u8>, letter: u8) {
    out.extend([b' ', letter]);
}

fn field(out: &mut Vec<u8>, number: impl Into<u32>) {
    out.push(b' ');
    decimal(out, number.into());
}

fn float(out: &mut Vec<u8>, x: f32) {
    out.push(b' ');
    hex(out, x);
}

fn decimal(out: &mut Vec<u8>, number: u32) {
    if number > 9 {
        decimal(out, number / 10);
    }
    out.push(b'0' + (number % 10) as u8);
}

/// A float's bits: "zeros of either sign agree and NaN agrees with NaN."
fn hex(out: &mut Vec<u8>, x: f32) {
    let bits = match x {
        0.0 => 0,
        _ if x.is_nan() => 0x7fc0_0000,
        _ => x.to_bits(),
    };
    for place in (0..8).rev() {
        hex_digit(out, (bits >> (4 * place) & 15) as u8);
    }
}

fn hex_digit(out: &mut Vec<u8>, digit: u8) {
    out.push(b"0123456789abcdef"[usize::from(digit)]);
}

#[cfg(test)]
mod tests {
    use super::*;

    /// `pause` on the empty timeline.
    const PAUSED: &[u8] = b"1 1 0 I 00000000 3f800000 0 0 00000000 00000000 3f800000 -\n";

    fn text(input: &[u8]) -> String {
        String::from_utf8(answer(input)).expect("text")
    }

    fn lines(parts: &[&[u8]]) -> String {
        String::from_utf8(parts.concat()).expect("text")
    }

    #[test]
    fn an_input_without_a_form_is_not_answered() {
        assert_eq!(text(&[]), "");
        assert_eq!(text(&[2, 1, 0, 0, 0, 1]), "");
        assert_eq!(text(&[0]), "");
        assert_eq!(text(&[1]), "");
    }

    #[test]
    fn scripts_are_numbered_and_start_anew() {
        let expected = [b"script 1\n", PAUSED, b"script 2\n", b"script 3\n", PAUSED];
        let input = [0, 1, 0, 0, 0, 1, 0, 0, 0, 0, 1, 0, 0, 0, 1];
        assert_eq!(text(&input), lines(&expected));
    }

    #[test]
    fn an_input_that_ends_early_is_cut() {
        assert_eq!(text(&[0, 1, 0, 0]), "script 1\ncut\n");
        assert_eq!(text(&[0, 1, 0, 0, 0]), "script 1\ncut\n");
        let expected = lines(&[b"script 1\n", PAUSED, b"cut\n"]);
        assert_eq!(text(&[0, 2, 0, 0, 0, 1]), expected);
        assert_eq!(text(&[0, 3, 0, 0, 0, 1, 0]), expected);
    }

    #[test]
    fn the_longest_script() {
        let mut input = vec![0, 0, 0, 1, 0, 1, 21];
        input.resize(5 + 65_536, 1);
        input.extend([1, 0, 0, 0, 1]);
        let expected = [b"script 1\n", PAUSED, b"cut\n", b"script 2\n", PAUSED];
        assert_eq!(text(&input), lines(&expected));
        input[1] = 1;
        assert_eq!(text(&input), "script 1\ncut\n");
    }

    #[test]
    fn digests() {
        assert_eq!(digest_line(b"foobar"), b"bf9cf968\n");
        assert_eq!(text(&[1, 0, 0, 0, 0]), "811c9dc5\n");
        let cut = String::from_utf8(digest_line(b"cut\n")).expect("text");
        assert_eq!(text(&[1, 1, 0, 0, 0, 99, 0]), cut.clone() + &cut);
        let whole = [PAUSED, b"cut\n"].concat();
        assert_eq!(answer(&[1, 2, 0, 0, 0, 1, 255]), digest_line(&whole));
    }
}
