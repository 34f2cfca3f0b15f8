//! The comparison of `trace`: random scripts, the Rust's and the port's answers to them, and of a
//! difference the smallest script found that shows it.

use crate::call::{Call, Item, Lent, NAMES, Place};
use crate::port::{self, Port};
use crate::rng::Rng;
use crate::rules;
use crate::scripts::{self, Answered, Kinds, Script};
use crate::tally::Tally;
use crate::trace::{self, DIGESTS, Running, TEXT};
use std::fs;
use std::iter;
use std::ops::Range;
use std::thread;

pub const PROGRAM: &str = "trace";

/// Scripts in one run of the program.
const BATCH: u64 = 2000;

/// One call in so many is made on more than 64 entries; a little more than a tenth.
const LONG_SHARE: u64 = 9;

pub struct Options {
    pub seed: u64,
    pub scripts: u64,
    pub least_calls: u64,
    pub kinds: Kinds,
    pub port: Port,
}

/// Compares digests of random scripts, and of the first ones the whole text. At least `least_calls`
/// calls must have been compared, and at least one in ten thousand of them of each kind; and a tenth of
/// all must have been made on more than 64 entries.
pub fn compare(options: &Options) -> Result<(), String> {
    let mut maker = Maker {
        rng: Rng::new(options.seed),
        tally: Tally::default(),
    };
    let mut next = maker.batch(options);
    if let Some(first) = &next {
        compare_text(&first.scripts, options)?;
    }
    while let Some(batch) = next {
        // The port answers a batch while the next one is made.
        next = thread::scope(|scope| {
            let compared = scope.spawn(|| compare_batch(&batch, options));
            let next = maker.batch(options);
            compared.join().expect("it ends").map(|()| next)
        })?;
    }
    println!("{PROGRAM}: seed {}, no differences", options.seed);
    print!("{}", maker.tally);
    verdict(&maker.tally, options)
}

/// Scripts, their digests by the Rust, and how the input ends after them.
struct Batch {
    scripts: Vec<Script>,
    expected: Vec<Vec<u8>>,
    end: End,
}

struct Maker {
    rng: Rng,
    tally: Tally,
}

impl Maker {
    /// The next batch, as long as there are scripts to be compared.
    fn batch(&mut self, options: &Options) -> Option<Batch> {
        let count = BATCH.min(options.scripts - self.tally.scripts);
        if count == 0 {
            return None;
        }
        let made: Vec<Answered> = (0..count).map(|_| self.script(options.kinds)).collect();
        let expected = made.iter().map(|made| trace::digest_line(&made.text));
        let expected = expected.collect();
        let scripts: Vec<Script> = made.into_iter().map(|made| made.script).collect();
        let end = damaged_end(&mut self.rng, &scripts);
        Some(Batch {
            scripts,
            expected,
            end,
        })
    }

    /// A script, on a long panel where too few calls were made on such.
    fn script(&mut self, kinds: Kinds) -> Answered {
        let long = self.tally.long_calls() * LONG_SHARE <= self.tally.calls();
        self.tally.scripts += 1;
        scripts::random(&mut self.rng, kinds, long, &mut self.tally)
    }
}

fn verdict(tally: &Tally, options: &Options) -> Result<(), String> {
    let least = options.least_calls;
    if tally.calls() < least {
        return Err(format!(
            "{PROGRAM}: {} calls, fewer than {least}",
            tally.calls()
        ));
    }
    for (kind, name) in NAMES.iter().enumerate() {
        if options.kinds.has(kind) && tally.calls_of(kind) < least / 10_000 {
            return Err(format!("{PROGRAM}: too few calls of {name}"));
        }
    }
    let (long, calls) = (tally.long_calls(), tally.calls());
    if options.kinds.make_entries() && long * 10 < calls {
        return Err(format!(
            "{PROGRAM}: {long} of {calls} calls on more than 64 entries, fewer than a tenth"
        ));
    }
    Ok(())
}

fn compare_batch(batch: &Batch, options: &Options) -> Result<(), String> {
    let mut bytes = input(DIGESTS, &batch.scripts);
    bytes.extend(&batch.end.bytes);
    let output = options.port.run(PROGRAM, &bytes)?;
    let mut lines = output.split_inclusive(|&byte| byte == b'\n');
    for (script, expected) in batch.scripts.iter().zip(&batch.expected) {
        if lines.next() != Some(expected) {
            return Err(shown(&smallest(script, options)?, options)?);
        }
    }
    if lines.collect::<Vec<_>>().concat() != batch.end.expected {
        return Err(format!(
            "{PROGRAM}: an input that ends so: {:02x?}",
            batch.end.bytes
        ));
    }
    Ok(())
}

/// The whole text, where the digests alone are compared otherwise.
fn compare_text(batch: &[Script], options: &Options) -> Result<(), String> {
    let bytes = input(TEXT, batch);
    let output = options.port.run(PROGRAM, &bytes)?;
    if output == trace::answer(&bytes) {
        return Ok(());
    }
    for script in batch {
        if differ(std::slice::from_ref(script), options)?[0] {
            return Err(shown(&smallest(script, options)?, options)?);
        }
    }
    Err(format!("{PROGRAM}: the texts differ and no digest does"))
}

/// The end of an input that is cut, and the line that answers it.
struct End {
    bytes: Vec<u8>,
    expected: Vec<u8>,
}

fn damaged_end(rng: &mut Rng, batch: &[Script]) -> End {
    let script = &batch[rng.below(batch.len() as u32) as usize];
    let mut bytes = framed(&script.bytes());
    match rng.below(4) {
        0 => bytes.truncate(rng.below(bytes.len() as u32) as usize),
        1 => bytes.truncate(rng.below(4) as usize),
        2 => bytes[..4].copy_from_slice(&rng.pick(&[65_537u32, 65_536, u32::MAX]).to_le_bytes()),
        _ => bytes.clear(),
    }
    let expected = trace::answer(&[&[DIGESTS], bytes.as_slice()].concat());
    End { bytes, expected }
}

fn framed(script: &[u8]) -> Vec<u8> {
    let length = (script.len() as u32).to_le_bytes();
    [&length, script].concat()
}

fn input(form: u8, batch: &[Script]) -> Vec<u8> {
    let mut bytes = vec![form];
    for script in batch {
        bytes.extend(framed(&script.bytes()));
    }
    bytes
}

/// The Rust's digest.
fn digest(script: &Script) -> Vec<u8> {
    let bytes = script.bytes();
    trace::digest_line(&trace::script_text(
        trace::Script::whole(&bytes),
        &mut Tally::default(),
    ))
}

/// Which of the scripts are answered differently.
fn differ(batch: &[Script], options: &Options) -> Result<Vec<bool>, String> {
    let expected: Vec<Vec<u8>> = batch.iter().map(digest).collect();
    let output = options.port.run(PROGRAM, &input(DIGESTS, batch))?;
    let mut lines = output.split_inclusive(|&byte| byte == b'\n');
    Ok(expected
        .iter()
        .map(|line| lines.next() != Some(line))
        .collect())
}

fn shown(script: &Script, options: &Options) -> Result<String, String> {
    let bytes = input(TEXT, std::slice::from_ref(script));
    let port = options.port.run(PROGRAM, &bytes)?;
    let rust = trace::answer(&bytes);
    let calls: String = script
        .calls
        .iter()
        .map(|call| format!("  {call:?}\n"))
        .collect();
    Ok(format!(
        "{PROGRAM}: the answers to this script differ\n{calls}input, in hex:\n{}\nRust:\n{}port:\n{}",
        bytes
            .iter()
            .map(|byte| format!("{byte:02x}"))
            .collect::<String>(),
        String::from_utf8_lossy(&rust),
        String::from_utf8_lossy(&port)
    ))
}

// Of a difference the smallest script

fn smallest(script: &Script, options: &Options) -> Result<Script, String> {
    let mut script = script.clone();
    let mut size = script.calls.len();
    while size > 0 {
        match first_different(without(&script, size), options)? {
            Some(smaller) => script = smaller,
            None => size /= 2,
        }
        size = size.min(script.calls.len());
    }
    while let Some(simpler) = first_different(simplified(&script), options)? {
        script = simpler;
    }
    Ok(script)
}

fn first_different(tried: Vec<Script>, options: &Options) -> Result<Option<Script>, String> {
    let differs = differ(&tried, options)?;
    let first = differs.iter().position(|&different| different);
    Ok(first.map(|index| tried[index].clone()))
}

/// The script without `size` calls in a row, and without its tail.
fn without(script: &Script, size: usize) -> Vec<Script> {
    let mut tried = Vec::new();
    if !script.tail.is_empty() {
        tried.push(Script {
            tail: Vec::new(),
            ..script.clone()
        });
    }
    for from in (0..script.calls.len()).step_by(size) {
        let mut calls = script.calls.clone();
        calls.drain(from..calls.len().min(from + size));
        tried.push(Script {
            calls,
            ..script.clone()
        });
    }
    tried
}

/// The script with one call made simpler.
fn simplified(script: &Script) -> Vec<Script> {
    let mut tried = Vec::new();
    for (index, call) in script.calls.iter().enumerate() {
        for simpler in simpler(call) {
            if simpler.bytes() != call.bytes() {
                let mut calls = script.calls.clone();
                calls[index] = simpler;
                tried.push(Script {
                    calls,
                    ..script.clone()
                });
            }
        }
    }
    tried
}

/// The call with one operand replaced by a plainer one: shorter slices, list and labels, an item
/// less, 0 or 1 for another float. So a script can be made simpler only so often.
fn simpler(call: &Call) -> Vec<Call> {
    let mut tried = Vec::new();
    let mut each = |change: &dyn Fn(&mut Call)| {
        let mut other = call.clone();
        change(&mut other);
        tried.push(other);
    };
    for length in shorter(longest(call)) {
        each(&|call| {
            lent_of(call)
                .into_iter()
                .for_each(|lent| *lent = equal(length))
        });
    }
    if let Call::Update(update) = call {
        for length in shorter(update.list) {
            each(&|call| {
                if let Call::Update(update) = call {
                    update.list = length;
                }
            });
        }
    }
    let length = length_of(&mut call.clone());
    for size in shorter(length as u16).map(|left| length - usize::from(left)) {
        for from in (0..length).step_by(size) {
            each(&|call| remove(call, from..length.min(from + size)));
        }
    }
    each(&|call| {
        labels_of(call)
            .into_iter()
            .for_each(|label| label.truncate(1))
    });
    each(&|call| labels_of(call).into_iter().for_each(Vec::clear));
    for index in 0..floats_of(&mut call.clone()).len() {
        for plain in [0.0, 1.0] {
            let bits = floats_of(&mut call.clone())[index].to_bits();
            if bits != 0 && bits != 1f32.to_bits() {
                each(&|call| *floats_of(call)[index] = plain);
            }
        }
    }
    if let Call::Add(add) | Call::AddBoxed(add) = call
        && add.at != Place::Start
    {
        each(&|call| {
            if let Call::Add(add) | Call::AddBoxed(add) = call {
                add.at = Place::Start;
            }
        });
    }
    tried
}

/// Shorter lengths: 0, the half, and ever less taken away.
fn shorter(length: u16) -> impl Iterator<Item = u16> {
    let less = (0..u16::BITS).map(move |k| length >> k);
    less.take_while(|&less| less > 0)
        .map(move |less| length - less)
}

/// Three slices of equal length.
fn equal(length: u16) -> Lent {
    Lent {
        kinds: length,
        amounts: length,
        places: length,
    }
}

/// The longest of the slices that a call is lent.
fn longest(call: &Call) -> u16 {
    let lent = lent_of(&mut call.clone()).copied();
    lent.map_or(0, |lent| lent.kinds.max(lent.amounts).max(lent.places))
}

fn lent_of(call: &mut Call) -> Option<&mut Lent> {
    match call {
        Call::Play(lent)
        | Call::Reset(lent)
        | Call::Reverse(lent)
        | Call::Seek(_, lent)
        | Call::SeekAbs(_, lent)
        | Call::Preview(_, lent) => Some(lent),
        Call::Update(update) => Some(&mut update.lent),
        _ => None,
    }
}

fn labels_of(call: &mut Call) -> Vec<&mut Vec<u8>> {
    match call {
        Call::Add(add) | Call::AddBoxed(add) => match &mut add.at {
            Place::Label(name) => vec![&mut add.label, name],
            _ => vec![&mut add.label],
        },
        Call::Sequence(items) => items
            .iter_mut()
            .filter_map(|item| match item {
                Item::Then(label, _) | Item::ThenFor(label, _, _) => Some(label),
                Item::Gap(_) => None,
            })
            .collect(),
        _ => Vec::new(),
    }
}

fn floats_of(call: &mut Call) -> Vec<&mut f32> {
    match call {
        Call::Update(update) => vec![&mut update.dt],
        Call::Seek(x, _) | Call::SeekAbs(x, _) | Call::Preview(x, _) | Call::SetTimeScale(x) => {
            vec![x]
        }
        Call::Add(add) | Call::AddBoxed(add) => match &mut add.at {
            Place::Absolute(secs) | Place::Offset(secs) => vec![secs, &mut add.duration],
            _ => vec![&mut add.duration],
        },
        Call::Stagger(delay, durations) => {
            let mut floats = vec![delay];
            floats.extend(durations);
            floats
        }
        Call::GroupParallel(durations)
        | Call::GroupSequence(durations)
        | Call::GroupStagger(_, durations) => durations.iter_mut().collect(),
        Call::Sequence(items) => items
            .iter_mut()
            .flat_map(|item| match item {
                Item::Then(_, x) | Item::Gap(x) => vec![x],
                Item::ThenFor(_, own, x) => vec![own, x],
            })
            .collect(),
        _ => Vec::new(),
    }
}

/// How many durations, items or replies a call has.
fn length_of(call: &mut Call) -> usize {
    match call {
        Call::Update(update) => update.replies.len(),
        Call::Sequence(items) => items.len(),
        Call::Stagger(_, durations)
        | Call::GroupParallel(durations)
        | Call::GroupSequence(durations)
        | Call::GroupStagger(_, durations) => durations.len(),
        _ => 0,
    }
}

fn remove(call: &mut Call, part: Range<usize>) {
    match call {
        Call::Update(update) => drop(update.replies.drain(part)),
        Call::Sequence(items) => drop(items.drain(part)),
        Call::Stagger(_, durations)
        | Call::GroupParallel(durations)
        | Call::GroupSequence(durations)
        | Call::GroupStagger(_, durations) => drop(durations.drain(part)),
        _ => {}
    }
}

// The sample

/// Random scripts of the sample: short ones, then one on a long panel for each mode, then one on as many
/// entries as there can be.
const SAMPLED: usize = 306;
const LONG_SAMPLED: usize = 300;
const FULL_SAMPLED: usize = 305;

/// Adds to the sample the cases of rules.txt that it does not have, and random scripts up to their
/// number; and writes the Rust's answers to all of it, to where `rt` replays them. A script that is
/// stored stays, whatever becomes of the cases and of the random ones.
pub fn write_sample() -> Result<(), String> {
    let folder = port::root().join("crates").join(PROGRAM);
    let cases: Vec<Vec<u8>> = rules::cases().into_iter().map(|case| case.bytes).collect();
    let mut scripts = stored(&fs::read(folder.join("stdin")).unwrap_or_default());
    let random = scripts.iter().filter(|&script| !cases.contains(script));
    let made: Vec<Vec<u8>> = (random.count()..SAMPLED).map(sampled).collect();
    for case in cases {
        if !scripts.contains(&case) {
            scripts.push(case);
        }
    }
    scripts.extend(made);
    let framed = scripts.iter().flat_map(|script| framed(script));
    let bytes: Vec<u8> = iter::once(TEXT).chain(framed).collect();
    let text = trace::answer(&bytes);
    fs::write(folder.join("stdin"), &bytes).map_err(|e| e.to_string())?;
    fs::write(folder.join("stdout"), &text).map_err(|e| e.to_string())?;
    println!(
        "{PROGRAM}: a sample of {} scripts, {} bytes of text",
        scripts.len(),
        text.len()
    );
    Ok(())
}

/// The scripts of an input.
fn stored(input: &[u8]) -> Vec<Vec<u8>> {
    let mut rest = input.get(1..).unwrap_or_default();
    let next = || trace::next_script(&mut rest).map(|script| script.bytes.to_vec());
    iter::from_fn(next).collect()
}

/// The k-th random script of the sample: the first that its seed gives with a text that is not long and
/// with what it is there for. On a long panel it is the first calls of one.
fn sampled(k: usize) -> Vec<u8> {
    let mut rng = Rng::new(k as u64);
    let most = match k {
        0..LONG_SAMPLED => 2000,
        LONG_SAMPLED..FULL_SAMPLED => 8000,
        _ => 24_000,
    };
    loop {
        let long = k >= LONG_SAMPLED;
        let made = scripts::random(&mut rng, Kinds::all(), long, &mut Tally::default());
        let script = if long {
            first_calls(&made.script, most)
        } else {
            made.script.bytes()
        };
        let mut tally = Tally::default();
        let text = trace::script_text(trace::Script::whole(&script), &mut tally);
        let right = match k.checked_sub(LONG_SAMPLED) {
            None => text.len() <= most,
            Some(mode) if k < FULL_SAMPLED => tally.long_updates()[mode] > 0,
            Some(_) => tally.full_calls() > 0 && tally.long_updates() != [0; 5],
        };
        if right {
            return script;
        }
    }
}

/// The first calls of a script, up to a length of their text.
fn first_calls(script: &Script, most: usize) -> Vec<u8> {
    let mut tally = Tally::default();
    let mut running = Running::new(&mut tally);
    let calls = script.calls.iter().take_while(|call| {
        running.call(call);
        running.text.len() <= most
    });
    calls.flat_map(Call::bytes).collect()
}
