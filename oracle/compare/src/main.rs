//! Runs the port against the Rust: see README.md.

mod answer;
mod bench;
mod call;
mod caption_bench;
mod caption_cases;
#[cfg(test)]
mod caption_mistakes;
mod caption_tally;
mod caption_text;
mod captions;
mod cases;
mod checked;
mod damage;
mod debug;
mod door;
mod floats;
mod leaf;
mod lists;
mod outputs;
mod pipe;
mod port;
mod reader;
mod record;
mod rng;
mod rules;
mod scripts;
#[cfg(test)]
#[path = "../../sha256.rs"]
mod sha256;
mod sheet_tally;
mod sheets;
mod tally;
mod trace;
mod traces;
mod twins;
mod venue;

use port::Port;
use scripts::Kinds;
use std::io::{self, Read, Write};
use std::path::PathBuf;
use std::process::ExitCode;

const USAGE: &str = "usage:
  oracle floats [--seed N] [--cases N] [--least N]
  oracle sample
  oracle trace | trace-text | trace-digests
  oracle traces [--seed N] [--scripts N] [--least-calls N] [--calls KINDS] [--port COMMAND]
  oracle trace-sample
  oracle sheets [--seed N] [--sheets N] [--least N] [--port COMMAND]
  oracle sheet-answers
  oracle sheet-sample
  oracle doors [--seed N] [--inputs N] [--least N] [--port COMMAND]
  oracle outputs [--seed N] [--runs N] [--least N] [--launcher FILE] [--panel FILE]
  oracle door-log
  oracle door-bench [--calls N] [--rounds N]
  oracle captions [--seed N] [--cases N] [--least N] [--port COMMAND]
  oracle caption-answers
  oracle caption-sample
  oracle captions-text LIST SHEET
  oracle caption-samples
  oracle caption-bench [--calls N] [--rounds N] [--port COMMAND]
  oracle caption-calls
  oracle bench
KINDS: all, no-builders, no-update, or call bytes with commas between them";

fn main() -> ExitCode {
    let words: Vec<String> = std::env::args().skip(1).collect();
    let words: Vec<&str> = words.iter().map(String::as_str).collect();
    match run(&words) {
        Ok(()) => ExitCode::SUCCESS,
        Err(why) => {
            eprintln!("{why}");
            ExitCode::FAILURE
        }
    }
}

fn run(words: &[&str]) -> Result<(), String> {
    let (command, words) = words.split_first().ok_or(USAGE)?;
    match *command {
        "floats" => {
            let options = Options::read(words, &["--seed", "--cases", "--least"])?;
            floats::compare(
                options.number("--seed", 1)?,
                options.number("--cases", 1_500_000)?,
                options.number("--least", 0)?,
            )
        }
        "sample" => Options::read(words, &[]).and_then(|_| floats::write_sample()),
        "trace" => Options::read(words, &[]).and_then(|_| write_trace(None)),
        "trace-text" => Options::read(words, &[]).and_then(|_| write_trace(Some(trace::TEXT))),
        "trace-digests" => {
            Options::read(words, &[]).and_then(|_| write_trace(Some(trace::DIGESTS)))
        }
        "traces" => {
            let known = ["--seed", "--scripts", "--least-calls", "--calls", "--port"];
            let options = Options::read(words, &known)?;
            traces::compare(&traces::Options {
                seed: options.number("--seed", 1)?,
                scripts: options.number("--scripts", 20_000)?,
                least_calls: options.number("--least-calls", 0)?,
                kinds: options.kinds()?,
                port: Port(options.get("--port").map(String::from)),
            })
        }
        "trace-sample" => Options::read(words, &[]).and_then(|_| traces::write_sample()),
        "sheets" => {
            let options = Options::read(words, &["--seed", "--sheets", "--least", "--port"])?;
            sheets::compare(&sheets::Options {
                seed: options.number("--seed", 1)?,
                sheets: options.number("--sheets", 1_100_000)?,
                least: options.number("--least", 0)?,
                port: Port(options.get("--port").map(String::from)),
            })
        }
        "sheet-answers" => Options::read(words, &[]).and_then(|_| sheets::write_answers()),
        "sheet-sample" => Options::read(words, &[]).and_then(|_| sheets::write_sample()),
        "doors" => {
            let options = Options::read(words, &["--seed", "--inputs", "--least", "--port"])?;
            door::compare(&door::Options {
                seed: options.number("--seed", 1)?,
                inputs: options.number("--inputs", 100_000)?,
                least: options.number("--least", 0)?,
                port: options.get("--port").map(String::from),
            })
        }
        "outputs" => {
            let known = ["--seed", "--runs", "--least", "--launcher", "--panel"];
            let options = Options::read(words, &known)?;
            outputs::check(&outputs::Options {
                seed: options.number("--seed", 1)?,
                runs: options.number("--runs", 30)?,
                least: options.number("--least", 0)?,
                launcher: options.get("--launcher").map(PathBuf::from),
                panel: options.get("--panel").map(PathBuf::from),
            })
        }
        "door-log" => Options::read(words, &[]).and_then(|_| door::write_log()),
        "door-bench" => {
            let options = Options::read(words, &["--calls", "--rounds"])?;
            let calls = options.number("--calls", 1_000_000)?;
            door::bench(calls as u32, options.number("--rounds", 5)?)
        }
        "captions" => {
            let options = Options::read(words, &["--seed", "--cases", "--least", "--port"])?;
            captions::compare(&captions::Options {
                seed: options.number("--seed", 1)?,
                cases: options.number("--cases", 250_000)?,
                least: options.number("--least", 0)?,
                port: Port(options.get("--port").map(String::from)),
            })
        }
        "caption-answers" => Options::read(words, &[]).and_then(|_| captions::write_answers()),
        "caption-sample" => Options::read(words, &[]).and_then(|_| captions::write_sample()),
        "captions-text" => match words {
            [list, sheet] => caption_text::print(list, sheet),
            _ => Err(USAGE.into()),
        },
        "caption-samples" => Options::read(words, &[]).and_then(|_| caption_text::write_samples()),
        "caption-bench" => {
            let options = Options::read(words, &["--calls", "--rounds", "--port"])?;
            let calls = options.number("--calls", 2_000)?;
            let rounds = options.number("--rounds", 5)?;
            caption_bench::bench(calls as u32, rounds, options.get("--port"))
        }
        "caption-calls" => Options::read(words, &[]).and_then(|_| caption_bench::run()),
        "bench" => Options::read(words, &[]).and_then(|_| bench::run()),
        _ => Err(USAGE.into()),
    }
}

/// Answers the scripts on standard input, in the form that its first byte says or in another.
fn write_trace(form: Option<u8>) -> Result<(), String> {
    let mut input = Vec::new();
    let io = |e: io::Error| e.to_string();
    io::stdin().read_to_end(&mut input).map_err(io)?;
    if let (Some(byte), Some(form)) = (input.first_mut(), form) {
        *byte = form;
    }
    io::stdout().write_all(&trace::answer(&input)).map_err(io)
}

/// Options and their values.
struct Options<'a>(Vec<(&'a str, &'a str)>);

impl<'a> Options<'a> {
    fn read(words: &[&'a str], known: &[&str]) -> Result<Self, String> {
        let mut given = Vec::new();
        for pair in words.chunks(2) {
            match pair {
                [name, value] if known.contains(name) => given.push((*name, *value)),
                _ => return Err(USAGE.into()),
            }
        }
        Ok(Options(given))
    }

    fn get(&self, name: &str) -> Option<&'a str> {
        let last = self.0.iter().rev().find(|(given, _)| *given == name);
        last.map(|(_, value)| *value)
    }

    fn number(&self, name: &str, default: u64) -> Result<u64, String> {
        match self.get(name) {
            Some(value) => value.parse().map_err(|_| USAGE.into()),
            None => Ok(default),
        }
    }

    fn kinds(&self) -> Result<Kinds, String> {
        Kinds::named(self.get("--calls").unwrap_or("all")).ok_or(USAGE.into())
    }
}
