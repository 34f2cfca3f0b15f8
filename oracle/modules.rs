//! Build script of the three shim crates: writes `modules.rs`, which declares the given animato
//! sources as modules. Each is compiled from the bytes of its file below `ANIMATO_SRC`, and only if
//! their SHA-256 is the one that sources.sha256 has.

#[path = "sha256.rs"]
mod sha256;

use std::env;
use std::fs;
use std::path::{Path, PathBuf};

/// Where the sources are looked for, from the root of the repository, if `ANIMATO_SRC` is not set.
const DEFAULT_SRC: &str = "../shared/docs/src";

/// The given sources, as `sha256sum` prints them.
const PINS: &str = include_str!("sources.sha256");

/// The modules that the timeline, the groups and the delays need.
fn modules(package: &str) -> &'static [&'static str] {
    match package {
        "animato-core" => &["easing", "math", "traits"],
        "animato-tween" => &["loop_mode", "stagger_pattern"],
        "animato-timeline" => &["group", "sequence", "stagger", "timeline"],
        _ => fail(&format!("no modules are listed for {package}")),
    }
}

fn main() {
    for file in ["modules.rs", "sha256.rs", "sources.sha256"] {
        println!("cargo::rerun-if-changed=../{file}");
    }
    println!("cargo::rerun-if-env-changed=ANIMATO_SRC");
    let package = variable("CARGO_PKG_NAME");
    let root = PathBuf::from(variable("CARGO_MANIFEST_DIR")).join("../..");
    let given = root.join(env::var_os("ANIMATO_SRC").unwrap_or(DEFAULT_SRC.into()));
    let out = PathBuf::from(variable("OUT_DIR"));

    let mut text = String::new();
    for module in modules(&package) {
        let name = format!("crates/{package}/src/{module}.rs");
        let source = pinned(&given, &name);
        let copy = out.join(format!("{module}.rs"));
        put(&copy, &source);
        text += &format!("#[path = {copy:?}]\npub mod {module};\n");
    }
    put(&out.join("modules.rs"), text.as_bytes());
}

/// The bytes of a given source, which are the pinned ones.
fn pinned(given: &Path, name: &str) -> Vec<u8> {
    let file = given.join(name);
    println!("cargo::rerun-if-changed={}", file.display());
    let source = fs::read(&file)
        .unwrap_or_else(|e| fail(&format!("{}: {e} (see ANIMATO_SRC)", file.display())));
    let digest = sha256::hex_digest(&source);
    let mut pins = PINS.lines().filter_map(|line| line.split_once("  "));
    match pins.find(|(_, path)| *path == name) {
        Some((pin, _)) if pin == digest => source,
        Some((pin, _)) => fail(&format!(
            "{} is not the given source: its SHA-256 is {digest}, and oracle/sources.sha256 has {pin}",
            file.display()
        )),
        None => fail(&format!("oracle/sources.sha256 has no {name}")),
    }
}

fn put(file: &Path, bytes: &[u8]) {
    fs::write(file, bytes).unwrap_or_else(|e| fail(&format!("{}: {e}", file.display())));
}

fn variable(name: &str) -> String {
    env::var(name).unwrap_or_else(|_| fail(&format!("{name} is not set")))
}

fn fail(why: &str) -> ! {
    eprintln!("{why}");
    std::process::exit(1);
}
