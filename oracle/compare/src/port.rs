//! The port's side: a proved program, run on bytes.

use std::fs::{self, File};
use std::path::{Path, PathBuf};
use std::process::{Command, Stdio};

/// The root of the repository.
pub fn root() -> PathBuf {
    Path::new(env!("CARGO_MANIFEST_DIR")).join("../..")
}

/// How a program of the port is run: by tools/run, or by another command in its place.
pub struct Port(pub Option<String>);

impl Port {
    /// What the program `name` writes to standard output when it reads `input`. The input goes by way
    /// of a file, so that neither side waits for the other.
    pub fn run(&self, name: &str, input: &[u8]) -> Result<Vec<u8>, String> {
        let fail = |what: &str, e: std::io::Error| format!("{name}: {what}: {e}");
        let folder = root().join("target/oracle/input");
        let file = folder.join(format!("{name}.{}", std::process::id()));
        fs::create_dir_all(&folder).map_err(|e| fail("its input's folder", e))?;
        fs::write(&file, input).map_err(|e| fail("its input", e))?;
        let output = self
            .command(name)
            .stdin(File::open(&file).map_err(|e| fail("its input", e))?)
            .stderr(Stdio::inherit())
            .output()
            .map_err(|e| fail("it cannot be run", e))?;
        fs::remove_file(&file).map_err(|e| fail("its input", e))?;
        if !output.status.success() {
            return Err(format!("{name}: the program ended with {}", output.status));
        }
        Ok(output.stdout)
    }

    fn command(&self, name: &str) -> Command {
        let Some(words) = &self.0 else {
            let mut command = Command::new(root().join("tools/run"));
            command.arg(name);
            return command;
        };
        let mut words = words.split_whitespace();
        let mut command = Command::new(words.next().unwrap_or_default());
        command.args(words);
        command
    }
}

/// How the program is run: itself, as tools/run does, or by another command.
pub struct Program(Vec<String>);

impl Program {
    pub fn new(name: &str, port: Option<&str>) -> Result<Self, String> {
        if let Some(words) = port {
            let words: Vec<String> = words.split_whitespace().map(String::from).collect();
            return match words.is_empty() {
                true => Err(format!("{name}: no command in its place")),
                false => Ok(Program(words)),
            };
        }
        let program = root().join("crates").join(name).join("out").join(name);
        if !program.exists() {
            return Err(format!("{name}: it is not built"));
        }
        Ok(Program(vec![program.display().to_string()]))
    }

    pub fn command(&self) -> Command {
        let mut command = Command::new(&self.0[0]);
        command.args(&self.0[1..]).stderr(Stdio::inherit());
        command
    }
}
