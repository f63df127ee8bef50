//! The first implementation's replay program, which the run script that
//! `bridge/build` writes starts.

use std::env;
use std::ffi::OsString;
use std::io::{self, Read, Write};
use std::process::{Command, ExitStatus, Stdio};
use std::thread;

pub struct Program {
    path: OsString,
}

/// What became of a script.
pub struct Ran {
    pub output: Vec<u8>,
    pub status: ExitStatus,
}

impl Ran {
    /// Whether the program printed what the oracle prints. Document 01 doesn't say
    /// with what status a bad line ends the program; but it must end by itself.
    pub fn agrees(&self, own: &str) -> bool {
        let ended = if own.ends_with("bad line\n") {
            self.status.code().is_some()
        } else {
            self.status.success()
        };
        ended && self.output == own.as_bytes()
    }
}

impl Program {
    /// The program, or for a trial the one that the environment variable `REPLAY`
    /// names.
    pub fn find() -> Self {
        let built = concat!(env!("CARGO_MANIFEST_DIR"), "/../target/bridge/replay");
        let path = env::var_os("REPLAY").unwrap_or_else(|| OsString::from(built));
        Program { path }
    }

    /// Runs a script, or says why the program doesn't run at all.
    pub fn run(&self, script: &[u8]) -> Result<Ran, String> {
        self.try_run(script)
            .map_err(|error| format!("the program {:?} doesn't run: {error}", self.path))
    }

    /// A thread of its own writes the script: a program that prints before it has
    /// read all of it would otherwise wait for a reader, and this for the program.
    fn try_run(&self, script: &[u8]) -> io::Result<Ran> {
        let mut command = Command::new(&self.path);
        let piped = command.stdin(Stdio::piped()).stdout(Stdio::piped());
        let mut process = piped.spawn()?;
        let mut input = process.stdin.take().expect("it is piped");
        let mut printed = process.stdout.take().expect("it is piped");
        let mut output = Vec::new();
        thread::scope(|scope| {
            // One that ends at a bad line needs not read on.
            scope.spawn(move || input.write_all(script).ok());
            printed.read_to_end(&mut output)
        })?;
        let status = process.wait()?;
        Ok(Ran { output, status })
    }
}
