//! A program of the engine as a process: its input in, its output taken.

use std::env;
use std::io::{Read, Write};
use std::path::{Path, PathBuf};
use std::process::{Child, Command, Stdio};
use std::sync::mpsc;
use std::thread;
use std::time::Duration;

/// How long a program may take for one input before it counts as one that
/// does not end.
const PATIENCE: Duration = Duration::from_secs(120);

/// A program.
#[derive(Clone, Debug, PartialEq, Eq)]
pub struct Process {
    path: PathBuf,
    arguments: Vec<String>,
    /// Whether it may end with another status than 0.
    any_status: bool,
}

/// What a program made of its input.
#[derive(Clone, Debug, PartialEq, Eq)]
pub struct Reply {
    /// Its output.
    pub output: Vec<u8>,
    /// What is wrong with its end: a program ends by itself, whatever its input.
    pub fault: Option<String>,
}

impl Process {
    /// The engine's request program, which ends with status 0: the one that the
    /// environment variable `FENSTUBBLE_DESK` names, else `target/bin/desk`.
    pub fn desk() -> Result<Process, String> {
        Process::find("FENSTUBBLE_DESK", "desk")
    }

    /// The engine's check program, whose status is not fixed: the one that the
    /// environment variable `FENSTUBBLE_INSPECT` names, else
    /// `target/bin/inspect`.
    pub fn inspect() -> Result<Process, String> {
        Ok(Process::find("FENSTUBBLE_INSPECT", "inspect")?.with_any_status())
    }

    fn find(variable: &str, name: &str) -> Result<Process, String> {
        let path = match env::var_os(variable) {
            Some(path) => PathBuf::from(path),
            // Where it is once it is proved, from this package.
            None => Path::new(env!("CARGO_MANIFEST_DIR"))
                .join("../../target/bin")
                .join(name),
        };
        match (path.is_file(), env::var_os(variable)) {
            (true, _) => Ok(Process::at(path, &[])),
            (false, Some(_)) => Err(format!("there is no program {}", path.display())),
            (false, None) => Err(format!(
                "the engine's program, target/bin/{name}, is not there (`tools/build {name}` \
                 makes it; {variable} can name another)"
            )),
        }
    }

    /// The same, which may end with any status.
    #[must_use]
    pub fn with_any_status(self) -> Process {
        Process {
            any_status: true,
            ..self
        }
    }

    /// Where it is.
    pub fn path(&self) -> &Path {
        &self.path
    }

    /// The program at that path, started with these arguments, which ends with
    /// status 0.
    pub fn at(path: impl Into<PathBuf>, arguments: &[&str]) -> Process {
        Process {
            path: path.into(),
            arguments: arguments.iter().map(|&word| word.into()).collect(),
            any_status: false,
        }
    }

    /// Runs it on the input, which comes in pieces of so many bytes. No more
    /// than `most` bytes of output are taken.
    pub fn answer(&self, input: &[u8], piece: usize, most: usize) -> Reply {
        let started = Command::new(&self.path)
            .args(&self.arguments)
            .stdin(Stdio::piped())
            .stdout(Stdio::piped())
            .spawn();
        let mut child = match started {
            Ok(child) => child,
            Err(error) => {
                return Reply {
                    output: Vec::new(),
                    fault: Some(format!("it can not be started: {error}")),
                }
            }
        };
        let (Some(mut stdin), Some(stdout)) = (child.stdin.take(), child.stdout.take()) else {
            unreachable!("both are piped");
        };
        let (sender, receiver) = mpsc::channel();
        thread::scope(|scope| {
            scope.spawn(move || {
                // A program that has ended reads no more: no fault.
                let _ = input
                    .chunks(piece)
                    .try_for_each(|piece| stdin.write_all(piece));
            });
            scope.spawn(move || {
                let mut output = Vec::new();
                let taken = stdout.take(most as u64).read_to_end(&mut output);
                let _ = sender.send(taken.map(|_| output));
            });
            match receiver.recv_timeout(PATIENCE) {
                Ok(Ok(output)) if output.len() < most => Reply {
                    output,
                    fault: ended(&mut child, self.any_status),
                },
                Ok(Ok(output)) => stopped(&mut child, output, "it writes without end"),
                Ok(Err(_)) => stopped(&mut child, Vec::new(), "its output can not be read"),
                Err(_) => stopped(&mut child, Vec::new(), "it does not end"),
            }
        })
    }
}

/// What is wrong with the status of a program that has written all it has to.
fn ended(child: &mut Child, any_status: bool) -> Option<String> {
    match child.wait() {
        Ok(status) if status.success() || (any_status && status.code().is_some()) => None,
        Ok(status) => Some(format!("it ended with {status}")),
        Err(error) => Some(format!("its end is not known: {error}")),
    }
}

/// Ends a program that went wrong.
fn stopped(child: &mut Child, output: Vec<u8>, fault: &str) -> Reply {
    let _ = child.kill();
    let _ = child.wait();
    Reply {
        output,
        fault: Some(fault.into()),
    }
}
