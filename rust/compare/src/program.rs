//! The repository's programs, given an input in several ways.
use std::env;
use std::fs::{self, File};
use std::io::{self, Write};
use std::path::{Path, PathBuf};
use std::process::{ChildStdin, Command, Stdio};
use std::thread;
use std::time::Duration;

/// How a program is given its input.
#[derive(Clone, Copy, Debug)]
pub enum Source {
    File,
    Pipe,
    Pieces,
}

/// The program that a variable names, if it is there.
pub fn named(variable: &str) -> Option<PathBuf> {
    env::var_os(variable).map(PathBuf::from).filter(|program| program.exists())
}

/// Writes into a pipe, in pieces of so many bytes with time to read each. A program that has read enough closes its end
/// first.
fn write(mut stdin: ChildStdin, input: &[u8], piece: usize) {
    for bytes in input.chunks(piece) {
        if stdin.write_all(bytes).is_err() {
            return;
        }
        if bytes.len() < input.len() {
            thread::sleep(Duration::from_micros(300));
        }
    }
}

/// What a program prints for an input.
pub fn ask(program: &Path, arguments: &[String], input: &[u8], source: Source) -> io::Result<String> {
    let mut command = Command::new(program);
    command.args(arguments).stdout(Stdio::piped()).stderr(Stdio::null());
    let path = env::temp_dir().join(format!("mofuleka-input-{}", std::process::id()));
    match source {
        Source::File => {
            fs::write(&path, input)?;
            command.stdin(File::open(&path)?);
        }
        Source::Pipe | Source::Pieces => {
            command.stdin(Stdio::piped());
        }
    }
    let mut child = command.spawn()?;
    if let Some(stdin) = child.stdin.take() {
        let piece = if let Source::Pieces = source { 97 } else { input.len().max(1) };
        write(stdin, input, piece);
    }
    let output = child.wait_with_output()?;
    if let Source::File = source {
        fs::remove_file(&path)?;
    }
    String::from_utf8(output.stdout).map_err(|error| io::Error::new(io::ErrorKind::InvalidData, error))
}
