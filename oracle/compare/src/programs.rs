//! The programs that answer: each reads a chunk's records from a file, and its lines come through a pipe.

use records::ending::about;
use std::fs::File;
use std::io::{self, BufRead, BufReader, Read};
use std::path::{Path, PathBuf};
use std::process::{Child, ChildStdout, Command, Stdio};

/// The most bytes taken for one line; no answer's line has as many.
const LONGEST: u64 = 1 << 16;

pub struct Program {
    pub name: &'static str,
    path: PathBuf,
    word: Option<&'static str>,
}

impl Program {
    pub fn new(name: &'static str, path: impl Into<PathBuf>) -> Program {
        Program { name, path: path.into(), word: None }
    }

    /// The same program, run with a word.
    fn with(&self, word: &'static str) -> Program {
        Program { name: self.name, path: self.path.clone(), word: Some(word) }
    }

    /// Runs on the records of a file.
    pub fn run(&self, requests: &Path) -> io::Result<Lines> {
        let records = File::open(requests).map_err(|error| about(requests.display(), error))?;
        let name = format!("the program {}", self.path.display());
        let start = Command::new(&self.path).args(self.word).stdin(records).stdout(Stdio::piped()).spawn();
        let mut child = start.map_err(|error| about(format!("{name} cannot be run"), error))?;
        let lines = child.stdout.take().expect("the pipe that was asked for");
        Ok(Lines { name, child, lines: BufReader::with_capacity(1 << 16, lines), bytes: vec![] })
    }
}

/// The programs that are built beside this one.
pub struct Built {
    pub by_crate: Program,
    pub model: Program,
    /// The model, with the marks of guessed ids taken off.
    pub unmarked: Program,
}

impl Built {
    pub fn beside(own: &Path) -> Built {
        let model = Program::new("model", own.with_file_name("model"));
        let unmarked = model.with("unmarked");
        Built { by_crate: Program::new("crate", own.with_file_name("crate-oracle")), model, unmarked }
    }
}

/// The lines of a run, one at a time.
pub struct Lines {
    name: String,
    child: Child,
    lines: BufReader<ChildStdout>,
    bytes: Vec<u8>,
}

impl Lines {
    /// The next line, or a note that there is none.
    pub fn next(&mut self, line: &mut String) -> io::Result<()> {
        line.clear();
        self.bytes.clear();
        let mut source = self.lines.by_ref().take(LONGEST);
        match source.read_until(b'\n', &mut self.bytes).map_err(|error| about(&self.name, error))? {
            0 => line.push_str("(no line)"),
            _ => line.push_str(&String::from_utf8_lossy(self.bytes.strip_suffix(b"\n").unwrap_or(&self.bytes))),
        }
        Ok(())
    }

    /// Ends the run. Whether every line was taken; it is trouble where the program says that it failed.
    pub fn end(mut self) -> io::Result<bool> {
        let taken = self.lines.fill_buf().map_err(|error| about(&self.name, error))?.is_empty();
        if !taken {
            // it has no lines to give any more, and may never end by itself
            let _ = self.child.kill();
        }
        let status = self.child.wait().map_err(|error| about(&self.name, error))?;
        if taken && !status.success() {
            return Err(io::Error::other(format!("{} ended with {status}", self.name)));
        }
        Ok(taken)
    }
}
