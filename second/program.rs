//! What the program under comparison writes.

use std::collections::HashMap;
use std::io::{self, Write};
use std::process::{Command, Stdio};

pub struct Answer {
    pub listing: Vec<u8>,
    pub status: Option<i32>,
}

/// Runs the program with the sheet on its standard input.
pub fn run(program: &str, sheet: &[u8]) -> io::Result<Answer> {
    let mut child =
        Command::new(program).stdin(Stdio::piped()).stdout(Stdio::piped()).stderr(Stdio::null()).spawn()?;
    let mut input = child.stdin.take().expect("a pipe");
    match input.write_all(sheet) {
        // A program that has read as much as it wants may end before it is given all.
        Err(error) if error.kind() != io::ErrorKind::BrokenPipe => return Err(error),
        _ => drop(input),
    }
    let output = child.wait_with_output()?;
    Ok(Answer { listing: output.stdout, status: output.status.code() })
}

/// The answers that `rt try --cases` gave: in `out` each listing stands under a line `== NAME`, and `log` has a line
/// `case=NAME run=ended status=N ..` for each.
pub fn tried(out: &[u8], log: &str) -> HashMap<String, Answer> {
    let mut answers = HashMap::new();
    for line in log.lines() {
        let word = |of: &str| line.split(' ').find_map(|w| w.strip_prefix(of));
        if let (Some(name), Some("ended")) = (word("case="), word("run=")) {
            let status = word("status=").and_then(|s| s.parse().ok());
            answers.insert(name.to_string(), Answer { listing: Vec::new(), status });
        }
    }
    let mut name = String::new();
    for line in out.split_inclusive(|&b| b == b'\n') {
        if let Some(next) = line.strip_prefix(b"== ") {
            name = String::from_utf8_lossy(next).trim_end().to_string();
        } else if let Some(answer) = answers.get_mut(&name) {
            answer.listing.extend_from_slice(line);
        }
    }
    answers
}
