//! A compiled program run on an input, and what it prints compared.

use crate::programs::lines::first_difference;
use crate::programs::output::commands_in_hex;
use std::io::{self, Read, Write};
use std::path::Path;
use std::process::{Command, Stdio};
use std::sync::mpsc::{channel, RecvTimeoutError, Sender};
use std::thread;
use std::time::Duration;

/// A program that runs longer has given no answer.
const TIME_LIMIT: Duration = Duration::from_secs(20);

/// What a program prints on standard output and on standard error.
#[derive(Debug, PartialEq, Eq)]
pub struct Printed {
    pub out: Vec<u8>,
    pub err: String,
}

impl Printed {
    /// Nothing on standard output, and one line on standard error.
    pub fn told(line: &str) -> Printed {
        Printed {
            out: Vec::new(),
            err: format!("{line}\n"),
        }
    }

    /// The first difference in words. Standard output is compared byte by byte and shown in hexadecimal.
    pub fn difference(&self, expected: &Printed) -> Option<String> {
        let (out, expected_out) = (commands_in_hex(&self.out), commands_in_hex(&expected.out));
        let of_out = first_difference(&out, &expected_out).map(|what| format!("bytes, {what}"));
        let of_err = || first_difference(&self.err, &expected.err);
        of_out.or_else(|| of_err().map(|what| format!("standard error, {what}")))
    }
}

/// Reads to the end. The sender goes with the reader, so the receiver hears when the last one is through.
fn read_all(mut pipe: impl Read, _at_work: Sender<()>) -> io::Result<Vec<u8>> {
    let mut bytes = Vec::new();
    pipe.read_to_end(&mut bytes)?;
    Ok(bytes)
}

/// The error is a program that cannot be run, that a signal ends, or that runs too long.
pub fn run(program: &Path, arguments: &[&Path], input: &[u8]) -> Result<Printed, String> {
    run_within(TIME_LIMIT, program, arguments, input)
}

fn run_within(
    limit: Duration,
    program: &Path,
    arguments: &[&Path],
    input: &[u8],
) -> Result<Printed, String> {
    let in_words = |error: io::Error| error.to_string();
    let mut child = Command::new(program)
        .args(arguments)
        .stdin(Stdio::piped())
        .stdout(Stdio::piped())
        .stderr(Stdio::piped())
        .spawn()
        .map_err(in_words)?;
    let pipes = (child.stdin.take(), child.stdout.take(), child.stderr.take());
    let (Some(mut stdin), Some(stdout), Some(stderr)) = pipes else {
        unreachable!("the pipes were asked for");
    };
    let (at_work, until_through) = channel();
    thread::scope(|scope| {
        // A program may stop reading before the end of its input, so a failed write is no failure here.
        scope.spawn(move || stdin.write_all(input).is_ok());
        let for_stderr = at_work.clone();
        let out = scope.spawn(move || read_all(stdout, at_work));
        let err = scope.spawn(move || read_all(stderr, for_stderr));
        let runs_on = until_through.recv_timeout(limit) == Err(RecvTimeoutError::Timeout);
        if runs_on {
            child.kill().map_err(in_words)?;
        }
        let status = child.wait().map_err(in_words)?;
        let [out, err] = [out, err].map(|reader| reader.join().expect("a reader does not panic"));
        let (out, err) = (out.map_err(in_words)?, err.map_err(in_words)?);
        if runs_on {
            return Err(format!("no end after {limit:?}"));
        }
        if status.code().is_none() {
            return Err(status.to_string());
        }
        let err = String::from_utf8_lossy(&err).into_owned();
        Ok(Printed { out, err })
    })
}

/// The printed text of a program that has nothing to tell on standard error.
pub fn printed_text(program: &Path, arguments: &[&Path], input: &[u8]) -> Result<String, String> {
    let printed = run(program, arguments, input)?;
    if !printed.err.is_empty() {
        return Err(format!("standard error: {}", printed.err.trim_end()));
    }
    Ok(String::from_utf8_lossy(&printed.out).into_owned())
}

#[cfg(test)]
mod tests {
    use super::*;
    use std::time::Instant;

    fn shell(limit: Duration, command: &str, input: &[u8]) -> Result<Printed, String> {
        let arguments = [Path::new("-c"), Path::new(command)];
        run_within(limit, Path::new("/bin/sh"), &arguments, input)
    }

    #[test]
    fn both_outputs_are_kept_apart() {
        let printed = shell(TIME_LIMIT, "cat; echo told >&2", b"\xFF\n").unwrap();
        let expected = Printed {
            out: b"\xFF\n".to_vec(),
            err: "told\n".to_string(),
        };
        assert_eq!(printed.difference(&expected), None);
        let silent = shell(TIME_LIMIT, "cat", b"\xFF\n").unwrap();
        let difference = silent.difference(&expected).unwrap();
        assert!(difference.starts_with("standard error, line 1"));
        let difference = Printed::told("told").difference(&expected).unwrap();
        assert!(difference.starts_with("bytes, line 1"), "{difference}");
    }

    #[test]
    fn a_program_that_runs_on_or_is_ended_has_given_no_answer() {
        let begin = Instant::now();
        assert!(shell(Duration::from_secs(1), "exec sleep 60", b"")
            .unwrap_err()
            .contains("no end"));
        assert!(begin.elapsed() < Duration::from_secs(30));
        assert!(shell(TIME_LIMIT, "kill -9 $$", b"")
            .unwrap_err()
            .contains("signal"));
        assert!(run(Path::new("/none"), &[], b"").is_err());
    }

    #[test]
    fn a_program_need_not_read_its_input() {
        let input = vec![b'y'; 5_000_000];
        let printed = shell(TIME_LIMIT, "echo done", &input).unwrap();
        assert_eq!(printed.out, b"done\n");
        let text = printed_text(Path::new("/bin/cat"), &[], &input).unwrap();
        assert_eq!(text.len(), input.len());
    }
}
