//! Runs the bench as a child process, and compares its answers with those of
//! the reference.

use std::io::{self, Read, Write};
use std::path::{Path, PathBuf};
use std::process::{Child, ChildStdin, ChildStdout, Command, ExitStatus, Stdio};
use std::sync::mpsc;
use std::thread;
use std::time::{Duration, Instant};

use crate::script::{show, Script};

/// A program that answers lines.
#[derive(Clone, Debug)]
pub struct Bench {
    pub program: PathBuf,
    /// How long a run may take before it counts as hung. To this comes a
    /// millisecond for each line.
    pub limit: Duration,
    /// Whether what the program says on its error output is thrown away.
    pub quiet: bool,
}

/// How a run ended.
#[derive(Clone, Copy, Debug)]
pub enum Ending {
    Ended(ExitStatus),
    Hung,
    /// It wrote far more than it was asked for, and was stopped.
    Flooded,
}

pub struct Run {
    pub output: Vec<u8>,
    pub ending: Ending,
}

/// The first place where bench and reference differ.
#[derive(Clone, Debug, PartialEq, Eq)]
pub struct Difference {
    /// The line of the script; none if all answers are right and only the end
    /// is wrong.
    pub line: Option<usize>,
    pub reference: String,
    pub bench: String,
}

/// A program that was started, and the pipes to and from it.
fn started(program: &Path, errors: Stdio) -> io::Result<(Child, ChildStdin, ChildStdout)> {
    let mut child = Command::new(program)
        .stdin(Stdio::piped())
        .stdout(Stdio::piped())
        .stderr(errors)
        .spawn()?;
    let stdin = child.stdin.take().expect("a piped standard input");
    let stdout = child.stdout.take().expect("a piped standard output");
    Ok((child, stdin, stdout))
}

/// Starts a program on an input. The input is written by a thread of its own:
/// were it written first and the answers read afterwards, both sides would
/// wait for ever as soon as the pipes are full.
pub fn fed(program: &Path, input: Vec<u8>, errors: Stdio) -> io::Result<(Child, ChildStdout)> {
    let (child, mut stdin, stdout) = started(program, errors)?;
    thread::spawn(move || {
        // A program that stops early closes the pipe. That shows in its
        // answers, so the error itself is of no interest.
        let _ = stdin.write_all(&input);
    });
    Ok((child, stdout))
}

impl Bench {
    fn errors(&self) -> Stdio {
        if self.quiet {
            Stdio::null()
        } else {
            Stdio::inherit()
        }
    }

    /// Runs the program on a script.
    pub fn run(&self, script: &Script, expected_length: usize) -> io::Result<Run> {
        let limit = self.limit + Duration::from_millis(script.lines.len() as u64);
        let deadline = Instant::now() + limit;
        let (mut child, stdout) = fed(&self.program, script.bytes(), self.errors())?;

        // Room for wrong answers, but not for an endless stream of them.
        let most = 2 * expected_length as u64 + 1_000_000;
        let (sender, receiver) = mpsc::channel();
        thread::spawn(move || {
            let mut output = Vec::new();
            let _ = stdout.take(most).read_to_end(&mut output);
            let _ = sender.send(output);
        });

        let Ok(output) = receiver.recv_timeout(limit) else {
            stop(&mut child);
            return Ok(Run { output: Vec::new(), ending: Ending::Hung });
        };
        if output.len() as u64 == most {
            stop(&mut child);
            return Ok(Run { output, ending: Ending::Flooded });
        }
        // The output is at its end; the process follows at once, or hangs.
        loop {
            if let Some(status) = child.try_wait()? {
                return Ok(Run { output, ending: Ending::Ended(status) });
            }
            if Instant::now() > deadline {
                stop(&mut child);
                return Ok(Run { output, ending: Ending::Hung });
            }
            thread::sleep(Duration::from_micros(200));
        }
    }

    /// Runs the program and gives the first difference, if there is one.
    pub fn differs(
        &self,
        script: &Script,
        expected: &[(usize, Vec<u8>)],
    ) -> io::Result<Option<Difference>> {
        let length = expected.iter().map(|(_, answer)| answer.len() + 1).sum();
        let run = self.run(script, length)?;
        Ok(first_difference(expected, &run))
    }

    /// Sends lines and keeps the input open: how many are answered although
    /// the end has not come. A program that holds its answers back until the
    /// end answers none.
    pub fn answered_with_input_open(&self, lines: usize) -> io::Result<usize> {
        let (mut child, mut stdin, mut stdout) = started(&self.program, self.errors())?;

        // The thread keeps the input open until it is let go. It is not waited
        // for: a program that does not read would hold it for ever.
        let (release, hold) = mpsc::channel::<()>();
        thread::spawn(move || {
            let _ = stdin.write_all(&b"report\n".repeat(lines));
            let _ = hold.recv();
        });
        let (sender, receiver) = mpsc::channel();
        thread::spawn(move || {
            let mut buffer = [0; 65_536];
            while let Ok(count) = stdout.read(&mut buffer) {
                let feeds = buffer[..count].iter().filter(|byte| **byte == b'\n').count();
                if count == 0 || sender.send(feeds).is_err() {
                    break;
                }
            }
        });

        let mut answered = 0;
        let patience = Duration::from_secs(5).min(self.limit);
        while answered < lines {
            match receiver.recv_timeout(patience) {
                Ok(feeds) => answered += feeds,
                Err(_) => break,
            }
        }
        drop(release);
        stop(&mut child);
        Ok(answered)
    }
}

/// Ends a child that is not wanted any more. It may have ended by itself, so
/// an error means nothing here.
fn stop(child: &mut Child) {
    let _ = child.kill();
    let _ = child.wait();
}

fn first_difference(expected: &[(usize, Vec<u8>)], run: &Run) -> Option<Difference> {
    let mut found = run.output.split(|byte| *byte == b'\n');
    // What follows the last line feed is no finished line.
    let whole_lines = run.output.iter().filter(|byte| **byte == b'\n').count();
    let mut finished = 0;
    for (line, answer) in expected {
        let text = found.next().unwrap_or_default();
        if finished == whole_lines {
            let mut bench = if text.is_empty() {
                "(no answer)".to_string()
            } else {
                format!("{} (without line feed)", show(text))
            };
            bench.push_str(&ending_note(&run.ending));
            return Some(Difference { line: Some(*line), reference: show(answer), bench });
        }
        finished += 1;
        if text != answer.as_slice() {
            let (reference, bench) = (show(answer), show(text));
            return Some(Difference { line: Some(*line), reference, bench });
        }
    }
    let extra = found.next().unwrap_or_default();
    if finished < whole_lines || !extra.is_empty() {
        return Some(Difference {
            line: None,
            reference: "(no further answer)".to_string(),
            bench: show(extra),
        });
    }
    match run.ending {
        Ending::Ended(status) if status.success() => None,
        _ => Some(Difference {
            line: None,
            reference: "(end with status 0)".to_string(),
            bench: format!("(all answers right){}", ending_note(&run.ending)),
        }),
    }
}

fn ending_note(ending: &Ending) -> String {
    match ending {
        Ending::Ended(status) if status.success() => String::new(),
        Ending::Ended(status) => format!(" (ended with {status})"),
        Ending::Hung => " (did not end in time and was stopped)".to_string(),
        Ending::Flooded => " (did not stop writing and was stopped)".to_string(),
    }
}

#[cfg(test)]
mod tests {
    use super::*;
    use std::os::unix::process::ExitStatusExt;

    fn run(output: &[u8], status: i32) -> Run {
        Run { output: output.to_vec(), ending: Ending::Ended(ExitStatus::from_raw(status)) }
    }

    fn expected() -> Vec<(usize, Vec<u8>)> {
        vec![(0, b"0".to_vec()), (2, b"13".to_vec())]
    }

    #[test]
    fn the_first_difference_is_found() {
        let line = |output: &[u8], status| {
            first_difference(&expected(), &run(output, status)).map(|difference| difference.line)
        };
        assert_eq!(line(b"0\n13\n", 0), None);
        assert_eq!(line(b"1\n13\n", 0), Some(Some(0)));
        assert_eq!(line(b"0\n1\n", 0), Some(Some(2)));
        assert_eq!(line(b"0\n13", 0), Some(Some(2)));
        assert_eq!(line(b"0\n", 0), Some(Some(2)));
        assert_eq!(line(b"", 0), Some(Some(0)));
        assert_eq!(line(b"0\n13\n0\n", 0), Some(None));
        assert_eq!(line(b"0\n13\n\n", 0), Some(None));
        assert_eq!(line(b"0\n13\nx", 0), Some(None));
        assert_eq!(line(b"0\n13\n", 256), Some(None));
        assert_eq!(line(b"0\n", 9), Some(Some(2)));
    }

    #[test]
    fn an_empty_script_has_no_answer() {
        assert_eq!(first_difference(&[], &run(b"", 0)), None);
        assert!(first_difference(&[], &run(b"\n", 0)).is_some());
    }
}
