//! Answers the lines on standard input by the reference.

use std::io::{self, Read, Write};
use std::process::ExitCode;

use corrector_reference::lines::Answerer;

fn main() -> ExitCode {
    match run() {
        Ok(()) => ExitCode::SUCCESS,
        // Nobody reads the answers any more, which is no fault.
        Err(error) if error.kind() == io::ErrorKind::BrokenPipe => ExitCode::SUCCESS,
        Err(error) => {
            eprintln!("answer: {error}");
            ExitCode::FAILURE
        }
    }
}

fn run() -> io::Result<()> {
    let mut stdin = io::stdin().lock();
    let mut stdout = io::stdout().lock();
    let mut answerer = Answerer::new();
    let mut input = vec![0; 65_536];
    let mut answers = Vec::new();
    loop {
        let count = stdin.read(&mut input)?;
        if count == 0 {
            break;
        }
        answerer.take(&input[..count], &mut answers);
        // All answers go out before more input is waited for.
        stdout.write_all(&answers)?;
        stdout.flush()?;
        answers.clear();
    }
    answerer.end(&mut answers);
    stdout.write_all(&answers)?;
    stdout.flush()
}
