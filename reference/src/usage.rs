//! How a program with options begins.

use std::process::ExitCode;

/// The options that were read. If help was asked for or a word is wrong, it
/// prints the usage and gives the status to end with.
pub fn options_or_end<T>(
    program: &str,
    usage: &str,
    read: Result<Option<T>, String>,
) -> Result<T, ExitCode> {
    match read {
        Ok(Some(options)) => Ok(options),
        Ok(None) => {
            println!("{usage}");
            Err(ExitCode::SUCCESS)
        }
        Err(message) => {
            eprintln!("{program}: {message}\n\n{usage}");
            Err(ExitCode::from(2))
        }
    }
}
