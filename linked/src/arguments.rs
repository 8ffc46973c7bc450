//! The optional numbers on a program's command line.

use std::process::ExitCode;
use std::str::FromStr;

/// The number that the argument gives, or `default` where there is no argument.
pub fn number_or<T: FromStr>(
    argument: Option<String>,
    name: &str,
    default: T,
) -> Result<T, String> {
    match argument {
        Some(text) => {
            text.parse().map_err(|_| format!("{name} is not a whole number in range: {text}"))
        }
        None => Ok(default),
    }
}

/// Says what is wrong and how the program is used.
pub fn usage_error(wrong: &str, usage: &str) -> ExitCode {
    eprintln!("{wrong}\n{usage}");
    ExitCode::from(2)
}
