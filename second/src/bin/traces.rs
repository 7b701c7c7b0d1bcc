//! `traces SEED KIND` writes one random trace; `traces fixed N EVENTS`
//! writes the bench trace with about N requests waiting.

use second::kinds::{fixed, trace, KINDS};
use std::io::Write;
use std::process::ExitCode;

fn main() -> ExitCode {
    let arguments: Vec<String> = std::env::args().skip(1).collect();
    let Some(bytes) = wanted(&arguments) else {
        eprintln!("traces SEED KIND, KIND one of {}", KINDS.join(", "));
        eprintln!("traces fixed N EVENTS");
        return ExitCode::FAILURE;
    };
    match std::io::stdout().lock().write_all(&bytes) {
        Ok(()) => ExitCode::SUCCESS,
        Err(_) => ExitCode::FAILURE,
    }
}

fn wanted(arguments: &[String]) -> Option<Vec<u8>> {
    match arguments {
        [first, aim, events] if first == "fixed" => {
            Some(fixed(aim.parse().ok()?, events.parse().ok()?))
        }
        [seed, kind] => trace(kind, seed.parse().ok()?),
        _ => None,
    }
}
