//! The judge on a whole trace and lines for it, once: the library's or the second program's; and the lines of a gate that breaks
//! ties to the higher guest number.

use second::judge::{lines_of, Ties};
use std::io::Write;

/// Judges the lines; none where they are not accepted, or a file cannot be read.
pub fn run(whose: &str, trace: &str, lines: &str) -> Option<()> {
    let (trace, lines) = (std::fs::read(trace).ok()?, std::fs::read(lines).ok()?);
    let accepted = match whose {
        "library" => sgq::judge(&trace, &lines).is_ok(),
        "second" => second::judge(&trace, &lines).line == 0,
        _ => return None,
    };
    accepted.then_some(())
}

/// Prints the lines of the other gate.
pub fn print_lines(trace: &str) -> Option<()> {
    let lines = lines_of(&std::fs::read(trace).ok()?, Ties::HighGuest);
    std::io::stdout().write_all(&lines).ok()
}
