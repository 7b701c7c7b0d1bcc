//! The judge of another maker's gate.

use crate::answer::{refusal, sent, Answer, Phase, Refusal};
use crate::raw::{self, Judged};
use std::fmt;

/// Why the lines of another gate are not accepted: the first that is wrong, missing or surplus.
#[derive(Clone, Copy, Debug, PartialEq, Eq, Hash)]
pub struct Wrong {
    /// Its number; the header line is 1.
    pub line: u64,
    /// What was due there.
    pub due: Due,
}

/// What was due in a line: what the rules answer at the tables that the other gate's choices have led to. Displayed it is that
/// line.
#[derive(Clone, Copy, Debug, PartialEq, Eq, Hash)]
pub enum Due {
    /// The header line, `event answer`.
    Heading,
    /// The one line of a trace whose header is bad.
    TraceRefused(Refusal),
    /// The line of an event, counted from 1, that is accepted. Of several sends that tie it is the one of the request
    /// accepted earliest; each of them would have been right.
    Accepted(u64, Answer),
    /// The line of an event that is refused.
    Refused(u64, Refusal),
    /// No line any more.
    Nothing,
}

impl fmt::Display for Due {
    fn fmt(&self, f: &mut fmt::Formatter<'_>) -> fmt::Result {
        match self {
            Due::Heading => f.write_str("event answer"),
            Due::TraceRefused(refusal) => write!(f, "trace refused {}", refusal.number()),
            Due::Accepted(event, Answer::Nothing) => write!(f, "{event} -"),
            Due::Accepted(event, Answer::Sent { phase, guest, id }) => {
                let letter = match phase {
                    Phase::Reservation => 'R',
                    Phase::Weight => 'W',
                };
                write!(f, "{event} {letter} {guest} {id}")
            }
            Due::Refused(event, refusal) => write!(f, "{event} X {}", refusal.number()),
            Due::Nothing => f.write_str("no line"),
        }
    }
}

impl fmt::Display for Wrong {
    fn fmt(&self, f: &mut fmt::Formatter<'_>) -> fmt::Result {
        match self.due {
            Due::Nothing => write!(f, "line {} is surplus", self.line),
            due => write!(f, "line {} is wrong: due was {due}", self.line),
        }
    }
}

impl std::error::Error for Wrong {}

/// Whether the lines that another gate printed for a trace are right. Document 02, K10: "Accept its lines exactly when each
/// send was of a smallest tag in the right phase, the first waiting of its guest, a send was made wherever one was due, and
/// refusals agree; the tables follow its choices, not ours." Any bytes may be handed in as either.
///
/// ```
/// // Version 1, depth 1, three guests alike, capacity 8: each asks at 5 ns, the request of guest 0 goes, and is done.
/// let mut trace = b"SGQ\x01\x00\x01\x03\x08\x00".to_vec();
/// trace.extend([0, 0, 0, 0, 0, 0, 0, 0, 1, 0, 0, 0].repeat(3));
/// for (kind, guest) in [(0, 0), (0, 1), (0, 2), (1, 0)] {
///     trace.extend([kind, guest, 7, 0, 0, 0, 5, 0, 0, 0, 0, 0, 0, 0]);
/// }
/// let ours = b"event answer\n1 W 0 7\n2 -\n3 -\n4 W 1 7\n";
/// let other = b"event answer\n1 W 0 7\n2 -\n3 -\n4 W 2 7\n"; // the two that wait tie
/// let wrong = b"event answer\n1 W 0 7\n2 -\n3 -\n4 -\n";
/// assert_eq!(sgq::judge(&trace, ours), Ok(()));
/// assert_eq!(sgq::judge(&trace, other), Ok(()));
/// let why = sgq::judge(&trace, wrong).unwrap_err();
/// assert_eq!(why.to_string(), "line 5 is wrong: due was 4 W 1 7");
/// ```
///
/// # Errors
///
/// [`Wrong`], with the first line that is wrong, missing or surplus, and what was due there.
pub fn judge(trace: &[u8], lines: &[u8]) -> Result<(), Wrong> {
    // SAFETY: two slices with their lengths, of which nothing is written.
    let found = unsafe { raw::sgq_judge(trace.as_ptr(), trace.len(), lines.as_ptr(), lines.len()) };
    match found.line {
        0 => Ok(()),
        line => Err(Wrong {
            line,
            due: due(found),
        }),
    }
}

/// What was due, by name. Event n has line n + 1.
fn due(found: Judged) -> Due {
    let event = found.line - 1;
    match found.kind {
        raw::NONE_DUE => Due::Nothing,
        raw::REFUSED if event == 0 => Due::TraceRefused(refusal(found.refusal)),
        raw::REFUSED => Due::Refused(event, refusal(found.refusal)),
        _ if event == 0 => Due::Heading,
        raw::SENT_BY_RESERVATION => {
            Due::Accepted(event, sent(Phase::Reservation, found.guest, found.id))
        }
        raw::SENT_BY_WEIGHT => Due::Accepted(event, sent(Phase::Weight, found.guest, found.id)),
        _ => Due::Accepted(event, Answer::Nothing),
    }
}
