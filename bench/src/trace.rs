//! A bench trace, read whole.

use second::trace::{events, Event, Header, Next};
use second::Settings;

pub struct Trace {
    pub depth: u64,
    pub capacity: u64,
    pub settings: Vec<Settings>,
    pub events: Vec<Event>,
}

impl Trace {
    /// The trace with its first events; none where the file is no trace or has fewer.
    pub fn read(file: &str, events: usize) -> Option<Trace> {
        let bytes = std::fs::read(file).ok()?;
        let header = Header::read(&bytes).ok()?;
        let whole = |next| match next {
            Next::Event(event) => Some(event),
            Next::Cut => None,
        };
        let trace = Trace {
            depth: header.depth.into(),
            capacity: header.capacity.into(),
            events: self::events(&header, &bytes)
                .take(events)
                .filter_map(whole)
                .collect(),
            settings: header.settings,
        };
        (trace.events.len() == events).then_some(trace)
    }
}
