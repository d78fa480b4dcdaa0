//! A log as text, and back: a line with the numbers of the run, lines of remarks that begin with #, and a line for each event.
use crate::board::{log_of, log_text, Event, Settings};
use std::io::{self, BufRead, Write};

/// What a run is played under.
#[derive(Clone, Copy, Debug, PartialEq, Eq)]
pub struct Given {
    pub settings: Settings,
    pub workers: u32,
}

/// Writes a log; `about` are lines of remarks.
pub fn write_log(out: &mut impl Write, given: &Given, log: &[Event], about: &str) -> io::Result<()> {
    let text = log_text(&given.settings, given.workers, log).map_err(|status| io::Error::new(io::ErrorKind::OutOfMemory, status))?;
    let (head, events) = text.split_at(text.iter().take_while(|c| **c != b'\n').count() + 1);
    out.write_all(head)?;
    for line in about.lines() {
        writeln!(out, "# {line}")?;
    }
    out.write_all(events)
}

/// Reads a log. An error of kind `InvalidData` names the first line that is none.
pub fn read_log(mut from: impl BufRead) -> io::Result<(Given, Vec<Event>)> {
    let mut text = String::new();
    from.read_to_string(&mut text)?;
    let (settings, workers, log) = log_of(text.as_bytes()).map_err(|n| {
        let line = text.lines().nth(n - 1).unwrap_or("");
        io::Error::new(io::ErrorKind::InvalidData, format!("not a line of a btjobs log: {line}"))
    })?;
    Ok((Given { settings, workers }, log))
}
