//! Orders as a page: one HTML file that needs nothing else.
use crate::board::Event;
use crate::finding::{json_of_step, quoted, Finding, Verdict};
use crate::log::{write_log, Given};
use crate::step::Step;

const PAGE: &str = include_str!("page.html");

// What the page's script reads: the log's stretches are worked out there.
fn page(given: &Given, title: &str, about: &str, logs: &[(&str, &[Event])], marks: &[Step], job: Option<&Step>) -> String {
    let marks: Vec<String> = marks.iter().map(json_of_step).collect();
    let logs: Vec<String> = logs
        .iter()
        .map(|(name, log)| {
            let mut text = Vec::new();
            write_log(&mut text, given, log, "").expect("a Vec takes all that is written");
            format!("{{\"name\": {}, \"log\": {}}}", quoted(name), quoted(&String::from_utf8_lossy(&text)))
        })
        .collect();
    let job = job.map_or("null".into(), json_of_step);
    let data = format!(
        "{{\"title\": {}, \"text\": {}, \"workers\": {}, \"marks\": [{}], \"job\": {job}, \"logs\": [{}]}}",
        quoted(title),
        quoted(about),
        given.workers,
        marks.join(", "),
        logs.join(", ")
    );
    PAGE.replacen("/*DATA*/", &data.replace("</", "<\\/"), 1)
}

/// A difference: the two orders, of which the two steps that decide are marked.
pub fn page_of_finding(f: &Finding) -> String {
    let pair = f.verdict == Verdict::Order;
    let marks = [f.early, f.late];
    let logs = [("agrees", &f.agreeing_log[..]), ("differs", &f.differing_log[..])];
    page(&f.given, "Two orders", &f.to_string(), &logs[usize::from(!pair)..], if pair { &marks } else { &[] }, (f.verdict != Verdict::Torn).then_some(&f.job))
}

/// A log of a run, with what is said of it.
pub fn page_of_log(given: &Given, log: &[Event], text: &str, job: Option<&Step>) -> String {
    page(given, "An order", text, &[("log", log)], &[], job)
}
