//! What the finder has found: as a struct, as a report, and as JSON.
use crate::board::{Event, Kind};
use crate::log::Given;
use crate::step::{Order, Step};
use std::fmt;
use std::fmt::Write as _;

/// What was found.
#[derive(Clone, Copy, Debug, PartialEq, Eq)]
pub enum Verdict {
    /// All orders came to the same.
    Agrees,
    /// The plain order came to something else when it was played again.
    NotRepeatable,
    /// The plain order came to something else with other fibers or slots.
    Settings,
    /// The order of two steps decides.
    Order,
    /// A run on threads differs, and its order on one thread doesn't: jobs meet within their steps.
    Torn,
    /// A drawn order differs, and doesn't when it is played again.
    Unexplained,
}

/// What was found, and how. Its `Display` is the report.
pub struct Finding {
    pub verdict: Verdict,
    pub seed: u64,
    pub orders: u64,
    pub steps: u64,
    pub replays: u64,
    pub runs: u64,
    pub seconds: f64,
    /// The time limit came before the last seed.
    pub out_of_time: bool,
    pub given: Given,
    /// The first that comes to something else.
    pub job: Step,
    /// It does when `early` runs just before `late`, and doesn't just after it.
    pub early: Step,
    pub late: Step,
    /// The two orders differ in nothing but these two steps, next to one another.
    pub neighbours: bool,
    pub out_of_order: usize,
    pub agreeing: Order,
    pub differing: Order,
    pub agreeing_log: Vec<Event>,
    pub differing_log: Vec<Event>,
    /// What the job came to, where the two orders agree and where they differ.
    pub agreeing_value: String,
    pub differing_value: String,
    pub panicked: Option<String>,
    /// Where the order that differs was written.
    pub file: Option<String>,
    pub program: String,
}
impl Finding {
    pub(crate) fn none(given: Given, program: &str) -> Finding {
        Finding {
            verdict: Verdict::Agrees,
            seed: 0,
            orders: 0,
            steps: 0,
            replays: 0,
            runs: 0,
            seconds: 0.0,
            out_of_time: false,
            given,
            job: Step::default(),
            early: Step::default(),
            late: Step::default(),
            neighbours: false,
            out_of_order: 0,
            agreeing: Vec::new(),
            differing: Vec::new(),
            agreeing_log: Vec::new(),
            differing_log: Vec::new(),
            agreeing_value: String::new(),
            differing_value: String::new(),
            panicked: None,
            file: None,
            program: program.into(),
        }
    }
    pub fn agrees(&self) -> bool {
        self.verdict == Verdict::Agrees
    }
}

impl fmt::Display for Finding {
    fn fmt(&self, o: &mut fmt::Formatter<'_>) -> fmt::Result {
        let came = self.panicked.as_ref().map_or("comes to something else".into(), |text| format!("panics: \"{text}\","));
        let (job, early, late, n) = (&self.job, &self.early, &self.late, &self.given.settings);
        let list = |order: &Order| {
            let marked = |s: &Step| s.is(early) || s.is(late);
            let at = order.iter().position(marked).unwrap_or(0);
            let from = at.saturating_sub(2);
            let mut text = String::from(if from > 0 { "..., " } else { "" });
            for s in order.iter().skip(from).take(at + 3 - from) {
                let _ = if marked(s) { write!(text, "[{s}], ") } else { write!(text, "{s}, ") };
            }
            text + "..."
        };
        match self.verdict {
            Verdict::Agrees => {
                write!(o, "{} orders agree", self.orders)?;
                if self.runs > 0 {
                    write!(o, ", and {} runs on threads", self.runs)?;
                }
                return writeln!(o, "{}", if self.out_of_time { "; the time was up before the others" } else { "" });
            }
            Verdict::NotRepeatable => writeln!(
                o,
                "not repeatable: {job} {came} when the same order is played a second time\n    {}\n  and then\n    {}\n  It reads what neither its arguments nor the order settle: a static that the run before left, an address, the iteration\n  order of a HashMap, the time, or a random device.",
                self.agreeing_value, self.differing_value
            )?,
            Verdict::Settings => writeln!(
                o,
                "depends on the settings: {job} {came} in the plain order with slots {}, started {}, running {}\n  It reads what another frame left, or a number of the settings.",
                n.slots, n.started, n.running
            )?,
            Verdict::Torn => writeln!(o, "depends on threads: a run on threads comes to something else, and its very order on one thread doesn't\n  Two jobs meet within their work, in an atomic or a lock that is taken twice.")?,
            Verdict::Unexplained => writeln!(o, "an order differs, and not each time: {job} {came}\n  It reads what neither its arguments nor the order settle.")?,
            Verdict::Order => {
                write!(o, "depends on the order: {job} {came} when ")?;
                let shared = if late.is(job) {
                    writeln!(o, "{early} runs just before it")?;
                    true
                } else if early.is(job) {
                    writeln!(o, "it runs just before {late}")?;
                    true
                } else {
                    writeln!(o, "{early} runs just before {late}")?;
                    false
                };
                if self.panicked.is_none() && self.agreeing_value != self.differing_value {
                    writeln!(o, "    {}\n  where it came to\n    {}", self.differing_value, self.agreeing_value)?;
                }
                writeln!(o, "  agrees:  {}\n  differs: {}", list(&self.agreeing), list(&self.differing))?;
                if self.neighbours {
                    writeln!(o, "  Up to there the two orders are the same, and these two steps are all that they have otherwise. Both are legal and were played again.")?;
                } else {
                    writeln!(o, "  Both orders are legal and were played again.")?;
                }
                if shared {
                    writeln!(o, "  So {early} and {late} share what they may not: look at what both touch besides their arguments.")?;
                } else {
                    writeln!(o, "  So these two share something besides their arguments, whose state {job} reads later.")?;
                }
            }
        }
        if self.seed > 0 {
            write!(o, "  found at seed {} ({} workers, slots {}, started {}, running {}), ", self.seed, self.given.workers, n.slots, n.started, n.running)?;
        } else {
            write!(o, "  found ")?;
        }
        write!(o, "in {:.2} s, with {} replays to make it small", self.seconds, self.replays)?;
        if self.out_of_order > 0 {
            write!(o, ": {} step{} out of the plain order", self.out_of_order, if self.out_of_order > 1 { "s" } else { "" })?;
        }
        writeln!(o)?;
        match &self.file {
            Some(file) => writeln!(o, "  again: {} --replay {file}", self.program),
            None => Ok(()),
        }
    }
}

pub(crate) fn quoted(text: &str) -> String {
    let mut all = String::from('"');
    for c in text.chars() {
        match c {
            '"' | '\\' => all.extend(['\\', c]),
            '\n' => all.push_str("\\n"),
            c if (c as u32) < 32 => all.push_str(&format!("\\u{:04x}", c as u32)),
            c => all.push(c),
        }
    }
    all + "\""
}
pub(crate) fn json_of_step(s: &Step) -> String {
    let kind = match (s.kind, s.question) {
        (Kind::Turn, 0) => "input",
        (Kind::Turn, _) => "turn",
        (Kind::Think, _) => "think",
        (Kind::Answer, _) => "answer",
        (Kind::Draw, _) => "draw",
        (Kind::Show, _) => "show",
    };
    format!("{{\"name\": {}, \"kind\": \"{kind}\", \"frame\": {}, \"index\": {}, \"question\": {}}}", quoted(&s.to_string()), s.frame, s.index, s.question)
}
impl Finding {
    /// The same as one JSON object; `null` stands for what a verdict hasn't.
    pub fn json(&self) -> String {
        let verdict = match self.verdict {
            Verdict::Agrees => "agrees",
            Verdict::NotRepeatable => "not repeatable",
            Verdict::Settings => "settings",
            Verdict::Order => "order",
            Verdict::Torn => "torn",
            Verdict::Unexplained => "unexplained",
        };
        let (job, pair, n) = (!self.agrees() && self.verdict != Verdict::Torn, self.verdict == Verdict::Order, &self.given.settings);
        let or_null = |is: bool, text: String| if is { text } else { "null".into() };
        let fields: Vec<(&str, String)> = vec![
            ("verdict", quoted(verdict)),
            ("orders", self.orders.to_string()),
            ("runs", self.runs.to_string()),
            ("steps", self.steps.to_string()),
            ("replays", self.replays.to_string()),
            ("seconds", self.seconds.to_string()),
            ("out_of_time", self.out_of_time.to_string()),
            ("seed", or_null(self.seed > 0, self.seed.to_string())),
            ("job", or_null(job, json_of_step(&self.job))),
            ("early", or_null(pair, json_of_step(&self.early))),
            ("late", or_null(pair, json_of_step(&self.late))),
            ("neighbours", or_null(pair, self.neighbours.to_string())),
            ("out_of_order", or_null(pair, self.out_of_order.to_string())),
            ("agreeing_value", or_null(job, quoted(&self.agreeing_value))),
            ("differing_value", or_null(job, quoted(&self.differing_value))),
            ("thrown", self.panicked.as_deref().map_or("null".into(), quoted)),
            ("log", self.file.as_deref().map_or("null".into(), quoted)),
            ("workers", self.given.workers.to_string()),
            ("slots", n.slots.to_string()),
            ("started", n.started.to_string()),
            ("running", n.running.to_string()),
            ("text", quoted(&self.to_string())),
        ];
        let fields: Vec<String> = fields.into_iter().map(|(name, value)| format!("\"{name}\": {value}")).collect();
        format!("{{{}}}", fields.join(", "))
    }
}
