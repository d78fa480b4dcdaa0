//! Steps, orders of steps, and what each step of a run came to.
use crate::board::{Event, EventKind, Kind, Settings};
use std::collections::HashMap;
use std::fmt;

/// A job's work from where it is taken up to where it is told, by its name, where `question` says how far it is: of a turn 0 is the frame's
/// input and 1 the turn itself, of a think how many answers it has, of an answer its number. Or, of kind `Show`, a frame that is shown.
#[derive(Clone, Copy, Debug, Default)]
pub struct Step {
    pub kind: Kind,
    pub frame: u32,
    pub index: u32,
    pub question: u32,
    pub worker: u32,
}
pub type Order = Vec<Step>;

impl Step {
    pub(crate) fn of(kind: Kind, frame: u32, index: u32, question: u32) -> Step {
        Step { kind, frame, index, question, worker: 0 }
    }
    /// Whether it is the same step, by whichever worker.
    pub fn is(&self, o: &Step) -> bool {
        (self.kind, self.frame, self.index, self.question) == (o.kind, o.frame, o.index, o.question)
    }
    pub(crate) fn number(&self) -> u64 {
        ((self.kind as u64) << 61) ^ (u64::from(self.frame) << 40) ^ (u64::from(self.index) << 12) ^ u64::from(self.question)
    }
    pub(crate) fn show(frame: u32) -> Step {
        Step::of(Kind::Show, frame, 0, 0)
    }
}
impl fmt::Display for Step {
    fn fmt(&self, f: &mut fmt::Formatter<'_>) -> fmt::Result {
        let Step { frame, index, question, .. } = self;
        match (self.kind, question) {
            (Kind::Turn, 0) => write!(f, "the input of frame {frame}"),
            (Kind::Turn, _) => write!(f, "the turn of frame {frame}"),
            (Kind::Think, 0) => write!(f, "think {frame} {index}"),
            (Kind::Think, 1) => write!(f, "think {frame} {index} after 1 answer"),
            (Kind::Think, n) => write!(f, "think {frame} {index} after {n} answers"),
            (Kind::Answer, _) => write!(f, "answer {frame} {index} {question}"),
            (Kind::Draw, _) => write!(f, "draw {frame} {index}"),
            (Kind::Show, _) => write!(f, "the showing of frame {frame}"),
        }
    }
}

/// The places of a frame's steps in the plain order: the input, each think with all its answers before the next think, the turn, the draws,
/// the showing.
#[derive(Clone, Copy)]
pub(crate) struct Places {
    agents: usize,
    bands: usize,
    parts: usize, // of a think, with its answers
}
impl Places {
    pub fn new(n: &Settings) -> Places {
        Places { agents: n.agents as usize, bands: n.bands as usize, parts: 2 * n.most_questions as usize + 1 }
    }
    pub fn count(&self) -> usize {
        3 + self.agents * self.parts + self.bands
    }
    pub fn of(&self, s: &Step) -> usize {
        let (thinks, index, question) = (self.agents * self.parts, s.index as usize, s.question as usize);
        match s.kind {
            Kind::Turn if s.question == 0 => 0,
            Kind::Turn => 1 + thinks,
            Kind::Think => 1 + index * self.parts + 2 * question,
            Kind::Answer => 2 + index * self.parts + 2 * question,
            Kind::Draw => 2 + thinks + index,
            Kind::Show => 2 + thinks + self.bands,
        }
    }
    pub fn at(&self, frame: u32, p: usize) -> Step {
        let thinks = self.agents * self.parts;
        if p == 0 {
            Step::of(Kind::Turn, frame, 0, 0)
        } else if p <= thinks {
            let part = (p - 1) % self.parts;
            Step::of(if part % 2 == 1 { Kind::Answer } else { Kind::Think }, frame, ((p - 1) / self.parts) as u32, (part / 2) as u32)
        } else if p == 1 + thinks {
            Step::of(Kind::Turn, frame, 0, 1)
        } else if p < 2 + thinks + self.bands {
            Step::of(Kind::Draw, frame, (p - 2 - thinks) as u32, 0)
        } else {
            Step::show(frame)
        }
    }
}

/// What each step of a run came to, as a number that isn't 0.
#[derive(Clone)]
pub(crate) struct Results {
    places: Places,
    frames: Vec<Vec<u64>>,
}
impl Results {
    pub fn new(n: &Settings) -> Results {
        Results { places: Places::new(n), frames: Vec::new() }
    }
    pub fn put(&mut self, s: &Step, hash: u64) {
        let frame = s.frame as usize;
        if self.frames.len() < frame {
            self.frames.resize(frame, Vec::new());
        }
        let all = &mut self.frames[frame - 1];
        if all.is_empty() {
            *all = vec![0; self.places.count()];
        }
        all[self.places.of(s)] = hash;
    }
    pub fn get(&self, s: &Step) -> u64 {
        self.frames.get(s.frame as usize - 1).and_then(|f| f.get(self.places.of(s))).copied().unwrap_or(0)
    }
    /// The first step, in the plain order, at which two runs differ, of the frames behind the first `from` and up to `to`.
    pub fn first_difference(&self, o: &Results, from: u32, to: u32) -> Option<Step> {
        for (f, (one, other)) in self.frames.iter().zip(&o.frames).enumerate().take(to as usize).skip(from as usize) {
            if let Some(p) = one.iter().zip(other).position(|(a, b)| a != b) {
                return Some(self.places.at(f as u32 + 1, p));
            }
        }
        None
    }
}

/// The steps of a log: each where it was told.
pub(crate) fn order_of(log: &[Event]) -> Order {
    let mut asked: HashMap<(u32, u32), u32> = HashMap::new();
    let mut order = Vec::new();
    for e in log {
        match e.kind {
            EventKind::Emit => order.push(Step::show(e.job.frame)),
            EventKind::Ask | EventKind::Spread | EventKind::Finish => {
                let mut s = Step { kind: e.job.kind, frame: e.job.frame, index: e.job.index, question: 0, worker: e.worker };
                match s.kind {
                    Kind::Answer => s.question = e.job.question,
                    Kind::Turn => s.question = u32::from(e.kind == EventKind::Finish),
                    Kind::Think => {
                        let count = asked.entry((s.frame, s.index)).or_insert(0);
                        s.question = *count;
                        *count += 1;
                    }
                    _ => {}
                }
                order.push(s);
            }
            _ => {}
        }
    }
    order
}
