//! Is a scheduler of one's own right? Its jobs say what they do, in debug builds; the first event that no legal order has is named, with what
//! it lacks. Calls may come from any thread, and each takes a lock. What is illegal the proved board decides; what an event lacks is worked
//! out beside it, and tested.
use crate::board::{Board, Job, Kind, Settings, Status};
use std::collections::{BTreeMap, BTreeSet};
use std::sync::Mutex;

const WORKERS: u32 = 64;

#[derive(Default)]
struct Frame {
    begun: bool,
    turned: bool,
    asked: BTreeMap<u32, u32>,
    answered: BTreeSet<(u32, u32)>,
    thought: BTreeSet<u32>,
    drawn: BTreeSet<u32>,
}

struct State {
    board: Board,
    runs: BTreeMap<Key, u32>,
    frames: BTreeMap<u32, Frame>,
    shown: u32,
    events: u64,
    first: Option<String>,
}

/// The judge of a scheduler that runs at most 64 jobs at once, and at most 9999 frames.
pub struct Judge {
    settings: Settings,
    state: Mutex<State>,
}

/// The first event that no legal order has, and what it lacks.
pub type Judged = Result<(), String>;

type Key = (Kind, u32, u32, u32);

fn key(j: &Job) -> Key {
    (j.kind, j.frame, j.index, if j.kind == Kind::Answer { j.question } else { 0 })
}
fn text(j: &Job) -> String {
    match j.kind {
        Kind::Turn => format!("the turn of frame {}", j.frame),
        Kind::Think => format!("think {} {}", j.frame, j.index),
        Kind::Answer => format!("answer {} {} {}", j.frame, j.index, j.question),
        _ => format!("draw {} {}", j.frame, j.index),
    }
}

impl State {
    fn wrong(&mut self, what: &str, lacks: &str) -> Judged {
        let text = format!("event {} can't be: {what}, but {lacks}", self.events);
        Err(self.first.get_or_insert(text).clone())
    }
    fn idle(&self) -> Option<u32> {
        (0..WORKERS).find(|w| !self.runs.values().any(|r| r == w))
    }
    fn not_begun(&self, frame: u32, n: &Settings) -> Option<String> {
        let turned = |f: u32| f <= self.shown || self.frames.get(&f).is_some_and(|f| f.turned);
        if frame == 0 || frame > n.frames {
            Some("there is no such frame".into())
        } else if frame <= self.shown || self.frames.get(&frame).is_some_and(|f| f.begun) {
            Some("it has begun before".into())
        } else if frame > 1 && !turned(frame - 1) {
            Some(format!("the turn of frame {} isn't over", frame - 1))
        } else if frame > self.shown + n.slots {
            Some(format!("its slot is still that of frame {}, which isn't shown", frame - n.slots))
        } else {
            None
        }
    }
    fn lacks(&self, j: &Job, n: &Settings) -> String {
        if self.runs.contains_key(&key(j)) {
            return "it runs already".into();
        }
        if j.frame > 0 && j.frame <= self.shown {
            return format!("frame {} is shown already", j.frame);
        }
        let Some(f) = self.frames.get(&j.frame).filter(|f| f.begun) else { return format!("frame {} hasn't begun", j.frame) };
        let asked = f.asked.get(&j.index).copied().unwrap_or(0);
        match j.kind {
            Kind::Turn if f.turned => "it is over".into(),
            Kind::Turn => match (0..n.agents).find(|a| !f.thought.contains(a)) {
                Some(a) => format!("think {} {a} isn't over", j.frame),
                None => "more jobs run at once than the settings have workers and fibers".into(),
            },
            Kind::Think if f.thought.contains(&j.index) => "it is over".into(),
            Kind::Think if asked > 0 && !f.answered.contains(&(j.index, asked - 1)) => {
                format!("answer {} {} {}, for which it waits, isn't over", j.frame, j.index, asked - 1)
            }
            Kind::Answer if j.question >= asked => "its think hasn't asked it".into(),
            Kind::Answer => "it is over".into(),
            Kind::Draw if !f.turned => format!("the turn of frame {} isn't over", j.frame),
            Kind::Draw if f.drawn.contains(&j.index) => "it is over".into(),
            _ => "there is no such job, or more jobs run at once than the settings have workers and fibers".into(),
        }
    }
}

impl Judge {
    pub fn new(settings: &Settings) -> Result<Judge, Status> {
        let board = Board::new(settings, settings.frames, WORKERS)?;
        let state = State { board, runs: BTreeMap::new(), frames: BTreeMap::new(), shown: 0, events: 0, first: None };
        Ok(Judge { settings: *settings, state: Mutex::new(state) })
    }
    pub fn turn(frame: u32) -> Job {
        Job { kind: Kind::Turn, frame, index: 0, question: 1 }
    }
    pub fn think(frame: u32, agent: u32) -> Job {
        Job { kind: Kind::Think, frame, index: agent, question: 0 }
    }
    pub fn answer(frame: u32, agent: u32, question: u32) -> Job {
        Job { kind: Kind::Answer, frame, index: agent, question }
    }
    pub fn draw(frame: u32, band: u32) -> Job {
        Job { kind: Kind::Draw, frame, index: band, question: 0 }
    }
    fn event(&self, says: impl FnOnce(&mut State) -> Judged) -> Judged {
        let mut state = self.state.lock().unwrap_or_else(|e| e.into_inner());
        if let Some(first) = &state.first {
            return Err(first.clone());
        }
        state.events += 1;
        says(&mut state)
    }
    /// Whether all was legal so far.
    pub fn verdict(&self) -> Judged {
        self.state.lock().unwrap_or_else(|e| e.into_inner()).first.clone().map_or(Ok(()), Err)
    }
    /// The world that a frame starts from stands in its slot: its thinks may run.
    pub fn begin(&self, frame: u32) -> Judged {
        self.event(|s| {
            let what = format!("frame {frame} begins");
            if let Some(lacks) = s.not_begun(frame, &self.settings) {
                return s.wrong(&what, &lacks);
            }
            let job = Job { kind: Kind::Turn, frame, index: 0, question: 0 };
            let begun = s.idle().is_some_and(|w| matches!(s.board.take_up(w, job), Ok(Some(_))) && matches!(s.board.spread(w), Ok(true)));
            if !begun {
                return s.wrong(&what, "more jobs run at once than the settings have workers and fibers");
            }
            s.frames.entry(frame).or_default().begun = true;
            Ok(())
        })
    }
    pub fn start(&self, job: Job) -> Judged {
        self.event(|s| {
            let begun = s.frames.get(&job.frame).is_some_and(|f| f.begun);
            let free = if s.runs.contains_key(&key(&job)) || !begun { None } else { s.idle() };
            match free.filter(|w| matches!(s.board.take_up(*w, job), Ok(Some(_)))) {
                Some(worker) => {
                    s.runs.insert(key(&job), worker);
                    Ok(())
                }
                None => {
                    let lacks = s.lacks(&job, &self.settings);
                    s.wrong(&format!("{} starts", text(&job)), &lacks)
                }
            }
        })
    }
    pub fn ask(&self, job: Job) -> Judged {
        self.event(|s| {
            let Some(worker) = s.runs.get(&key(&job)).copied() else { return s.wrong(&format!("{} asks", text(&job)), "it doesn't run") };
            if s.board.ask(worker).is_err() {
                return s.wrong(&format!("{} asks", text(&job)), "it has asked as often as settings.most_questions");
            }
            s.runs.remove(&key(&job));
            *s.frames.entry(job.frame).or_default().asked.entry(job.index).or_insert(0) += 1;
            Ok(())
        })
    }
    pub fn finish(&self, job: Job) -> Judged {
        self.event(|s| {
            let worker = s.runs.get(&key(&job)).copied();
            if !worker.is_some_and(|w| s.board.finish(w).is_ok()) {
                return s.wrong(&format!("{} is over", text(&job)), "it doesn't run");
            }
            s.runs.remove(&key(&job));
            let f = s.frames.entry(job.frame).or_default();
            match job.kind {
                Kind::Turn => f.turned = true,
                Kind::Think => drop(f.thought.insert(job.index)),
                Kind::Answer => drop(f.answered.insert((job.index, job.question))),
                _ => drop(f.drawn.insert(job.index)),
            }
            Ok(())
        })
    }
    /// A frame is shown, and nobody reads its slot any more.
    pub fn show(&self, frame: u32) -> Judged {
        self.event(|s| {
            let what = format!("frame {frame} is shown");
            if frame != s.shown + 1 {
                let next = format!("the next to be shown is frame {}", s.shown + 1);
                return s.wrong(&what, &next);
            }
            if s.board.show() != Some(frame) {
                let f = s.frames.entry(frame).or_default();
                let undrawn = (0..self.settings.bands).find(|b| !f.drawn.contains(b));
                let lacks = match undrawn {
                    Some(b) if f.turned => format!("draw {frame} {b} isn't over"),
                    _ => "its turn isn't over".into(),
                };
                return s.wrong(&what, &lacks);
            }
            s.frames.remove(&frame);
            s.shown = frame;
            Ok(())
        })
    }
}
