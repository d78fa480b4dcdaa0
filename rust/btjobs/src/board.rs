//! The calls of btjobs.h, and an owner of a board. The only unsafe code of the crate is here.
use std::fmt;

#[repr(C)]
struct Handle {
    held: *mut u8,
    is_open: bool,
}
#[repr(C)]
#[derive(Default)]
struct Numbers {
    frames: u32,
    agents: u32,
    bands: u32,
    workers: u32,
    small: u32,
    large: u32,
    slots: u32,
    most_questions: u32,
}
#[repr(C)]
#[derive(Clone, Copy, Default)]
struct CJob {
    kind: u32,
    frame: u32,
    index: u32,
    question: u32,
}
#[repr(C)]
#[derive(Clone, Copy, Default)]
struct CEvent {
    kind: u32,
    worker: u32,
    job: CJob,
}

extern "C" {
    fn btjobs_open(board: *mut Handle, numbers: *const Numbers) -> u32;
    fn btjobs_take(board: *mut Handle, worker: u32, job: *mut CJob) -> u32;
    fn btjobs_may_take(board: *mut Handle, may: *mut bool) -> u32;
    fn btjobs_start(board: *mut Handle, worker: u32, job: *const CJob) -> u32;
    fn btjobs_resume(board: *mut Handle, worker: u32, job: *const CJob, step: *mut u32) -> u32;
    fn btjobs_spread(board: *mut Handle, worker: u32, spread: *mut bool) -> u32;
    fn btjobs_ask(board: *mut Handle, worker: u32, path: *mut CJob) -> u32;
    fn btjobs_finish(board: *mut Handle, worker: u32) -> u32;
    fn btjobs_show(board: *mut Handle, frame: *mut u32) -> u32;
    fn btjobs_stop(board: *mut Handle) -> u32;
    fn btjobs_count(board: *mut Handle, count: *mut usize) -> u32;
    fn btjobs_events(board: *mut Handle, from: usize, events: *mut CEvent, room: usize, count: *mut usize) -> u32;
    fn btjobs_write_log(numbers: *const Numbers, season: u32, events: *const CEvent, count: usize, text: *mut u8, room: usize, size: *mut usize) -> u32;
    fn btjobs_read_log(text: *const u8, length: usize, numbers: *mut Numbers, season: *mut u32, events: *mut CEvent, room: usize, count: *mut usize) -> u32;
    fn btjobs_close(board: *mut Handle);
}

/// The kinds of jobs by the names of a game's functions; and, of a step of an order, the showing of a frame.
#[derive(Clone, Copy, Debug, PartialEq, Eq, PartialOrd, Ord, Hash, Default)]
pub enum Kind {
    /// A frame's input, and the turn that makes its world.
    #[default]
    Turn,
    Think,
    Answer,
    Draw,
    Show,
}
const KINDS: [Kind; 4] = [Kind::Turn, Kind::Think, Kind::Answer, Kind::Draw];

#[derive(Clone, Copy, Debug, PartialEq, Eq, Default)]
pub enum EventKind {
    #[default]
    Start,
    Resume,
    Ask,
    Spread,
    Hold,
    Finish,
    Emit,
    Stop,
}
const EVENTS: [EventKind; 8] =
    [EventKind::Start, EventKind::Resume, EventKind::Ask, EventKind::Spread, EventKind::Hold, EventKind::Finish, EventKind::Emit, EventKind::Stop];

/// A job by its name. `question` is of an answer its number, of a think how many it has asked, of a turn 0 at its frame's input and 1 with
/// all thoughts.
#[derive(Clone, Copy, Debug, PartialEq, Eq, Default)]
pub struct Job {
    pub kind: Kind,
    /// From 1.
    pub frame: u32,
    /// The agent, or the band.
    pub index: u32,
    pub question: u32,
}
impl Job {
    fn raw(&self) -> CJob {
        CJob { kind: self.kind as u32, frame: self.frame, index: self.index, question: self.question }
    }
    fn of(raw: CJob) -> Job {
        Job { kind: KINDS[raw.kind as usize], frame: raw.frame, index: raw.index, question: raw.question }
    }
}

/// An event of a log.
#[derive(Clone, Copy, Debug, PartialEq, Eq, Default)]
pub struct Event {
    pub kind: EventKind,
    pub worker: u32,
    pub job: Job,
}

impl Event {
    fn raw(&self) -> CEvent {
        CEvent { kind: self.kind as u32, worker: self.worker, job: self.job.raw() }
    }
    fn of(raw: CEvent) -> Event {
        Event { kind: EVENTS[raw.kind as usize], worker: raw.worker, job: Job::of(raw.job) }
    }
}

/// Why a call was refused, which changed nothing; one of `btjobs_status`.
#[derive(Clone, Copy, PartialEq, Eq)]
pub struct Status(pub u32);
impl Status {
    pub const ILLEGAL: Status = Status(8);
    const NOTHING: Status = Status(9);
    pub const LIMITS: Status = Status(10);
    const SHORT: Status = Status(11);
    const LOG_HEAD: Status = Status(12);
    const LOG_LINE: Status = Status(13);
}
impl fmt::Debug for Status {
    fn fmt(&self, f: &mut fmt::Formatter<'_>) -> fmt::Result {
        const TEXTS: [&str; 14] = [
            "ok",
            "out of memory",
            "the board is closed",
            "the board is open",
            "the board is stopped",
            "no such worker",
            "the worker runs a job",
            "the worker runs no job",
            "not legal now",
            "nothing to take",
            "numbers out of limits",
            "the buffer is too short",
            "not the first line of a log",
            "not a line of a log",
        ];
        f.write_str(TEXTS.get(self.0 as usize).copied().unwrap_or("no such status"))
    }
}
impl fmt::Display for Status {
    fn fmt(&self, f: &mut fmt::Formatter<'_>) -> fmt::Result {
        fmt::Debug::fmt(self, f)
    }
}
impl std::error::Error for Status {}

/// As [`Settings::frames`]: until the callback of `run` answers false.
pub const ENDLESS: u32 = u32::MAX;

/// The numbers of a run.
#[derive(Clone, Copy, Debug, PartialEq, Eq)]
pub struct Settings {
    /// Any number, or [`ENDLESS`].
    pub frames: u32,
    /// Thinks of a frame: any number.
    pub agents: u32,
    /// Draws of a frame: any number.
    pub bands: u32,
    /// That one think may ask in a frame.
    pub most_questions: u32,
    /// Frames under way at once, 1 to 16.
    pub slots: u32,
    /// Turns and thinks that may have begun and not be over, 2 to 64.
    pub started: u32,
    /// Answers and draws that may run at once, 1 to 64.
    pub running: u32,
    /// Frames that are given to one board, 1 to 9999; behind them a new one goes on, and no job overlaps both.
    pub season: u32,
}
impl Default for Settings {
    fn default() -> Self {
        Settings { frames: 60, agents: 1, bands: 0, most_questions: 0, slots: 3, started: 64, running: 64, season: 600 }
    }
}

impl Numbers {
    fn of(n: &Settings, frames: u32, workers: u32) -> Numbers {
        Numbers { frames, agents: n.agents, bands: n.bands, workers, small: n.running, large: n.started, slots: n.slots, most_questions: n.most_questions }
    }
}

/// A log as text, without remarks.
pub(crate) fn log_text(n: &Settings, workers: u32, log: &[Event]) -> Result<Vec<u8>, Status> {
    let (numbers, events) = (Numbers::of(n, n.frames, workers), log.iter().map(Event::raw).collect::<Vec<_>>());
    let (mut text, mut size) = (vec![0; 256 + 40 * log.len()], 0);
    loop {
        // SAFETY: the pointers are of locals of the type and length that the header names, which live through the call.
        match Status(unsafe { btjobs_write_log(&numbers, n.season, events.as_ptr(), events.len(), text.as_mut_ptr(), text.len(), &mut size) }) {
            Status::SHORT => text.resize(size, 0),
            status => {
                text.truncate(size);
                return check(status.0).map(|()| text);
            }
        }
    }
}

/// What a text is the log of; or else the number of the first line that is none, from 1.
pub(crate) fn log_of(text: &[u8]) -> Result<(Settings, u32, Vec<Event>), usize> {
    let mut events = vec![CEvent::default(); text.iter().filter(|c| **c == b'\n').count() + 1];
    let (mut numbers, mut season, mut count) = (Numbers::default(), 0, 1);
    // SAFETY: as above.
    let status = unsafe { btjobs_read_log(text.as_ptr(), text.len(), &mut numbers, &mut season, events.as_mut_ptr(), events.len(), &mut count) };
    match Status(status) {
        Status(0) => {}
        Status::LOG_HEAD | Status::LOG_LINE => return Err(count),
        status => panic!("a log: {status}"),
    }
    let Numbers { frames, agents, bands, workers, small, large, slots, most_questions } = numbers;
    let settings = Settings { frames, agents, bands, most_questions, slots, started: large, running: small, season };
    Ok((settings, workers, events[..count].iter().copied().map(Event::of).collect()))
}

pub(crate) struct Board(Handle);

// SAFETY: a board owns its memory and shares none, and each call takes `&mut self`.
unsafe impl Send for Board {}

impl Drop for Board {
    fn drop(&mut self) {
        // SAFETY: the handle is open or closed, and is not used again.
        unsafe { btjobs_close(&mut self.0) }
    }
}

fn check(status: u32) -> Result<(), Status> {
    if status == 0 {
        Ok(())
    } else {
        Err(Status(status))
    }
}

// SAFETY of each call below: the handle was opened by `new` and is owned; the other pointers are of locals of the type that the header
// names, which live through the call.
impl Board {
    /// Of so many frames, at most 9999.
    pub fn new(n: &Settings, frames: u32, workers: u32) -> Result<Board, Status> {
        let numbers = Numbers::of(n, frames, workers);
        let mut handle = Handle { held: std::ptr::null_mut(), is_open: false };
        check(unsafe { btjobs_open(&mut handle, &numbers) })?;
        Ok(Board(handle))
    }
    /// A job for an idle worker, if there is one.
    pub fn take(&mut self, worker: u32) -> Result<Option<Job>, Status> {
        let mut job = CJob::default();
        match Status(unsafe { btjobs_take(&mut self.0, worker, &mut job) }) {
            Status::NOTHING => Ok(None),
            status => check(status.0).map(|()| Some(Job::of(job))),
        }
    }
    /// Whether an idle worker would be given a job.
    pub fn may_take(&mut self) -> bool {
        let mut may = false;
        unsafe { btjobs_may_take(&mut self.0, &mut may) == 0 && may }
    }
    /// This very job, new or ready; None where the worker may not.
    pub fn take_up(&mut self, worker: u32, mut job: Job) -> Result<Option<Job>, Status> {
        let (raw, mut step) = (job.raw(), 0);
        let mut status = Status(unsafe { btjobs_start(&mut self.0, worker, &raw) });
        if status == Status::ILLEGAL {
            status = Status(unsafe { btjobs_resume(&mut self.0, worker, &raw, &mut step) });
        }
        if status == Status::ILLEGAL {
            return Ok(None);
        }
        check(status.0)?;
        if job.kind != Kind::Answer {
            job.question = step;
        }
        Ok(Some(job))
    }
    /// Whether the frame of the worker's input begins now, or waits for its slot.
    pub fn spread(&mut self, worker: u32) -> Result<bool, Status> {
        let mut spread = false;
        check(unsafe { btjobs_spread(&mut self.0, worker, &mut spread) })?;
        Ok(spread)
    }
    pub fn ask(&mut self, worker: u32) -> Result<(), Status> {
        check(unsafe { btjobs_ask(&mut self.0, worker, &mut CJob::default()) })
    }
    pub fn finish(&mut self, worker: u32) -> Result<(), Status> {
        check(unsafe { btjobs_finish(&mut self.0, worker) })
    }
    /// The next frame is shown, if it can be.
    pub fn show(&mut self) -> Option<u32> {
        let mut frame = 0;
        (unsafe { btjobs_show(&mut self.0, &mut frame) } == 0).then_some(frame)
    }
    pub fn stop(&mut self) {
        unsafe { btjobs_stop(&mut self.0) };
    }
    /// What has happened.
    pub fn log(&mut self) -> Vec<Event> {
        let mut count = 0;
        unsafe { btjobs_count(&mut self.0, &mut count) };
        let mut all = vec![CEvent::default(); count];
        if count > 0 {
            unsafe { btjobs_events(&mut self.0, 0, all.as_mut_ptr(), all.len(), &mut count) };
        }
        all.into_iter().map(Event::of).collect()
    }
}
