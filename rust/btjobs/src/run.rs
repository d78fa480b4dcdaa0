//! Runs: on threads, on one, and a log's order again.
use crate::board::{Board, Event, EventKind, Job, Kind, Settings, Status, ENDLESS};
use crate::game::Game;
use crate::store::{work, Done, Store, Task};
use std::panic::{catch_unwind, resume_unwind, AssertUnwindSafe};
use std::sync::atomic::{AtomicU32, Ordering};
use std::sync::{Arc, Condvar, Mutex, MutexGuard};
use std::time::{Duration, Instant};

/// How a run ended.
pub struct Ended<G: Game> {
    /// Of the last frame that was shown.
    pub world: Arc<G::World>,
    /// How many were shown.
    pub frames: u32,
    /// Of the board: how many the log names.
    pub workers: u32,
    /// Of the frames behind `before`: plays the same order again.
    pub log: Vec<Event>,
    /// 0, but of an endless run: the frames of the seasons before its last one.
    pub before: u32,
    /// The world behind frame `before`.
    pub began: Arc<G::World>,
}

/// How a run uses threads: `Threads::from(8)`, or just `8`.
#[derive(Clone, Copy, Debug)]
pub struct Threads {
    /// Threads, the caller's among them: 1 to 64.
    pub count: u32,
    /// Jobs that a thread takes up under one hold of the lock; 0: as many as last some microseconds, up to 8.
    pub at_once: u32,
    /// For so many microseconds a thread that finds no job looks again before it sleeps; 0 where there are fewer processors than threads.
    pub look_us: u32,
}
impl From<u32> for Threads {
    fn from(count: u32) -> Threads {
        Threads { count, at_once: 0, look_us: 100 }
    }
}

/// What a callback of `run` may answer: nothing, or whether to go on behind this frame.
pub trait GoOn {
    fn go_on(self) -> bool;
}
impl GoOn for () {
    fn go_on(self) -> bool {
        true
    }
}
impl GoOn for bool {
    fn go_on(self) -> bool {
        self
    }
}

fn season_of(n: &Settings, before: u32) -> u32 {
    if n.frames == ENDLESS {
        n.season
    } else {
        n.season.min(n.frames - before)
    }
}

struct Shared<G: Game, F> {
    settings: Settings,
    workers: u32,
    board: Board,
    store: Store<G>,
    on_frame: F,
    asleep: u32,
    may_show: bool,
    over: bool,
    of_season: u32,
    shown: u32,
    last: Arc<G::World>,
    began: Arc<G::World>,
    log: Vec<Event>,
    panic: Option<Box<dyn std::any::Any + Send>>,
}

impl<G: Game, R: GoOn, F: FnMut(u32, &G::World, &[G::Band]) -> R> Shared<G, F> {
    fn is_over(&self) -> bool {
        self.over || self.panic.is_some()
    }
    fn keep_log(&mut self) {
        if self.settings.frames == ENDLESS {
            self.log.clear();
        }
        let before = self.store.before;
        let events = self.board.log().into_iter().filter(|e| e.kind != EventKind::Stop);
        self.log.extend(events.map(|e| Event { job: Job { frame: e.job.frame + before, ..e.job }, ..e }));
    }
    /// Shows what can be shown, and begins the next season behind the last frame of one. True where all that wait have to look again.
    fn show(&mut self) -> bool {
        let mut wake = false;
        self.may_show = false;
        while !self.over {
            let Some(frame) = self.board.show() else { break };
            let (world, bands) = self.store.shown(frame);
            self.shown = self.store.before + frame;
            let on = (self.on_frame)(self.shown, &world, &bands).go_on();
            self.last = world;
            if !on || self.shown == self.settings.frames {
                self.over = true;
            } else if frame == self.of_season {
                self.keep_log();
                self.store.before += self.of_season;
                self.began = self.store.world();
                self.of_season = season_of(&self.settings, self.store.before);
                self.board = Board::new(&self.settings, self.of_season, self.workers).expect("btjobs: open");
            } else {
                continue;
            }
            wake = true;
        }
        wake
    }
}

struct Run<'a, G: Game, F> {
    game: &'a G,
    threads: Threads,
    each: u32, // workers of the board that a thread stands for
    shared: Mutex<Shared<G, F>>,
    condition: Condvar,
    news: AtomicU32, // written under the lock
}

// How many jobs a thread takes up at once: so many as last some 8 us, by the time that the last ones took.
struct Batch {
    most: u32,
    now: u32,
    measures: bool,
    until_measured: u32,
}
impl Batch {
    fn new(most: u32, fixed: bool) -> Batch {
        Batch { most, now: if fixed { most } else { 1 }, measures: !fixed && most > 1, until_measured: 0 }
    }
    fn begins(&mut self) -> Option<Instant> {
        if self.until_measured > 0 {
            self.until_measured -= 1;
            return None;
        }
        self.measures.then(Instant::now)
    }
    fn ends(&mut self, began: Option<Instant>, jobs: u32) {
        if let Some(began) = began {
            let each = began.elapsed().as_nanos() as u64 / u64::from(jobs);
            self.now = (8000 / (each + 1)).clamp(1, u64::from(self.most)) as u32;
            self.until_measured = 15;
        }
    }
}

impl<G: Game, R: GoOn, F: FnMut(u32, &G::World, &[G::Band]) -> R + Send> Run<'_, G, F> {
    fn lock(&self) -> MutexGuard<'_, Shared<G, F>> {
        if self.threads.look_us > 0 {
            for i in 0..64u32 {
                if let Ok(hold) = self.shared.try_lock() {
                    return hold;
                }
                (0..1u32 << i.min(4)).for_each(|_| std::hint::spin_loop());
            }
        }
        self.shared.lock().unwrap_or_else(|e| e.into_inner())
    }
    /// Looks for news without the lock; whether there are some.
    fn looks(&self, seen: u32) -> bool {
        if self.threads.look_us == 0 {
            return false;
        }
        let until = Instant::now() + Duration::from_micros(u64::from(self.threads.look_us)); // (a pause takes 10 to 140 cycles)
        loop {
            for _ in 0..16 {
                if self.news.load(Ordering::Acquire) != seen {
                    return true;
                }
                std::hint::spin_loop();
            }
            if Instant::now() >= until {
                return false;
            }
        }
    }
    fn tell(&self) {
        self.news.store(self.news.load(Ordering::Relaxed).wrapping_add(1), Ordering::Release);
    }
    fn wake_all(&self) {
        self.tell();
        self.condition.notify_all();
    }
    fn thread(&self, thread: u32) {
        let mut batch = Batch::new(self.each, self.threads.at_once > 0);
        let mut tasks: Vec<(Job, u32, Task<G>)> = Vec::new();
        let mut done: Vec<(Job, Done<G>)> = Vec::new();
        let mut hold = self.lock();
        let mut looked = false;
        while !hold.is_over() {
            let all = &mut *hold;
            while (tasks.len() as u32) < batch.now {
                let Some(job) = all.board.take(thread * self.each + tasks.len() as u32).expect("btjobs: take") else { break };
                tasks.push((job, all.store.before + job.frame, all.store.task(&job)));
                if job.kind == Kind::Turn {
                    break;
                }
            }
            if tasks.is_empty() {
                if looked {
                    hold.asleep += 1;
                    hold = self.condition.wait(hold).unwrap_or_else(|e| e.into_inner());
                    hold.asleep -= 1;
                    looked = false;
                } else {
                    let seen = self.news.load(Ordering::Relaxed);
                    drop(hold);
                    let found = self.looks(seen);
                    hold = self.lock();
                    looked = !found && self.news.load(Ordering::Relaxed) == seen;
                }
                continue;
            }
            looked = false;
            if all.asleep > 0 && all.board.may_take() {
                self.condition.notify_one(); // who is woken wakes the next
            }
            drop(hold);
            let (began, jobs) = (batch.begins(), tasks.len() as u32);
            done.extend(tasks.drain(..).map(|(job, frame, task)| (job, work(self.game, frame, job.index, task))));
            batch.ends(began, jobs);
            hold = self.lock();
            let all = &mut *hold;
            if all.is_over() {
                break;
            }
            let (mut news, mut begun) = (false, false);
            for (i, (job, done)) in done.drain(..).enumerate() {
                all.may_show |= job.kind == Kind::Draw || job.kind == Kind::Turn;
                news |= job.kind != Kind::Think || matches!(done, Done::Asked(..)); // the end of a think leads to nothing but, of the last, the turn
                begun |= all
                    .store
                    .tell(&mut all.board, thread * self.each + i as u32, &job, done)
                    .expect("btjobs: tell (more questions than settings.most_questions?)");
            }
            if all.may_show && all.show() || begun && all.asleep > 0 {
                self.wake_all();
            } else if news {
                self.tell();
            }
        }
    }
    // A panic of a job, or of the callback, ends the run.
    fn guarded(&self, thread: u32) {
        if let Err(panic) = catch_unwind(AssertUnwindSafe(|| self.thread(thread))) {
            let mut all = self.lock_anyway();
            all.board.stop();
            all.panic.get_or_insert(panic);
        }
        let _hold = self.lock_anyway();
        self.wake_all();
    }
    fn lock_anyway(&self) -> MutexGuard<'_, Shared<G, F>> {
        self.shared.lock().unwrap_or_else(|e| e.into_inner())
    }
}

/// Plays a game on threads. `on_frame` is called for each frame, one after another; it may answer false, which ends the run behind this
/// frame. A panic of a job, or of `on_frame`, stops the run and comes out of here.
///
/// # Panics
/// Also where the settings are out of their limits, or a think asks more than `settings.most_questions`.
pub fn run<G: Game, R: GoOn, F: FnMut(u32, &G::World, &[G::Band]) -> R + Send>(
    game: &G,
    settings: &Settings,
    threads: impl Into<Threads>,
    on_frame: F,
) -> Ended<G> {
    let mut threads = threads.into();
    if threads.count < 2 || std::thread::available_parallelism().is_ok_and(|p| (p.get() as u32) < threads.count) {
        threads.look_us = 0;
    }
    assert!(settings.season > 0, "btjobs: a season is at least one frame");
    let each = if threads.at_once > 0 { threads.at_once } else { (64 / threads.count.max(1)).clamp(1, 8) };
    let (workers, of_season) = (threads.count * each, season_of(settings, 0));
    let board = Board::new(settings, of_season, workers).unwrap_or_else(|status| panic!("btjobs: the settings of a game: {status}"));
    let start = Arc::new(game.start());
    let first = start.clone();
    let shared = Mutex::new(Shared {
        settings: *settings,
        workers,
        board,
        store: Store::new(settings, start.clone()),
        on_frame,
        asleep: 0,
        may_show: false,
        over: settings.frames == 0,
        of_season,
        shown: 0,
        last: start.clone(),
        began: start,
        log: Vec::new(),
        panic: None,
    });
    let run = Run { game, threads, each, shared, condition: Condvar::new(), news: AtomicU32::new(0) };
    std::thread::scope(|scope| {
        for thread in 1..threads.count {
            let run = &run;
            scope.spawn(move || run.guarded(thread));
        }
        run.guarded(0);
    });
    let mut shared = run.shared.into_inner().unwrap_or_else(|e| e.into_inner());
    if let Some(panic) = shared.panic.take() {
        drop(shared);
        resume_unwind(panic);
    }
    shared.keep_log();
    let before = if settings.frames == ENDLESS { shared.store.before } else { 0 };
    let began = if before > 0 { shared.began } else { first };
    Ended { world: shared.last, frames: shared.shown, workers, log: shared.log, before, began }
}

/// Plays a game on this thread, in the order of one worker.
pub fn run_serial<G: Game, R: GoOn, F: FnMut(u32, &G::World, &[G::Band]) -> R + Send>(game: &G, settings: &Settings, on_frame: F) -> Ended<G> {
    run(game, settings, Threads { count: 1, at_once: 1, look_us: 0 }, on_frame)
}

/// Plays the order of a run again, on this thread, each job whole where it is told. Err is the place of the first event that isn't what
/// the game does.
pub fn replay<G: Game, R: GoOn, F: FnMut(u32, &G::World, &[G::Band]) -> R>(game: &G, n: &Settings, run: &Ended<G>, mut on_frame: F) -> Result<Ended<G>, usize> {
    let (workers, mut of_season, mut shown) = (run.workers, season_of(n, run.before), run.before);
    let open = |frames| Board::new(n, frames, workers).unwrap_or_else(|status| panic!("btjobs: the settings of a game: {status}"));
    let (mut board, mut store) = (open(of_season), Store::new(n, run.began.clone()));
    store.before = run.before;
    let mut last = store.world();
    let mut running: Vec<Option<Job>> = vec![None; workers as usize];
    for (at, event) in run.log.iter().enumerate() {
        let wrong = |_: Status| at;
        let mut job = event.job;
        if event.kind == EventKind::Stop {
            break;
        }
        if job.frame <= store.before {
            return Err(at);
        }
        if job.frame - store.before > of_season {
            if shown != store.before + of_season {
                return Err(at);
            }
            store.before += of_season;
            of_season = season_of(n, store.before);
            board = open(of_season);
        }
        job.frame -= store.before;
        match event.kind {
            EventKind::Emit => {
                if board.show() != Some(job.frame) {
                    return Err(at);
                }
                let (world, bands) = store.shown(job.frame);
                shown = event.job.frame;
                let on = on_frame(shown, &world, &bands).go_on();
                last = world;
                if !on {
                    break;
                }
            }
            _ if event.worker >= workers => return Err(at),
            EventKind::Start | EventKind::Resume => {
                let place = &mut running[event.worker as usize];
                if place.is_some() {
                    return Err(at);
                }
                *place = Some(board.take_up(event.worker, job).map_err(wrong)?.ok_or(at)?);
            }
            kind => {
                let job = running[event.worker as usize].take().ok_or(at)?;
                let task = store.task(&job);
                let done = work(game, store.before + job.frame, job.index, task);
                let told = match done {
                    Done::Begun(_) => kind == EventKind::Spread || kind == EventKind::Hold,
                    Done::Asked(..) => kind == EventKind::Ask,
                    _ => kind == EventKind::Finish,
                };
                if !told {
                    return Err(at);
                }
                store.tell(&mut board, event.worker, &job, done).map_err(wrong)?;
            }
        }
    }
    Ok(Ended { world: last, frames: shown, workers, log: run.log.clone(), before: run.before, began: run.began.clone() })
}
