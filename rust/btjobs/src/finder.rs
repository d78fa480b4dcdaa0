//! Does a game's outcome depend on the order of its jobs? Plays it in legal orders drawn by seeds, on one thread, compares what every job
//! comes to, and makes a difference small: until two orders differ in two neighbouring steps.
use crate::board::{Event, Settings, Status};
use crate::finding::{Finding, Verdict};
use crate::game::Game;
use crate::hash::hash_of;
use crate::log::{write_log, Given};
use crate::player::Player;
use crate::run::{run, Threads};
use crate::step::{order_of, Order, Results, Step};
use crate::step_set::Random;
use std::panic::{catch_unwind, resume_unwind, AssertUnwindSafe};
use std::time::Instant;

#[derive(Clone, Debug)]
pub struct Options {
    pub seeds: u64,
    pub from: u64,
    /// No order is drawn after so long; 0: no limit.
    pub seconds: f64,
    /// On standard error.
    pub progress: bool,
    /// Where the order that differs is written.
    pub log: Option<String>,
    /// As the report calls it.
    pub program: String,
    /// Spent on making the order small.
    pub most_replays: u64,
    /// And then so many runs on so many threads, of which one that differs is explained by its log.
    pub runs: u64,
    pub threads: u32,
}
impl Default for Options {
    fn default() -> Self {
        Options {
            seeds: 1000,
            from: 1,
            seconds: 0.0,
            progress: false,
            log: Some("btjobs-order.log".into()),
            program: "PROGRAM".into(),
            most_replays: 3000,
            runs: 0,
            threads: 4,
        }
    }
}

// What a seed's order is played under: few and many workers, fibers and slots.
fn given_by(seed: u64, n: &Settings) -> Given {
    let mut given = Given { settings: *n, workers: 1 + Random::new(seed * 77 + 5).below(8) as u32 };
    if seed == 1 {
        given.workers = 1;
    }
    if seed % 16 == 5 {
        given.workers = 64;
    }
    match seed % 8 {
        2 | 6 => given.settings.slots = 1,
        3 | 7 => (given.settings.started, given.settings.running) = (2, 1),
        4 => given.settings.slots = (n.slots * 2).min(16),
        _ => {}
    }
    given
}

// Draws a whole order, by turns in four ways: any legal step alike; mostly the last by name (the first seed is the plain order backwards,
// which turns round nearly all pairs); by a drawn rank of each job; mostly the plain order.
fn play_drawn<G: Game>(p: &mut Player<G>, seed: u64, workers: u32, mut go_on: impl FnMut(&Player<G>) -> bool) -> Result<(), Status> {
    let mut r = Random::new(seed);
    let way = seed % 4;
    if way == 2 {
        p.rank_by(seed);
    }
    while !p.is_over() && go_on(p) {
        let open = p.open();
        if (open == 0 || way != 1 && r.below(4) == 0) && p.show()? {
            continue;
        }
        let step = if way == 2 {
            p.highest()
        } else if open > 0 && (way == 0 || seed != 1 && r.below(8) == 0) {
            Some(p.open_at(r.below(open)))
        } else if way == 1 {
            p.last()
        } else {
            p.first()
        };
        let played = match step {
            Some(s) => p.play(&Step { worker: r.below(workers as usize) as u32, ..s })?,
            None => p.show()?,
        };
        if !played {
            return Err(Status::ILLEGAL);
        }
    }
    Ok(())
}

struct Played {
    order: Order,
    results: Results,
    log: Vec<Event>,
    panic: Option<(String, Box<dyn std::any::Any + Send>)>,
    value: String,
}

pub(crate) fn text_of(panic: &(dyn std::any::Any + Send)) -> String {
    panic.downcast_ref::<&str>().map(|s| s.to_string()).or_else(|| panic.downcast_ref::<String>().cloned()).unwrap_or_else(|| "a panic".into())
}

// A panic of a job's is a result here, and not printed each time.
pub(crate) fn quietly<T>(what: impl FnOnce() -> T) -> std::thread::Result<T> {
    thread_local!(static QUIET: std::cell::Cell<bool> = const { std::cell::Cell::new(false) });
    static ONCE: std::sync::Once = std::sync::Once::new();
    ONCE.call_once(|| {
        let before = std::panic::take_hook();
        std::panic::set_hook(Box::new(move |info| {
            if !QUIET.with(|q| q.get()) {
                before(info);
            }
        }));
    });
    let before = QUIET.with(|q| q.replace(true));
    let result = catch_unwind(AssertUnwindSafe(what));
    QUIET.with(|q| q.set(before));
    result
}

struct Explorer<'a, M> {
    make: &'a M,
    settings: Settings,
    options: Options,
    found: Finding,
    began: Instant,
}

impl<G: Game, M: Fn() -> G> Explorer<'_, M> {
    fn played(&mut self, given: &Given, watched: Option<Step>, play: impl FnOnce(&mut Player<G>) -> Result<(), Status>) -> Played {
        let game = (self.make)();
        let mut p = Player::new(&game, given).unwrap_or_else(|status| panic!("btjobs: {status:?}"));
        p.watched = watched;
        let panic = match quietly(|| play(&mut p)) {
            Ok(result) => {
                result.unwrap_or_else(|status| panic!("btjobs: {status:?} (more questions than settings.most_questions?)"));
                None
            }
            Err(panic) => {
                let text = text_of(&*panic);
                if let Some(last) = p.order.last().copied() {
                    p.results.put(&last, hash_of(&text));
                }
                Some((text, panic))
            }
        };
        self.found.steps += p.order.len() as u64;
        let log = p.log();
        Played { order: std::mem::take(&mut p.order), results: p.results.clone(), log, panic, value: p.value.clone() }
    }
    // Each of these steps as soon as it is legal, with plain steps before it until it is; then the plain order. It ends once the frame
    // is shown.
    fn hybrid(&mut self, given: &Given, wanted: &[Step], frame: u32) -> Played {
        self.watch(given, wanted, frame, None)
    }
    fn watch(&mut self, given: &Given, wanted: &[Step], frame: u32, watched: Option<Step>) -> Played {
        self.played(given, watched, |p| {
            for s in wanted {
                while p.shown < frame && !p.is_done(s) && !p.play(s)? {
                    if !p.plain()? {
                        return Ok(());
                    }
                }
            }
            while p.shown < frame && p.plain()? {}
            Ok(())
        })
    }
    fn differs(&mut self, given: &Given, wanted: &[Step], job: &Step, plain: u64) -> bool {
        self.found.replays += 1;
        if self.options.progress && self.found.replays % 64 == 0 {
            eprint!("\rmaking it small: {} replays    ", self.found.replays);
        }
        self.hybrid(given, wanted, job.frame).results.get(job) != plain
    }
    // One step of the job's frame that alone, ahead of its turn, makes it differ, if there is one; or else the order as it was.
    fn one_alone(&mut self, given: &Given, order: Order, job: &Step, plain: u64) -> Order {
        if order.len() > 1 {
            let steps = self.hybrid(given, &[], job.frame).order;
            for s in steps.into_iter().filter(|s| s.frame == job.frame).take(300) {
                if self.differs(given, &[s], job, plain) {
                    return vec![s];
                }
            }
        }
        order
    }
    // As few as a pass of delta debugging gets: without any one of those that are left, it agrees.
    fn smallest(&mut self, given: &Given, mut order: Order, job: &Step, plain: u64) -> Order {
        let most = self.found.replays + self.options.most_replays;
        let mut part = (order.len() / 2).max(1);
        loop {
            let (mut less, mut from) = (false, 0);
            while from < order.len() && self.found.replays < most {
                let mut without = order[..from].to_vec();
                without.extend_from_slice(&order[(from + part).min(order.len())..]);
                if self.differs(given, &without, job, plain) {
                    order = without;
                    less = true;
                } else {
                    from += part;
                }
            }
            if part == 1 && !less || self.found.replays >= most {
                return order;
            }
            part = (part / 2).max(1);
        }
    }
    fn is_out_of_time(&mut self) -> bool {
        self.found.out_of_time = self.options.seconds > 0.0 && self.began.elapsed().as_secs_f64() > self.options.seconds;
        self.found.out_of_time
    }
    fn finish(mut self, verdict: Verdict) -> Finding {
        self.found.verdict = verdict;
        self.found.seconds = self.began.elapsed().as_secs_f64();
        if let (false, Some(path)) = (self.found.agrees(), &self.options.log) {
            let about = self.found.to_string();
            if std::fs::File::create(path).and_then(|mut f| write_log(&mut f, &self.found.given, &self.found.differing_log, &about)).is_ok() {
                self.found.file = Some(path.clone());
            }
        }
        if self.options.progress {
            eprint!("\r{:60}\r", "");
        }
        self.found
    }
    fn explore(mut self) -> Finding {
        let (frames, base) = (self.settings.frames, Given { settings: self.settings, workers: 1 });
        let plain = self.hybrid(&base, &[], frames);
        if let Some((_, panic)) = plain.panic {
            resume_unwind(panic); // it panics in the plain order: no matter of orders
        }
        for again in 1..=3 {
            let mut r = Random::new(again); // what reads memory that was used before, or its address, differs then
            let _kept: Vec<Vec<u8>> = (0..400).map(|_| vec![again as u8; 8 + r.below(600)]).filter(|v| v.len() % 2 == 0).collect();
            let other = self.hybrid(&base, &[], frames);
            if let Some(job) = plain.results.first_difference(&other.results, 0, frames) {
                self.found.agreeing_value = self.watch(&base, &[], job.frame, Some(job)).value;
                self.found.differing_value = self.watch(&base, &[], job.frame, Some(job)).value;
                self.put(job, base, other);
                return self.finish(Verdict::NotRepeatable);
            }
        }
        for seed in self.options.from..self.options.from + self.options.seeds {
            if self.is_out_of_time() {
                break;
            }
            let given = given_by(seed, &self.settings);
            let mut job = None;
            let drawn = self.played(&given, None, |p| {
                let mut seen = 0;
                play_drawn(p, seed, given.workers, |p| {
                    if p.shown != seen {
                        job = plain.results.first_difference(&p.results, seen, p.shown);
                        seen = p.shown;
                    }
                    job.is_none()
                })
            });
            self.found.orders += 1;
            if drawn.panic.is_some() {
                job = drawn.order.last().copied();
            }
            if let Some(job) = job.or_else(|| plain.results.first_difference(&drawn.results, 0, frames)) {
                return self.explain(seed, given, plain, drawn, job);
            }
            if self.options.progress && self.found.orders % 16 == 0 {
                let rate = self.found.orders as f64 / self.began.elapsed().as_secs_f64();
                eprint!("\rorders: {} of {}, {rate:.0} a second  ", self.found.orders, self.options.seeds);
            }
        }
        if self.options.runs > 0 {
            return self.on_threads(plain);
        }
        self.finish(Verdict::Agrees)
    }
    // Runs on threads. What one comes to in all is compared; where it differs its log says the order, which is played on one thread.
    fn on_threads(mut self, plain: Played) -> Finding {
        let (make, settings) = (self.make, self.settings);
        let digest = |threads: Threads| {
            let game = make();
            let mut all = Vec::new();
            let end = run(&game, &Settings { season: 9999, ..settings }, threads, |f, w, bands| all.extend([hash_of(w), hash_of(bands), game.show(f, bands)]));
            (all, end.log)
        };
        let (one, _) = digest(1.into());
        while self.found.runs < self.options.runs && !self.is_out_of_time() {
            self.found.runs += 1;
            let (now, log) = digest(Threads { count: self.options.threads, at_once: 1, look_us: 0 });
            if now == one {
                continue;
            }
            let given = Given { settings, workers: self.options.threads };
            let again = self.hybrid(&given, &order_of(&log), settings.frames);
            return match plain.results.first_difference(&again.results, 0, settings.frames) {
                Some(job) => self.explain(0, given, plain, again, job),
                None => {
                    (self.found.given, self.found.differing_log) = (given, log);
                    self.finish(Verdict::Torn)
                }
            };
        }
        self.finish(Verdict::Agrees)
    }
    fn put(&mut self, job: Step, given: Given, played: Played) {
        let f = &mut self.found;
        (f.job, f.given, f.differing, f.differing_log, f.panicked) = (job, given, played.order, played.log, played.panic.map(|p| p.0));
    }
    fn explain(mut self, seed: u64, given: Given, plain: Played, drawn: Played, mut job: Step) -> Finding {
        let frames = self.settings.frames;
        self.found.seed = seed;
        // the plain order, under what this order was played under
        let there = self.hybrid(&given, &[], frames);
        if let Some(first) = plain.results.first_difference(&there.results, 0, frames) {
            self.put(first, given, there);
            return self.finish(Verdict::Settings);
        }
        // a step is whole, so the worker doesn't matter to a game
        let mut order: Order = drawn.order.iter().map(|s| Step { worker: 0, ..*s }).collect();
        // an order that is legal with few fibers and slots is so with more, and is easier to change then
        let base = Given { settings: self.settings, workers: 1 };
        let given = if self.differs(&base, &order, &job, plain.results.get(&job)) { base } else { given };
        self.put(job, given, drawn);
        for _round in 0..6 {
            let value = plain.results.get(&job);
            if !self.differs(&given, &order, &job, value) {
                return self.finish(Verdict::Unexplained);
            }
            // the first events of the order, then the plain one: where does it begin to differ?
            let (mut agrees, mut others) = (0, order.len());
            while others - agrees > 1 {
                let m = agrees + (others - agrees) / 2;
                if self.differs(&given, &order[..m], &job, value) {
                    others = m
                } else {
                    agrees = m
                }
            }
            order.truncate(others);
            order = self.one_alone(&given, order, &job, value);
            order = self.smallest(&given, order, &job, value);
            // perhaps another job differs first now
            match plain.results.first_difference(&self.hybrid(&given, &order, job.frame).results, 0, job.frame) {
                Some(first) if !first.is(&job) => job = first,
                _ => break,
            }
        }
        self.found.job = job;
        self.found.out_of_order = order.len();
        let value = plain.results.get(&job);
        let Some((last, before)) = order.split_last() else { return self.finish(Verdict::Unexplained) };
        let last = *last;
        // The last of them is what makes it differ. Let it go back towards its place, a step at a time.
        let (without, with) = (self.hybrid(&given, before, job.frame), self.hybrid(&given, &order, job.frame));
        let place = |o: &Order, s: &Step| o.iter().position(|x| x.is(s)).unwrap_or(o.len());
        let (mut differing, mut agreeing) = (place(&with.order, &last), place(&without.order, &last));
        if differing >= with.order.len() || agreeing <= differing {
            return self.finish(Verdict::Unexplained);
        }
        let later = |at: usize| {
            let mut wanted = without.order[..at].to_vec();
            wanted.push(last);
            wanted
        };
        while agreeing - differing > 1 {
            let m = differing + (agreeing - differing) / 2;
            if self.differs(&given, &later(m), &job, value) {
                differing = m
            } else {
                agreeing = m
            }
        }
        // both once more, to be sure
        let (one, other) = (self.watch(&given, &later(agreeing), job.frame, Some(job)), self.watch(&given, &later(differing), job.frame, Some(job)));
        self.found.replays += 2;
        if agreeing == 0 || one.results.get(&job) != value || other.results.get(&job) == value {
            return self.finish(Verdict::Unexplained);
        }
        let (late, p) = (without.order[agreeing - 1], place(&other.order, &last));
        let at = |o: &Order, i: usize, s: &Step| o.get(i).is_some_and(|x| x.is(s));
        let f = &mut self.found;
        f.neighbours = at(&other.order, p + 1, &late)
            && at(&one.order, p, &late)
            && at(&one.order, p + 1, &last)
            && other.order[..p].iter().zip(&one.order[..p]).all(|(a, b)| a.is(b));
        (f.early, f.late, f.agreeing, f.agreeing_log) = (last, late, one.order, one.log);
        (f.agreeing_value, f.differing_value) = (one.value, other.value.clone());
        self.put(job, given, other);
        self.finish(Verdict::Order)
    }
}

/// Plays the plain order and so many drawn ones. `make` makes a new game for each.
///
/// # Panics
/// With the panic of a job in the plain order, and where the settings are out of their limits.
pub fn explore<G: Game>(make: impl Fn() -> G, settings: &Settings, options: &Options) -> Finding {
    let found = Finding::none(Given { settings: *settings, workers: 1 }, &options.program);
    Explorer { make: &make, settings: *settings, options: options.clone(), found, began: Instant::now() }.explore()
}
