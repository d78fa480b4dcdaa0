//! One run of a game, a step at a time, in any legal order.
use crate::board::{Board, Event, Job, Kind, Status};
use crate::game::Game;
use crate::hash::came;
use crate::log::Given;
use crate::step::{Order, Places, Results, Step};
use crate::step_set::StepSet;
use crate::store::{work, Done, Store};
use std::sync::Arc;

#[derive(Clone, Copy, Default)]
struct Left {
    thinks: u32,
    draws: u32,
    turned: bool,
}

pub(crate) struct Player<'g, G: Game> {
    game: &'g G,
    given: Given,
    places: Places,
    board: Board,
    store: Store<G>,
    fresh: StepSet,  // what may be taken up and wants a large fiber for it,
    ready: StepSet,  // and what has one or wants none
    left: Vec<Left>, // of the frames under way, by slot
    started: u32,    // large fibers in use
    input: u32,      // the next frame's input, while its slot is another's; 0: none
    pub shown: u32,
    pub order: Order,
    pub results: Results,
    /// Of this step what it came to is kept, as text.
    pub watched: Option<Step>,
    pub value: String,
}
impl<'g, G: Game> Player<'g, G> {
    pub fn new(game: &'g G, given: &Given) -> Result<Self, Status> {
        let n = &given.settings;
        let mut player = Player {
            game,
            given: *given,
            places: Places::new(n),
            board: Board::new(n, n.frames, given.workers)?,
            store: Store::new(n, Arc::new(game.start())),
            fresh: StepSet::new(n),
            ready: StepSet::new(n),
            left: vec![Left::default(); n.slots as usize],
            started: 0,
            input: 0,
            shown: 0,
            order: Vec::new(),
            results: Results::new(n),
            watched: None,
            value: String::new(),
        };
        player.may_begin(1);
        Ok(player)
    }
    fn left(&mut self, frame: u32) -> &mut Left {
        let slots = self.left.len();
        &mut self.left[frame as usize % slots]
    }
    fn may_start(&self) -> bool {
        self.started < self.given.settings.started
    }
    fn may_begin(&mut self, frame: u32) {
        let n = self.given.settings;
        if frame > n.frames {
            return;
        }
        if frame > self.shown + n.slots {
            self.input = frame;
            return;
        }
        self.input = 0;
        *self.left(frame) = Left { thinks: n.agents, draws: n.bands, turned: false };
        self.fresh.insert(Step::of(Kind::Turn, frame, 0, 0));
    }
    /// How many steps may be taken up,
    pub fn open(&self) -> usize {
        self.ready.len() + if self.may_start() { self.fresh.len() } else { 0 }
    }
    /// and one of them by a number,
    pub fn open_at(&self, i: usize) -> Step {
        if i < self.ready.len() {
            self.ready.nth(i)
        } else {
            self.fresh.nth(i - self.ready.len())
        }
    }
    /// by name,
    pub fn first(&self) -> Option<Step> {
        let (one, other) = (self.ready.first(self.shown), if self.may_start() { self.fresh.first(self.shown) } else { None });
        one.into_iter().chain(other).min_by_key(|s| (s.frame, self.places.of(s)))
    }
    pub fn last(&self) -> Option<Step> {
        let (one, other) = (self.ready.last(self.shown), if self.may_start() { self.fresh.last(self.shown) } else { None });
        one.into_iter().chain(other).max_by_key(|s| (s.frame, self.places.of(s)))
    }
    /// or by a rank that a seed gives each.
    pub fn rank_by(&mut self, seed: u64) {
        self.fresh.rank_by(seed);
        self.ready.rank_by(seed);
    }
    pub fn highest(&mut self) -> Option<Step> {
        let (one, other) = (self.ready.highest(), if self.may_start() { self.fresh.highest() } else { None });
        one.into_iter().chain(other).max_by_key(|(rank, _)| *rank).map(|(_, s)| s)
    }
    pub fn is_done(&self, s: &Step) -> bool {
        self.results.get(s) != 0
    }
    pub fn is_over(&self) -> bool {
        self.shown == self.given.settings.frames
    }
    pub fn log(&mut self) -> Vec<Event> {
        self.board.log()
    }
    fn put(&mut self, s: Step, hash: u64) {
        self.order.push(s);
        self.results.put(&s, hash);
    }
    /// Shows the next frame, if it is ready.
    pub fn show(&mut self) -> Result<bool, Status> {
        let next = self.shown + 1;
        if self.is_over() || !self.left(next).turned || self.left(next).draws > 0 {
            return Ok(false);
        }
        let frame = self.board.show().ok_or(Status::ILLEGAL)?;
        self.shown = frame;
        self.left(frame).turned = false;
        self.put(Step::show(frame), 2);
        let (_, bands) = self.store.shown(frame);
        let number = self.game.show(frame, &bands);
        let value = if self.watched.is_some_and(|w| w.is(&Step::show(frame))) { Some(&mut self.value) } else { None };
        let hash = came(&number, value);
        self.results.put(&Step::show(frame), hash);
        if self.input > 0 {
            self.may_begin(self.input);
        }
        Ok(true)
    }
    /// Plays this step whole, if it is legal now. A panic of the job's comes out, and its step is the last of `order`.
    pub fn play(&mut self, s: &Step) -> Result<bool, Status> {
        if s.kind == Kind::Show {
            return Ok(s.frame == self.shown + 1 && self.show()?);
        }
        let starts = s.question == 0 && matches!(s.kind, Kind::Think | Kind::Turn);
        let may = !starts || self.may_start();
        let set = if starts { &mut self.fresh } else { &mut self.ready };
        if !may || !set.has(s) {
            return Ok(false);
        }
        set.remove(s);
        let job = self.board.take_up(s.worker, Job { kind: s.kind, frame: s.frame, index: s.index, question: s.question })?.ok_or(Status::ILLEGAL)?;
        self.started += u32::from(starts);
        self.put(*s, 2);
        let task = self.store.task(&job);
        let done = work(self.game, job.frame, job.index, task);
        let value = if self.watched.is_some_and(|w| w.is(s)) { Some(&mut self.value) } else { None };
        let hash = match &done {
            Done::Begun(x) => came(x, value),
            Done::Thought(x) => came(x, value),
            Done::Asked(x, _) => came(x, value) ^ 0x5555,
            Done::Answer(x) => came(x, value),
            Done::World(x) => came(x, value),
            Done::Band(x) => came(x, value),
        };
        self.results.put(s, hash);
        let over = !matches!(done, Done::Begun(_) | Done::Asked(..));
        self.store.tell(&mut self.board, s.worker, &job, done)?;
        self.follow(s, over);
        Ok(true)
    }
    // What may be taken up now that this step is over.
    fn follow(&mut self, s: &Step, over: bool) {
        let n = self.given.settings;
        match s.kind {
            Kind::Think if !over => self.ready.insert(Step::of(Kind::Answer, s.frame, s.index, s.question)),
            Kind::Think => {
                self.started -= 1;
                self.left(s.frame).thinks -= 1;
                if self.left(s.frame).thinks == 0 {
                    self.ready.insert(Step::of(Kind::Turn, s.frame, 0, 1));
                }
            }
            Kind::Answer => self.ready.insert(Step::of(Kind::Think, s.frame, s.index, s.question + 1)),
            Kind::Draw => self.left(s.frame).draws -= 1,
            Kind::Show => {}
            Kind::Turn if !over && n.agents == 0 => self.ready.insert(Step::of(Kind::Turn, s.frame, 0, 1)),
            Kind::Turn if !over => (0..n.agents).for_each(|a| self.fresh.insert(Step::of(Kind::Think, s.frame, a, 0))),
            Kind::Turn => {
                self.started -= 1;
                self.left(s.frame).turned = true;
                (0..n.bands).for_each(|b| self.ready.insert(Step::of(Kind::Draw, s.frame, b, 0)));
                self.may_begin(s.frame + 1);
            }
        }
    }
    /// The next step of the plain order; false where all is shown.
    pub fn plain(&mut self) -> Result<bool, Status> {
        if self.is_over() {
            return Ok(false);
        }
        if self.show()? {
            return Ok(true);
        }
        let first = self.first().ok_or(Status::ILLEGAL)?;
        if self.play(&first)? {
            Ok(true)
        } else {
            Err(Status::ILLEGAL)
        }
    }
}
