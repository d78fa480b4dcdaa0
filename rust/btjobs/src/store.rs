//! The values of a run, by slot. A job's values are moved out for its work and what it came to is moved in, so nothing is shared but worlds
//! and inputs, which no one changes.
use crate::board::{Board, Job, Kind, Settings, Status};
use crate::game::{Game, Start, Tick, View};
use std::sync::Arc;

struct Slot<G: Game> {
    start: Option<Arc<G::World>>,
    turned: Option<Arc<G::World>>,
    signals: Option<Arc<G::Signals>>,
    thoughts: Vec<Option<G::Thought>>,
    answers: Vec<Vec<G::Answer>>,
    questions: Vec<Option<G::Question>>,
    bands: Vec<Option<G::Band>>,
}

/// Frames are counted from 1 in each season, as the board counts them; the game is told those of the whole run.
pub(crate) struct Store<G: Game> {
    settings: Settings,
    slots: Vec<Slot<G>>,
    world: Arc<G::World>,
    /// Frames of the seasons before this one.
    pub before: u32,
}

/// What a job's work needs.
pub(crate) enum Task<G: Game> {
    Input,
    Think(Arc<G::World>, Arc<G::Signals>, Vec<G::Answer>),
    Answer(Arc<G::World>, Arc<G::Signals>, G::Question),
    Turn(Arc<G::World>, Arc<G::Signals>, Vec<G::Thought>),
    Draw(Arc<G::World>),
}

/// What it came to.
pub(crate) enum Done<G: Game> {
    Begun(G::Signals),
    Thought(G::Thought),
    Asked(G::Question, Vec<G::Answer>),
    Answer(G::Answer),
    World(G::World),
    Band(G::Band),
}

/// The work of a job, for which no lock is held. `frame` is that of the whole run.
pub(crate) fn work<G: Game>(game: &G, frame: u32, agent: u32, task: Task<G>) -> Done<G> {
    match task {
        Task::Input => Done::Begun(game.signals(frame)),
        Task::Think(world, signals, answers) => match game.think(&View { frame, agent, world: &world, signals: &signals }, &answers) {
            Tick::Thought(thought) => Done::Thought(thought),
            Tick::Question(question) => Done::Asked(question, answers),
        },
        Task::Answer(world, signals, question) => Done::Answer(game.answer(&View { frame, agent, world: &world, signals: &signals }, &question)),
        Task::Turn(world, signals, thoughts) => Done::World(game.turn(&Start { frame, world: &world, signals: &signals }, thoughts)),
        Task::Draw(world) => Done::Band(game.draw(&world, agent)),
    }
}

fn there<T>(value: Option<T>) -> T {
    value.expect("the board hands a job out once what it reads is there")
}

impl<G: Game> Store<G> {
    pub fn new(settings: &Settings, world: Arc<G::World>) -> Store<G> {
        let slot = || Slot { start: None, turned: None, signals: None, thoughts: Vec::new(), answers: Vec::new(), questions: Vec::new(), bands: Vec::new() };
        Store { settings: *settings, slots: (0..settings.slots).map(|_| slot()).collect(), world, before: 0 }
    }
    fn at(&mut self, frame: u32) -> &mut Slot<G> {
        let slots = self.slots.len();
        &mut self.slots[frame as usize % slots]
    }
    /// Of the newest turn.
    pub fn world(&self) -> Arc<G::World> {
        self.world.clone()
    }
    /// Moves out what a job reads.
    pub fn task(&mut self, job: &Job) -> Task<G> {
        if job.kind == Kind::Turn && job.question == 0 {
            return Task::Input;
        }
        let index = job.index as usize;
        let slot = self.at(job.frame);
        if job.kind == Kind::Draw {
            return Task::Draw(there(slot.turned.clone()));
        }
        let (world, signals) = (there(slot.start.clone()), there(slot.signals.clone()));
        match job.kind {
            Kind::Turn => Task::Turn(world, signals, slot.thoughts.drain(..).map(there).collect()),
            Kind::Think => Task::Think(world, signals, std::mem::take(&mut slot.answers[index])),
            _ => Task::Answer(world, signals, there(slot.questions[index].take())),
        }
    }
    /// Tells the board, and moves in what the job came to. True where a frame has begun.
    pub fn tell(&mut self, board: &mut Board, worker: u32, job: &Job, done: Done<G>) -> Result<bool, Status> {
        let (agents, bands, index) = (self.settings.agents as usize, self.settings.bands as usize, job.index as usize);
        if let Done::Begun(signals) = done {
            if !board.spread(worker)? {
                return Ok(false);
            }
            let world = self.world.clone();
            let slot = self.at(job.frame);
            (slot.start, slot.turned, slot.signals) = (Some(world), None, Some(Arc::new(signals)));
            slot.thoughts.clear();
            slot.thoughts.resize_with(agents, || None);
            slot.answers.resize_with(agents, Vec::new);
            slot.answers.iter_mut().for_each(Vec::clear);
            slot.questions.resize_with(agents, || None);
            slot.bands.clear();
            slot.bands.resize_with(bands, || None);
            return Ok(true);
        }
        let slot = self.at(job.frame);
        match done {
            Done::Begun(_) => {}
            Done::Asked(question, answers) => {
                slot.questions[index] = Some(question);
                slot.answers[index] = answers;
                return board.ask(worker).map(|()| false);
            }
            Done::Thought(thought) => slot.thoughts[index] = Some(thought),
            Done::Answer(answer) => slot.answers[index].push(answer),
            Done::Band(band) => slot.bands[index] = Some(band),
            Done::World(world) => {
                let world = Arc::new(world);
                slot.turned = Some(world.clone());
                self.world = world;
            }
        }
        board.finish(worker).map(|()| false)
    }
    /// The world and the bands of a frame that is shown now, before its slot is another's.
    pub fn shown(&mut self, frame: u32) -> (Arc<G::World>, Vec<G::Band>) {
        let slot = self.at(frame);
        (there(slot.turned.clone()), slot.bands.drain(..).map(there).collect())
    }
}
