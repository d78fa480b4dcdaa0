//! What a game is.
use std::fmt::Debug;
use std::hash::Hash;

/// What a think comes to: its thought, or the next question.
pub enum Tick<T, Q> {
    Thought(T),
    Question(Q),
}

/// The question of a game whose thinks ask none.
#[derive(Clone, Copy, Debug, Hash, PartialEq, Eq)]
pub enum Never {}

/// All that a turn may read besides the thoughts.
pub struct Start<'a, G: Game + ?Sized> {
    /// From 1.
    pub frame: u32,
    pub world: &'a G::World,
    pub signals: &'a G::Signals,
}

/// All that a think and its answers may read.
pub struct View<'a, G: Game + ?Sized> {
    /// From 1.
    pub frame: u32,
    /// From 0.
    pub agent: u32,
    pub world: &'a G::World,
    pub signals: &'a G::Signals,
}

/// A game, frame by frame. Each function is one of its arguments: that is the game's to keep. Floats aren't `Hash`: keep their `to_bits`.
pub trait Game: Sync {
    /// All that lives from frame to frame.
    type World: Hash + Debug + Send + Sync;
    /// A frame's input.
    type Signals: Hash + Debug + Send + Sync;
    /// What one think comes to.
    type Thought: Hash + Debug + Send;
    type Question: Hash + Debug + Send;
    type Answer: Hash + Debug + Send;
    type Band: Hash + Debug + Send;

    fn start(&self) -> Self::World;
    fn signals(&self, frame: u32) -> Self::Signals;
    fn think(&self, view: &View<Self>, answers: &[Self::Answer]) -> Tick<Self::Thought, Self::Question>;
    /// Runs beside other jobs. A game whose thinks ask nothing need not write it.
    fn answer(&self, _view: &View<Self>, _question: &Self::Question) -> Self::Answer {
        unimplemented!("a game whose thinks ask has `answer`")
    }
    /// The next world, of all thoughts by agent.
    fn turn(&self, start: &Start<Self>, thoughts: Vec<Self::Thought>) -> Self::World;
    fn draw(&self, world: &Self::World, band: u32) -> Self::Band;
    /// A number for what is shown of a frame, where that is more than its bands in order.
    fn show(&self, _frame: u32, _bands: &[Self::Band]) -> u64 {
        1
    }
}
