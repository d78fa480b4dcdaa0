//! Frames of jobs in an order that a proved board allows: a game is a trait of pure functions, run on threads, on one thread, or played
//! again from a log; and a finder that plays it in legal orders drawn by seeds, and names the job that comes to something else and the two
//! steps whose order decides.
//!
//! What is promised: the same frames for any number of threads and any schedule, *if* each of the functions of [`Game`] is a function of
//! its arguments. No proof sees that: `&self` and `Sync` can't keep a mutex, an atomic or a static away. The finder tries it. Proved is the
//! board behind the C calls; this crate is tested.
//!
//! ```
//! use btjobs::*;
//! struct Life;
//! impl Game for Life {
//!     type World = Vec<u8>;
//!     type Signals = ();
//!     type Thought = u8;
//!     type Question = Never;
//!     type Answer = ();
//!     type Band = u8;
//!     fn start(&self) -> Vec<u8> { (0..64).collect() }
//!     fn signals(&self, _frame: u32) {}
//!     fn think(&self, v: &View<Self>, _: &[()]) -> Tick<u8, Never> {
//!         let left = v.world[(v.agent as usize + 63) % 64];
//!         Tick::Thought(v.world[v.agent as usize] ^ left.rotate_left(1))
//!     }
//!     fn turn(&self, _: &Start<Self>, thoughts: Vec<u8>) -> Vec<u8> { thoughts }
//!     fn draw(&self, world: &Vec<u8>, band: u32) -> u8 { world[band as usize] }
//! }
//! let settings = Settings { frames: 6, agents: 64, bands: 2, ..Settings::default() };
//! let end = run(&Life, &settings, 8, |_frame, _world, _bands| {});
//! assert_eq!(replay(&Life, &settings, &end, |_, _, _| {}).unwrap().world, end.world);
//! let found = explore(|| Life, &settings, &Options { seeds: 50, ..Options::default() });
//! assert!(found.agrees(), "{found}");
//! ```
//!
//! A reference to the world can't leave a think, and nothing may be written through it:
//!
//! ```compile_fail
//! # use btjobs::*;
//! fn think<G: Game<World = Vec<u8>>>(v: &View<G>) { v.world[0] = 1; }
//! ```
mod board;
mod compare;
mod finder;
mod finding;
mod game;
mod hash;
mod judge;
mod log;
mod page;
mod player;
mod program;
mod run;
mod step;
mod step_set;
mod store;

pub use board::{Event, EventKind, Job, Kind, Settings, Status, ENDLESS};
pub use compare::{compare, Compared};
pub use finder::{explore, Options};
pub use finding::{Finding, Verdict};
pub use game::{Game, Never, Start, Tick, View};
pub use judge::{Judge, Judged};
pub use log::{read_log, write_log, Given};
pub use page::{page_of_finding, page_of_log};
pub use program::finder_main;
pub use run::{replay, run, run_serial, Ended, GoOn, Threads};
pub use step::{Order, Step};
