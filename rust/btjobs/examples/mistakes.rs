//! Mistakes that teams make, planted in a small game: which seed shows each, whom the finder names, and how many of so many runs on threads
//! show it. Each shared thing is in a mutex or an atomic, as it has to be in Rust: no data race is left, and the order still matters.
//!
//!     cargo run --release --example mistakes -- [SEEDS [RUNS [THREADS]]]
use btjobs::*;
use std::collections::HashMap;
use std::panic::{catch_unwind, AssertUnwindSafe};
use std::process::ExitCode;
use std::sync::atomic::{AtomicU64, Ordering};
use std::sync::{Arc, Mutex};

#[derive(Clone, Copy, PartialEq, Debug)]
enum Mistake {
    None,
    SharedRandom,
    NeighboursNewState,
    Arrival,
    HashMapOrder,
    FloatSum,
    Cache,
    AddressKept, // Rust hashes no padding; this is what its safe code can keep of memory
    StaticIds,
    SharedIds,
    SlotTooEarly,
    AnswerKept,
    NewestWorld,
    Panics,
    FirstWins,
}
use Mistake::*;

const AGENTS: u32 = 12;
const BANDS: u32 = 3;
static NEXT: AtomicU64 = AtomicU64::new(0);

#[derive(Clone, Copy, Debug, Hash, Default)]
struct Walker {
    x: i32,
    id: u64,
    heat: u32, // a float's bits
}

#[derive(Default)]
struct Shared {
    random: u64,
    fresh: [i32; AGENTS as usize],
    arrived: u64,
    total: f32,
    cache: HashMap<i32, i32>,
    ids: u64,
    winner: Option<u32>,
    newest: Vec<Walker>,
    sprites: [Vec<Walker>; 2], // two buffers, and three frames overlap
    world: Option<Arc<Vec<i32>>>,
}

struct Town {
    mistake: Mistake,
    shared: Mutex<Shared>,
}
impl Town {
    fn new(mistake: Mistake) -> Town {
        Town { mistake, shared: Mutex::default() }
    }
}

fn mixed(a: u32, b: u32) -> i32 {
    ((a.wrapping_mul(2654435761) ^ b.wrapping_mul(40503)) >> 7) as i32
}

impl Game for Town {
    type World = Vec<Walker>;
    type Signals = ();
    type Thought = Walker;
    type Question = i32;
    type Answer = i32;
    type Band = u64;

    fn start(&self) -> Vec<Walker> {
        (0..AGENTS).map(|a| Walker { x: mixed(a, 7) % 1000, ..Walker::default() }).collect()
    }
    fn signals(&self, _frame: u32) {}
    fn think(&self, v: &View<Self>, answers: &[i32]) -> Tick<Walker, i32> {
        let agent = v.agent as usize;
        if answers.is_empty() && v.agent % 3 == 0 {
            return Tick::Question(v.world[agent].x / 100);
        }
        let mut w = v.world[agent];
        w.x += mixed(v.frame, v.agent) % 21 - 10 + answers.iter().sum::<i32>();
        let mut s = self.shared.lock().unwrap_or_else(|e| e.into_inner());
        match self.mistake {
            SharedRandom => {
                s.random = s.random.wrapping_mul(6364136223846793005).wrapping_add(1442695040888963407);
                w.x += (s.random >> 60) as i32;
            }
            NeighboursNewState => {
                w.x += s.fresh[(agent + 1) % AGENTS as usize] / 8;
                s.fresh[agent] = w.x;
            }
            FloatSum => s.total += 1000.0 / (1 + w.x * w.x % 97) as f32,
            Cache => w.x += *s.cache.entry(w.x / 200).or_insert(v.agent as i32),
            AddressKept => w.id = Arc::as_ptr(s.world.insert(Arc::new(vec![w.x; 40]))) as u64 / 16 % 1024,
            StaticIds if w.x % 2 != 0 => w.id = NEXT.fetch_add(1, Ordering::Relaxed),
            SharedIds if w.x % 2 != 0 => {
                w.id = s.ids;
                s.ids += 1;
            }
            FirstWins if w.x % 4 == 0 => {
                s.winner.get_or_insert(v.agent);
            }
            Panics => {
                let early = v.agent == 2 && s.fresh[7] == v.frame as i32;
                s.fresh[agent] = v.frame as i32;
                drop(s);
                assert!(!early, "7 has moved");
            }
            _ => {}
        }
        Tick::Thought(w)
    }
    fn answer(&self, v: &View<Self>, cell: &i32) -> i32 {
        let near = v.world.iter().filter(|w| w.x / 100 == *cell).count() as i32 * 100 + v.frame as i32;
        match self.mistake {
            AnswerKept => *self.shared.lock().unwrap().cache.entry(*cell).or_insert(near), // until the frame is drawn; the next one may be asking by then
            _ => near,
        }
    }
    fn turn(&self, start: &Start<Self>, mut w: Vec<Walker>) -> Vec<Walker> {
        let mut s = self.shared.lock().unwrap();
        match self.mistake {
            FloatSum => w[0].heat = std::mem::take(&mut s.total).to_bits(),
            FirstWins => w[0].id = s.winner.take().map_or(0, u64::from),
            HashMapOrder => {
                let cells: HashMap<i32, usize> = w.iter().enumerate().map(|(i, w)| (w.x, i)).collect();
                w[0].id = cells.values().fold(0, |last: u64, i| last.wrapping_mul(31) + *i as u64);
                // std's goes through its entries in a new order each time
            }
            SlotTooEarly => {
                w[0].id = u64::from(start.frame % 2);
                s.sprites[start.frame as usize % 2] = w.clone();
            }
            NewestWorld => s.newest = w.clone(),
            _ => {}
        }
        w
    }
    fn draw(&self, world: &Vec<Walker>, band: u32) -> u64 {
        let mut s = self.shared.lock().unwrap();
        let from = match self.mistake {
            NewestWorld => &s.newest,
            SlotTooEarly => &s.sprites[world[0].id as usize],
            _ => world,
        };
        let row = from.iter().skip(band as usize).step_by(BANDS as usize).fold(0, |sum: u64, w| sum.wrapping_mul(31).wrapping_add(w.x as u64));
        match self.mistake {
            Arrival => s.arrived = s.arrived.wrapping_mul(31).wrapping_add(row),
            AnswerKept if band == 0 => s.cache.clear(),
            _ => {}
        }
        row
    }
    fn show(&self, _frame: u32, _bands: &[u64]) -> u64 {
        std::mem::take(&mut self.shared.lock().unwrap().arrived)
    }
}

/// A clean game: heat flows along a ring, and each cell has random numbers of its own.
struct Heat;
impl Game for Heat {
    type World = Vec<u32>; // floats by their bits
    type Signals = u32;
    type Thought = u32;
    type Question = Never;
    type Answer = ();
    type Band = u32;
    fn start(&self) -> Vec<u32> {
        vec![1f32.to_bits(); 30]
    }
    fn signals(&self, frame: u32) -> u32 {
        frame % 7
    }
    fn think(&self, v: &View<Self>, _: &[()]) -> Tick<u32, Never> {
        let at = |i: u32| f32::from_bits(v.world[(i % 30) as usize]);
        let flow = at(v.agent + 1) + at(v.agent + 29) - 2.0 * at(v.agent);
        Tick::Thought((at(v.agent) + 0.2 * flow + (mixed(v.frame, v.agent) % 100) as f32 * 0.01 + *v.signals as f32).to_bits())
    }
    fn turn(&self, _: &Start<Self>, thoughts: Vec<u32>) -> Vec<u32> {
        thoughts
    }
    fn draw(&self, world: &Vec<u32>, band: u32) -> u32 {
        world.iter().skip(band as usize).step_by(4).fold(0f32, |sum, x| sum + f32::from_bits(*x)).to_bits()
    }
}

/// Whether the finder named what was planted: the two steps that share, or that the order has nothing to do with it.
fn is_right(mistake: Mistake, f: &Finding) -> bool {
    let kinds = |one, other| (f.early.kind, f.late.kind) == (one, other) || (f.late.kind, f.early.kind) == (one, other);
    let order = f.verdict == Verdict::Order && f.neighbours;
    let thinks = order && kinds(Kind::Think, Kind::Think);
    let in_pair = f.early.is(&f.job) || f.late.is(&f.job);
    let apart = |by| f.early.index == (f.late.index + by) % AGENTS || f.late.index == (f.early.index + by) % AGENTS;
    match mistake {
        None => f.agrees(),
        SharedRandom | Cache => thinks && in_pair,
        SharedIds | FirstWins | FloatSum => thinks,
        NeighboursNewState => thinks && apart(1) && in_pair,
        Panics => thinks && apart(5) && in_pair && f.panicked.is_some(),
        Arrival => order && f.job.kind == Kind::Show && (kinds(Kind::Draw, Kind::Draw) || kinds(Kind::Draw, Kind::Show)),
        AnswerKept => order && kinds(Kind::Answer, Kind::Draw),
        NewestWorld => order && kinds(Kind::Draw, Kind::Turn) && in_pair,
        SlotTooEarly => order && kinds(Kind::Draw, Kind::Turn) && in_pair && f.early.frame.abs_diff(f.late.frame) == 2,
        HashMapOrder => f.verdict == Verdict::NotRepeatable && f.job.kind == Kind::Turn,
        AddressKept | StaticIds => f.verdict == Verdict::NotRepeatable && f.job.kind == Kind::Think,
    }
}

fn on_threads(mistake: Mistake, settings: &Settings, threads: u32) -> Option<Vec<u64>> {
    let game = Town::new(mistake);
    let mut all = Vec::new();
    let run = || {
        run(&game, settings, threads, |f, world, bands| {
            all.extend(world.iter().flat_map(|w| [w.x as u64, w.id, u64::from(w.heat)]));
            all.extend(bands);
            all.push(game.show(f, bands));
        });
    };
    catch_unwind(AssertUnwindSafe(run)).is_ok().then_some(all)
}

fn main() -> ExitCode {
    let mut args = std::env::args().skip(1).map(|a| a.parse::<u64>().expect("a number"));
    let (seeds, runs, threads) = (args.next().unwrap_or(1000), args.next().unwrap_or(300), args.next().unwrap_or(4) as u32);
    let settings = Settings { frames: 4, agents: AGENTS, bands: BANDS, most_questions: 1, ..Settings::default() };
    let options = Options { seeds, log: Option::None, ..Options::default() };
    let (mut wrong, mut table) = (0, String::new());
    std::panic::set_hook(Box::new(|_| {})); // panics are results here
    for mistake in [
        None,
        SharedRandom,
        NeighboursNewState,
        Arrival,
        HashMapOrder,
        FloatSum,
        Cache,
        AddressKept,
        StaticIds,
        SharedIds,
        SlotTooEarly,
        AnswerKept,
        NewestWorld,
        Panics,
        FirstWins,
    ] {
        let found = explore(|| Town::new(mistake), &settings, &options);
        println!("== {mistake:?}\n{found}");
        let one = on_threads(mistake, &settings, 1);
        let differ = (0..runs).filter(|_| on_threads(mistake, &settings, threads) != one).count();
        let right = is_right(mistake, &found);
        wrong += u8::from(!right);
        let says = if right { "right" } else { "WRONG" };
        table += &format!(
            "{:<20} seed {}, {says}; {} steps out of order, {} replays; threads: {differ} of {runs} runs\n",
            format!("{mistake:?}"),
            found.seed,
            found.out_of_order,
            found.replays
        );
    }
    print!("{table}");
    let heat = Settings { frames: 6, agents: 30, bands: 4, ..Settings::default() };
    for (name, found) in [("town", explore(|| Town::new(None), &settings, &options)), ("heat", explore(|| Heat, &heat, &options))] {
        print!("clean game {name}: {} steps, {:.2} s: {found}", found.steps, found.seconds);
        wrong += u8::from(!found.agrees());
    }
    ExitCode::from(wrong)
}
