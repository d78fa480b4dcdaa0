// K threads (the calling one among them), std only. In each frame the thinks are run in parallel by
// tasks claimed from one atomic counter, with the drawing of the frame before as tasks beside them.
mod common;
use common::*;
use std::cell::UnsafeCell;
use std::io::Write;
use std::sync::atomic::{AtomicBool, AtomicU64, AtomicUsize, Ordering::*};

struct Shared<T>(UnsafeCell<T>);
unsafe impl<T> Sync for Shared<T> {}
impl<T> Shared<T> {
    fn new(t: T) -> Self {
        Shared(UnsafeCell::new(t))
    }
    /// Between two epochs the calling thread alone has it; within one, tasks read it or write disjoint parts.
    #[allow(clippy::mut_from_ref)]
    unsafe fn get(&self) -> &mut T {
        unsafe { &mut *self.0.get() }
    }
}

struct Think {
    mem: Vec<u16>,
    answer: Status,
    intent: Intent,
}

struct State {
    level: Shared<Level>,
    open: Shared<Vec<bool>>,
    base: Shared<Vec<u8>>,  // glyphs for the frame that is drawn
    on: Shared<u32>,
    rows: Shared<Vec<u8>>,  // drawn rows
    chunks: Vec<(usize, usize)>,
    thinks: Vec<Shared<Think>>,
    claim: AtomicU64,       // epoch << 32 | next task
    total: Shared<(usize, bool, bool)>, // tasks, whether there are thinks, whether there is a drawing
    done: AtomicUsize,
    end: AtomicBool,
}

impl State {
    /// Claims and runs tasks of `epoch` until none is left.
    fn work(&self, epoch: u64, search: &mut Search) {
        loop {
            let c = self.claim.load(Acquire);
            if c >> 32 != epoch {
                return;
            }
            let (total, thinks, draws) = unsafe { *self.total.0.get() };
            let i = (c & 0xffff_ffff) as usize;
            if i >= total {
                return;
            }
            if self.claim.compare_exchange_weak(c, c + 1, AcqRel, Relaxed).is_err() {
                continue;
            }
            let n = if thinks { self.thinks.len() } else { 0 };
            unsafe {
                let l = &*self.level.0.get();
                if i < n {
                    let t = self.thinks[i].get();
                    let mut k = Tick {
                        nodes: &l.trees[l.tree_of[i]], mem: &mut t.mem, agents: &l.agents, item: &l.item,
                        open: &*self.open.0.get(), places: &l.places, on: *self.on.0.get(), stride: l.stride, me: i,
                        search, want: Intent::Stay,
                    };
                    t.answer = k.tick(0);
                    t.intent = k.want;
                } else if draws {
                    let (y0, y1) = self.chunks[i - n];
                    let w = l.width + 1;
                    let p = (*self.rows.0.get()).as_mut_ptr().add(y0 * w);
                    draw_rows(l, &*self.base.0.get(), y0, y1, std::slice::from_raw_parts_mut(p, (y1 - y0) * w));
                }
            }
            self.done.fetch_add(1, Release);
        }
    }
}

fn pause(n: &mut u32) {
    *n += 1;
    if *n < 4000 { std::hint::spin_loop() } else { std::thread::yield_now() }
}

fn main() {
    let w = words();
    let data = std::fs::read(&w.level).unwrap_or_else(|_| die(&format!("file: {}", w.level), 1));
    let l = read_level(&data);
    let script = w.script.map(|p| read_script(&std::fs::read(p).unwrap())).unwrap_or_default();
    let mut signals = Signals::new(script);
    let cells = l.ground.len();
    let agents = l.agents.len();
    let parts = w.workers.min(l.height.div_ceil(8)).max(1);
    let mut chunks = Vec::new();
    for k in 0..parts {
        chunks.push((l.height * k / parts, l.height * (k + 1) / parts));
    }
    let s = State {
        open: Shared::new(vec![false; cells]),
        base: Shared::new(Vec::new()),
        on: Shared::new(0),
        rows: Shared::new(vec![0; (l.width + 1) * l.height]),
        chunks,
        thinks: l.tree_of.iter().map(|&t| Shared::new(Think { mem: vec![0; l.trees[t].len()], answer: Status::S, intent: Intent::Stay })).collect(),
        level: Shared::new(l),
        claim: AtomicU64::new(0),
        total: Shared::new((0, false, false)),
        done: AtomicUsize::new(0),
        end: AtomicBool::new(false),
    };
    std::thread::scope(|scope| {
        for _ in 1..w.workers {
            scope.spawn(|| {
                let mut search = Search::new(cells);
                let (mut last, mut spins) = (0, 0);
                while !s.end.load(Relaxed) {
                    let e = s.claim.load(Acquire) >> 32;
                    if e == last {
                        pause(&mut spins);
                        continue;
                    }
                    last = e;
                    spins = 0;
                    s.work(e, &mut search);
                }
            });
        }
        let mut search = Search::new(cells);
        let mut out = output();
        let mut text: Vec<u8> = Vec::new();
        let mut answers = vec![Status::S; agents];
        let mut drawn_on = 0;
        // epoch f: thinks of frame f, drawing of frame f - 1
        for f in 1..=w.frames + usize::from(w.frames > 0) {
            let (thinks, draws) = (f <= w.frames, f > 1);
            unsafe {
                if draws && (signals.on != drawn_on || f == 2) {
                    base_glyphs(&*s.level.0.get(), signals.on, s.base.get());
                    drawn_on = signals.on;
                }
                if thinks && (signals.advance(f) || f == 1) {
                    open_table(&(*s.level.0.get()).ground, signals.on, s.open.get());
                    *s.on.get() = signals.on;
                }
                let total = if thinks { agents } else { 0 } + if draws { s.chunks.len() } else { 0 };
                *s.total.get() = (total, thinks, draws);
                s.done.store(0, Relaxed);
                s.claim.store((f as u64) << 32, Release);
                s.work(f as u64, &mut search);
                let mut spins = 0;
                while s.done.load(Acquire) < total {
                    pause(&mut spins);
                }
                // stale claims of this epoch can't succeed: every task is claimed
                if draws {
                    text.clear();
                    push_head(&mut text, f - 1);
                    text.extend_from_slice(s.rows.get());
                    push_agents(&mut text, s.level.get(), &answers);
                    if out.write_all(&text).is_err() {
                        die("run: write", 1);
                    }
                }
                if thinks {
                    for a in 0..agents {
                        let t = s.thinks[a].get();
                        answers[a] = t.answer;
                        apply(s.level.get(), s.open.get(), a, t.intent);
                    }
                }
            }
        }
        s.end.store(true, Relaxed);
    });
}
