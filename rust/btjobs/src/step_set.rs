//! Steps of the frames under way: the first and the last of them by name, the one of the highest rank, and any by a number, each without
//! going through the others.
use crate::board::Settings;
use crate::step::{Places, Step};
use std::collections::BinaryHeap;

pub(crate) struct Random(u64);
impl Random {
    pub fn new(seed: u64) -> Random {
        Random(seed.wrapping_mul(0x9e37_79b9_7f4a_7c15).wrapping_add(1))
    }
    pub fn next(&mut self) -> u64 {
        self.0 = self.0.wrapping_add(0x9e37_79b9_7f4a_7c15);
        let mut z = self.0;
        z = (z ^ z >> 30).wrapping_mul(0xbf58_476d_1ce4_e5b9);
        z = (z ^ z >> 27).wrapping_mul(0x94d0_49bb_1331_11eb);
        z ^ z >> 31
    }
    pub fn below(&mut self, n: usize) -> usize {
        (self.next() % n as u64) as usize
    }
}

pub(crate) struct StepSet {
    places: Places,
    ring: usize,
    words: usize,
    tops: usize,
    bits: Vec<u64>, // by frame: a bit for each place,
    top: Vec<u64>,  // and a bit for each word of those
    at: Vec<u32>,   // where in `all`
    all: Vec<Step>,
    seed: Option<u64>,                     // of ranks
    ranked: BinaryHeap<(u64, u32, usize)>, // by rank: frame and place; those that are gone leave it when they come up
}
impl StepSet {
    pub fn new(n: &Settings) -> StepSet {
        let (places, ring) = (Places::new(n), n.slots as usize);
        let words = places.count().div_ceil(64);
        let tops = words.div_ceil(64);
        let (bits, top, at) = (vec![0; ring * words], vec![0; ring * tops], vec![0; ring * places.count()]);
        StepSet { places, ring, words, tops, bits, top, at, all: Vec::new(), seed: None, ranked: BinaryHeap::new() }
    }
    /// Gives each step a rank, those that are there too.
    pub fn rank_by(&mut self, seed: u64) {
        self.seed = Some(seed);
        for s in self.all.clone() {
            self.rank(&s);
        }
    }
    fn rank(&mut self, s: &Step) {
        if let Some(seed) = self.seed {
            self.ranked.push((Random::new(seed ^ s.number()).next(), s.frame, self.places.of(s)));
        }
    }
    fn row(&self, frame: u32) -> usize {
        frame as usize % self.ring
    }
    fn in_place(&self, frame: u32, place: usize) -> Option<Step> {
        let row = self.row(frame);
        let is = self.bits[row * self.words + place / 64] >> (place % 64) & 1 == 1;
        is.then(|| self.all[self.at[row * self.places.count() + place] as usize]).filter(|s| s.frame == frame)
    }
    pub fn len(&self) -> usize {
        self.all.len()
    }
    pub fn nth(&self, i: usize) -> Step {
        self.all[i]
    }
    pub fn has(&self, s: &Step) -> bool {
        self.in_place(s.frame, self.places.of(s)).is_some()
    }
    pub fn insert(&mut self, s: Step) {
        let (place, row) = (self.places.of(&s), self.row(s.frame));
        self.bits[row * self.words + place / 64] |= 1 << (place % 64);
        self.top[row * self.tops + place / 4096] |= 1 << (place / 64 % 64);
        self.at[row * self.places.count() + place] = self.all.len() as u32;
        self.all.push(s);
        self.rank(&s);
    }
    pub fn remove(&mut self, s: &Step) {
        let (place, row, count) = (self.places.of(s), self.row(s.frame), self.places.count());
        let word = &mut self.bits[row * self.words + place / 64];
        *word &= !(1 << (place % 64));
        if *word == 0 {
            self.top[row * self.tops + place / 4096] &= !(1 << (place / 64 % 64));
        }
        let at = self.at[row * count + place] as usize;
        self.all.swap_remove(at);
        if let Some(moved) = self.all.get(at) {
            let (row, place) = (self.row(moved.frame), self.places.of(moved));
            self.at[row * count + place] = at as u32;
        }
    }
    /// By name, of the frames behind those that are shown.
    pub fn first(&self, shown: u32) -> Option<Step> {
        (shown + 1..=shown + self.ring as u32).find_map(|f| {
            let row = self.row(f);
            let t = (0..self.tops).find(|t| self.top[row * self.tops + t] != 0)?;
            let word = t * 64 + self.top[row * self.tops + t].trailing_zeros() as usize;
            self.in_place(f, word * 64 + self.bits[row * self.words + word].trailing_zeros() as usize)
        })
    }
    pub fn last(&self, shown: u32) -> Option<Step> {
        (shown + 1..=shown + self.ring as u32).rev().find_map(|f| {
            let row = self.row(f);
            let t = (0..self.tops).rev().find(|t| self.top[row * self.tops + t] != 0)?;
            let word = t * 64 + 63 - self.top[row * self.tops + t].leading_zeros() as usize;
            self.in_place(f, word * 64 + 63 - self.bits[row * self.words + word].leading_zeros() as usize)
        })
    }
    /// With its rank.
    pub fn highest(&mut self) -> Option<(u64, Step)> {
        while let Some(&(rank, frame, place)) = self.ranked.peek() {
            if let Some(s) = self.in_place(frame, place) {
                return Some((rank, s));
            }
            self.ranked.pop();
        }
        None
    }
}
