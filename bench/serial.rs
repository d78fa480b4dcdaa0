// One thread, std only. A breadth-first search for each path question, with buffers that are used again.
mod common;
use common::*;
use std::io::Write;

fn main() {
    let w = words();
    let data = std::fs::read(&w.level).unwrap_or_else(|_| die(&format!("file: {}", w.level), 1));
    let mut l = read_level(&data);
    let script = w.script.map(|p| read_script(&std::fs::read(p).unwrap())).unwrap_or_default();
    let mut signals = Signals::new(script);
    let cells = l.ground.len();
    let mut open = vec![false; cells];
    let mut base = Vec::new();
    let mut search = Search::new(cells);
    let mut mems: Vec<Vec<u16>> = l.tree_of.iter().map(|&t| vec![0; l.trees[t].len()]).collect();
    let mut answers = vec![Status::S; l.agents.len()];
    let mut intents = vec![Intent::Stay; l.agents.len()];
    let mut out = output();
    let mut text: Vec<u8> = Vec::with_capacity((l.width + 1) * l.height + 1024);
    for f in 1..=w.frames {
        if signals.advance(f) || f == 1 {
            open_table(&l.ground, signals.on, &mut open);
            base_glyphs(&l, signals.on, &mut base);
        }
        for a in 0..l.agents.len() {
            let mut t = Tick {
                nodes: &l.trees[l.tree_of[a]], mem: &mut mems[a], agents: &l.agents, item: &l.item, open: &open,
                places: &l.places, on: signals.on, stride: l.stride, me: a, search: &mut search, want: Intent::Stay,
            };
            answers[a] = t.tick(0);
            intents[a] = t.want;
        }
        for a in 0..intents.len() {
            apply(&mut l, &open, a, intents[a]);
        }
        text.clear();
        push_head(&mut text, f);
        let at = text.len();
        text.resize(at + base.len(), 0);
        draw_rows(&l, &base, 0, l.height, &mut text[at..]);
        push_agents(&mut text, &l, &answers);
        if out.write_all(&text).is_err() {
            die("run: write", 1);
        }
    }
}
