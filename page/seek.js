// The search for frames, in slices, in what the nodes answered and in the frames.

let search = 0;
// Shows the next frame, or the last one before it, for which a test holds; says so where there is none.
async function seekFrame(way, test, none) {
  const mine = ++search;
  let frame = shownFrame();
  for (;;) {
    const until = performance.now() + SLICE;
    let found = false;
    guarded(() => {
      const { film, total } = state;
      while (film && !found && performance.now() < until) {
        frame += way;
        if (frame < 1 || frame > total) return void (frame = 0);
        if (frame > film.count) return void (frame -= way);
        found = Boolean(test(film, frame));
      }
    });
    if (mine != search || !state.film) return null;
    if (found) {
      show(frame);
      return frame;
    }
    if (frame < 1) return void note(none);
    await new Promise((done) => setTimeout(done));
  }
}

const seekTurn = (way) => {
  const { chosen, node } = state;
  if (chosen >= 0 && node >= 0) seekFrame(way, (film, frame) => film.hasTurned(frame, chosen, node), `no ${way > 0 ? "later" : "earlier"} frame in which this node's answer changes`);
  else note("choose a node of the tree first");
};
