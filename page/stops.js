// Stops: frames at which playing halts, as a node's answer turns to one that is waited for, or what an agent wants comes to nothing. They are
// looked up in what the nodes answered and in the frames.

// A stop is { agent, node, name, answer }, or { agent, node: -1 } where what an agent wants comes to nothing.
const stopSaid = ({ agent, node, name, answer }) => `${letterOf(agent)}${node < 0 ? " is blocked" : `: ${name} answers ${WORDS[answer]}`}`;
const isSameStop = (one, other) => one.agent == other.agent && one.node == other.node && one.answer == other.answer;

function toggleStop(stop) {
  const { stops } = state, at = stops.findIndex((it) => isSameStop(it, stop));
  if (at < 0) stops.push(stop);
  else stops.splice(at, 1);
  showStops();
  refresh();
}

// What stands in the panel of the chosen node of them.
function putHalts(hands, shown) {
  const { chosen, node: n } = state;
  put(hands, "span", "halt at", "soft");
  const halt = (stop, text, title, name) => {
    const button = putButton(hands, text, title, () => toggleStop(stop), `halt ${name}`);
    button.stop = stop;
    button.setAttribute("aria-label", title);
    return button;
  };
  const halts = WORDS.map((word, answer) => halt({ agent: chosen, node: n, name: shown.name, answer }, word[0], `halt where this node turns to ${word}`, word[0]));
  // Of a module that tells no intents nothing is known of this.
  if (world.calls.btworld_intent) halts.push(halt({ agent: chosen, node: -1 }, "blocked", `halt where what ${letterOf(chosen)} wants comes to nothing: its cell and its load stay as they were`, ""));
  return halts;
}

// Stops of nodes that the level has no longer go.
function keepStops() {
  state.stops = state.stops.filter(({ agent, node, name }) => {
    if (agent >= state.good.agents.length) return false;
    const it = treeOf(state.good, state.good.agents[agent])[node];
    return node < 0 || (it && labelOf(state.good.text, it) == name);
  });
  showStops();
}

function showStops() {
  const box = $("stops"), { stops } = state;
  box.textContent = stops.length > 0 ? "halts where " : "";
  for (const stop of stops) {
    const chip = put(box, "button", `${stopSaid(stop)} \u00d7`, "chip");
    chip.title = "no longer halt there";
    chip.onclick = () => toggleStop(stop);
  }
  $("nextStop").hidden = stops.length == 0;
}

// The first stop at which a frame halts, or none. It halts where an answer turns, not in each frame in which it stays so.
const stopAt = (film, frame) => state.stops.find(({ agent, node, answer }) => (
  node < 0 ? film.isBlocked(frame, agent) && !film.isBlocked(frame - 1, agent) : film.answers(frame, agent)[node] == answer && film.hasTurned(frame, agent, node)));

function haltAt(frame, stop) {
  setPlaying(false);
  show(frame);
  note(`halted in frame ${frame}: ${stopSaid(stop)}`);
}

const seekStop = () => {
  let stop = null;
  setPlaying(false);
  seekFrame(1, (film, frame) => (stop = stopAt(film, frame)), "no stop comes up to the last frame").then((frame) => { if (frame) haltAt(frame, stop); });
};
