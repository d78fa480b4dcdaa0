// Why the chosen agent did so: what each node of its tree answered in the frame that is shown. Answers and numbers are the module's;
// the tree's shape is what the level's text says.

const ANSWERS = [...WORDS, "not ticked"];
// What stands beside a `move`: the way that it got.
const waySaid = ({ steps, direction }) => direction + (steps > 0 ? `, ${steps} step${steps == 1 ? "" : "s"}` : "");

// The answers and numbers of the chosen agent's nodes in the frame that is shown, or null where no agent is chosen. At the start no node
// is ticked. The game that is asked stands at the frame before, and goes on to this one.
function readWhy() {
  const { film, chosen } = state, frame = shownFrame();
  if (!film || chosen < 0) return null;
  if (frame == 0) {
    const numbers = world.numbers(film.at(0), chosen);
    return { answers: numbers.map(() => NOT_TICKED), before: numbers, after: numbers, ways: null, blocked: -1 };
  }
  const answers = film.answers(frame, chosen), before = world.numbers(film.at(frame - 1), chosen);
  const ways = new Map(), { good } = state;
  for (const node of treeOf(good, good.agents[chosen])) {
    const way = node.name == "move" && answers[node.number] != NOT_TICKED && film.way(frame, chosen, +wordsOf(good.text, node)[0]);
    if (way) ways.set(node.number, waySaid(way));
  }
  // The node whose want came to nothing, or -1.
  const blocked = film.isBlocked(frame, chosen) ? film.intent(frame, chosen).node : -1;
  return { answers: [...answers], before, after: world.numbers(film.at(frame), chosen), ways, blocked };
}

function showWhy(told) {
  $("why").hidden = $("whySteps").hidden = !told;
  $("treePanel").classList.toggle("open", told !== null);
  $("copyWhy").hidden = !told || shownFrame() == 0 || !world.calls.btworld_why;
  showWhose(told);
  showTreeMenu();
  if (!told) return closeWhy();
  const { good, chosen } = state, name = good.agents[chosen];
  if (outline.agent != chosen || outline.text != spellOf(good, name)) buildTree(chosen, name);
  outline.nodes.forEach((node, n) => showNode(node, told.answers[n], told.before[n], told.after[n], told.ways?.get(n), n == told.blocked));
  colourEdges(told.answers);
  foldQuiet(told.answers);
  followTick(told.answers.join(""));
  tintText(told.answers);
  sayTick();
  showChosenNode(told);
}

// The tick as `btworld why` writes it, for a report or a question.
async function copyWhy() {
  let text = "";
  guarded(() => { text = state.film.why(shownFrame(), state.chosen); });
  try {
    await navigator.clipboard.writeText(text);
    note("what btworld why writes is copied");
  } catch (_) {
    note("the browser lets nothing be copied");
  }
}

// The keys' focus goes back to the agent's row.
function closeWhy() {
  const row = cells[outline.agent];
  if (row && $("treePanel").querySelector(":focus-visible")) row.letter.focus();
  Object.assign(outline, { agent: -1, text: null, nodes: [], letters: "" });
  state.node = -1;
  markText(-1);
  tintText([]);
  showChosenNode(null);
  sayTick();
}

// The heading: whose tree it is, and what its root answered.
function showWhose(told) {
  const box = $("whyName"), { good, chosen, film } = state;
  box.textContent = "";
  if (!told) return void box.append(shownFrame() > 0 ? `In frame ${shownFrame()}` : "At the start");
  const disc = put(box, "i", letterOf(chosen), "letter");
  disc.style.background = colourOf(chosen);
  put(box, "span", good.agents[chosen]);
  const word = shownFrame() > 0 ? WORDS[film.answer[shownFrame() * film.agents + chosen]] : "";
  if (word) put(box, "small", word, `answer ${word[0]}`);
}

// A number that is 0 before and after the frame is not shown.
function showNode(node, answer, before, after, way, isBlocked) {
  const key = `${answer},${before},${after},${way},${isBlocked}`;
  if (node.key == key) return;
  node.key = key;
  const isTicked = answer < WORDS.length, letter = isTicked ? ANSWERS[answer][0] : "\u00b7";
  node.said.className = `said ${isTicked ? letter : ""}`;
  node.said.textContent = letter;
  node.box.classList.remove("S", "F", "R", "silent");
  node.box.classList.add(isTicked ? letter : "silent");
  node.way.textContent = [way ?? "", isBlocked ? "in vain" : ""].filter((it) => it).join(", ");
  node.way.classList.toggle("vain", isBlocked);
  node.number.textContent = before != after ? `${before} to ${after}` : after || "";
  node.number.hidden = !node.number.textContent;
  node.number.classList.toggle("changed", before != after);
  const parts = [node.name, ANSWERS[answer], node.way.textContent, node.number.hidden ? "" : `number ${node.number.textContent}`];
  node.box.setAttribute("aria-label", parts.filter((part) => part).join(", "));
  node.spoken = isTicked ? parts.filter((part) => part).join(" ") : "";
}

// Says the tick to whoever hears the page, once the frames stand still.
function sayTick() {
  clearTimeout(sayTick.later);
  const { agent, nodes } = outline, frame = shownFrame();
  const spoken = () => `${letterOf(agent)}, ${frame > 0 ? `frame ${frame}: ${nodes.map((node) => node.spoken).filter((it) => it).join(", ")}` : "the start"}`;
  sayTick.later = setTimeout(() => { if (!state.isPlaying) $("whySaid").textContent = agent < 0 ? "" : spoken(); }, 250);
}
