// The chosen node of the tree: what it is, and its answers over time. What stands in its panel beside that, and its text, are the page's own
// (edits.js and stops.js, or live.js).

// What changes by frames in the panel that stands there, and what it was built of.
const parts = { key: "", open: null };
const STRIPE_NODE = 6; // pixels of a frame in its strip

// Chooses a node of the chosen agent's tree, or none.
function chooseNode(n) {
  if (state.chosen < 0) n = -1;
  state.node = n;
  for (const { n: at, end } of outline.nodes) if (at < n && n < end) setFolded(at, false);
  refresh();
  if (n < 0 || !outline.nodes[n]) return;
  rove(n);
  seeNode(outline.nodes[n]);
  seeText(n);
}

// ---- what is shown of it

function showChosenNode(told) {
  const box = $("node"), { node: n, chosen } = state, shown = outline.nodes[n];
  for (const it of outline.nodes) {
    it.box.classList.toggle("chosen", it.n == n);
    it.box.setAttribute("aria-selected", it.n == n);
    it.box.classList.toggle("halts", state.stops.some((stop) => stop.agent == chosen && stop.node == it.n));
  }
  markText(n);
  box.hidden = !told || !shown;
  if (box.hidden) return void Object.assign(parts, { key: "" });
  const key = [chosen, n, outline.text, state.draft && state.draft.map.join("")].join("|");
  if (parts.key != key) buildNodePanel(box, shown, key);
  parts.said.textContent = told.answers[n] < WORDS.length ? ANSWERS[told.answers[n]] : "not ticked";
  parts.said.className = `answer ${told.answers[n] < WORDS.length ? ANSWERS[told.answers[n]][0] : ""}`;
  drawNodeStrip(parts.strip, chosen, n);
  for (const button of parts.halts) button.setAttribute("aria-pressed", state.stops.some((it) => isSameStop(it, button.stop)));
  for (const it of box.querySelectorAll("#edits button, #edits select, #edits input, .words :is(select, input)")) if (!it.dataset.never) it.disabled = !nodeOf(n);
}

function buildNodePanel(box, shown, key) {
  const wasOpen = parts.open;
  box.textContent = "";
  Object.assign(parts, { key, open: null });
  const { chosen, node: n } = state, node = nodeOf(n);
  const head = put(box, "div", "", "nodeHead"), title = put(head, "h3", "");
  put(title, "b", shown.kind);
  const words = put(title, "span", "", "words");
  if (node) node.words.forEach((word, k) => putWord(words, node, k));
  parts.said = put(head, "span", "", "answer");
  parts.strip = put(head, "canvas", "");
  parts.strip.setAttribute("role", "img");
  parts.strip.setAttribute("aria-label", "its answers in the frames around");
  const hands = put(head, "span", "", "hands");
  putButton(hands, "<", "last frame in which its answer changes (<)", () => seekTurn(-1)).setAttribute("aria-label", "last frame in which its answer changes");
  putButton(hands, ">", "next frame in which its answer changes (>)", () => seekTurn(1)).setAttribute("aria-label", "next frame in which its answer changes");
  parts.halts = putHalts(hands, shown);
  putButton(head, "\u00d7", "choose no node (Esc)", () => chooseNode(-1), "close").setAttribute("aria-label", "choose no node");
  put(box, "p", nodeTexts[shown.kind] || "", "soft told");
  putEdits(box, node, wasOpen);
}

function putButton(box, text, title, click, name = "") {
  const button = put(box, "button", text, name);
  button.title = title;
  button.onclick = click;
  return button;
}

// The answers of a node in the frames around the one that is shown, as far as they are played.
function drawNodeStrip(canvas, agent, n) {
  const { film } = state, frame = shownFrame(), around = innerWidth > 700 ? 15 : 8, width = (2 * around + 1) * STRIPE_NODE, pen = penOf(canvas, width, 16);
  Object.assign(canvas.style, { width: `${width}px`, height: "16px" });
  pen.clearRect(0, 0, width, 16);
  const colours = [theme["success-fill"], theme["failure-fill"], theme["moved-fill"], theme.strip];
  for (let by = -around; by <= around; by++) {
    const at = frame + by;
    if (at < 1 || at > film.count) continue;
    const answer = film.answers(at, agent)[n], high = answer == NOT_TICKED ? 4 : 16;
    pen.fillStyle = colours[answer];
    pen.fillRect((by + around) * STRIPE_NODE, (16 - high) / 2, STRIPE_NODE - 1, high);
  }
  pen.strokeStyle = theme.ink;
  pen.lineWidth = 1.5;
  pen.strokeRect(around * STRIPE_NODE - 1, .75, STRIPE_NODE + 1, 14.5);
}
