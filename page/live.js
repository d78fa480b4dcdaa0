// The drawn tree on a page of `btview page`. The core plays the page's level with the signals that the page has for its frames, and tells what
// each node answered. The page's own scripts stand before this one: which agent is chosen and which frame is shown is theirs.

const NARROW = 900; // as in the style
const SLICE = 8; // milliseconds of playing ahead in one go

let world = null; // the module's calls
const state = {
  film: null, // the frames as the core plays them
  good: null, draft: null, // the level's text
  node: -1, // a node of the chosen agent's tree, in preorder
  isFolding: null, // whether branches that were not ticked fold; null: where the tree has no room
  total: N, stops: [],
  get chosen() { return chosen; },
  get isPlaying() { return playing; },
};
const shownFrame = () => shown;
const refresh = () => drawDetail();

// ---- what the tree's files ask of the page around them: here a level is looked at, and not changed

const nodeOf = (n) => treeOf(state.good, state.good.agents[chosen])[n];
const putWord = (box, node, k) => put(box, "code", wordsOf(state.good.text, node)[k]);
const spelled = (it) => (Array.isArray(it) ? `[${it.map(spelled).join(", ")}]` : JSON.stringify(it));
const putEdits = (box, node) => { put(box, "code", spelled(JSON.parse(state.good.text.slice(node.from, node.to))), "spelt mono").title = "its text in the level"; };
const putHalts = () => [];
const seeText = () => {}, markText = () => {}, tintText = () => {}, showTreeMenu = () => {};

const note = (text) => { $("note").textContent = text; };

// Does what calls the module. Where it traps or has no memory its games are lost, and the page is as it is without them.
function guarded(what) {
  try {
    what();
  } catch (error) {
    end(error);
  }
}
function end(error) {
  state.film = null;
  say(`no answers of nodes: ${error.message}`);
  refresh();
}

function say(text) {
  $("liveSaid").textContent = text;
  $("liveSaid").hidden = false;
}

// ---- playing ahead

// Plays on, in slices. Each frame has to be the one that the page has.
function playAhead() {
  const { film } = state, until = performance.now() + SLICE, isWaiting = film.count < shown;
  guarded(() => {
    while (film.count < N && performance.now() < until) {
      film.step();
      if ($("liveSaid").hidden && new TextDecoder().decode(world.text(film.head).bytes) !== textOf(film.count))
        say(`frame ${film.count} of this page is not what the core plays: from here on the answers in the tree are those of other frames`);
    }
  });
  if (!state.film) return;
  if (film.count < N) requestAnimationFrame(playAhead);
  if (isWaiting && chosen >= 0) refresh();
}

// ---- what is shown

// In place of the page's list of nodes.
function drawTree(drawList) {
  const { film } = state, isOn = chosen >= 0 && film !== null;
  $("treePanel").hidden = !isOn;
  $("detail").hidden = isOn;
  note("");
  if (chosen !== outline.agent) state.node = -1;
  if (!isOn) {
    if (outline.agent >= 0) closeWhy();
    return drawList();
  }
  if (film.count < shown) return void ($("whyName").textContent = `playing: frame ${film.count} of ${shown}`);
  guarded(() => {
    const told = readWhy();
    $("happened").textContent = "";
    if (shown > 0) putHappened($("happened"), film, shown, chosen);
    showWhy(told);
  });
}

// ---- hands

const clicks = {
  fold: () => { state.isFolding = $("fold").getAttribute("aria-pressed") !== "true"; refresh(); },
  treeOut: () => zoomTree(1 / 1.25), treeIn: () => zoomTree(1.25), treeFit: () => zoomTree(0), copyWhy: () => copyWhy(), whyClose: () => choose(-1),
};
const plain = { "<": () => seekTurn(-1), ">": () => seekTurn(1) };
// With the focus on a node of the tree.
const ofTree = { ArrowUp: () => stepInTree(-1), ArrowDown: () => stepInTree(1), "+": (n) => setFolded(n, false), "-": (n) => setFolded(n, true), Enter: (n) => chooseNode(n) };

// What a key does, or null where it is left to the page and the browser.
function handOf({ key, target, ctrlKey, metaKey, altKey }) {
  if (ctrlKey || metaKey || altKey || isAsked() || !state.film || target.matches("input:not([type=range]), select")) return null;
  if (key === "Escape" && state.node >= 0) return () => chooseNode(-1);
  if (target.matches("[role=treeitem]") && ofTree[key]) return () => ofTree[key](+target.dataset.node);
  return plain[key] ?? null;
}

// Before the page's own keys.
function keyed(event) {
  if (!(event.target instanceof Element)) return;
  const hand = handOf(event), isPress = event.key === " " && event.target.matches("#treePanel button");
  if (hand || isPress) event.stopImmediatePropagation();
  if (!hand) return;
  event.preventDefault();
  hand();
}

// ---- the start

function putParts() {
  const copy = (id) => $(id).content.cloneNode(true);
  $("side").append(copy("live"));
  document.querySelector("header .right").before(Object.assign(document.createElement("span"), { id: "note", role: "status" }));
  put(document.querySelector("header"), "p", "", "fault").id = "liveSaid";
  $("liveSaid").hidden = true;
  $("liveSaid").setAttribute("role", "alert");
  $("helpText").querySelector("tbody").append(copy("liveKeys"));
  $("helpText").append(copy("liveNodes"));
}
putParts();

async function start() {
  world = await Btworld.load(await unpacked($("module").textContent));
  const text = JSON.stringify(level);
  state.good = state.draft = readDraft(text);
  state.film = new Film(world, text, level.map, A, { of: (frame) => onIn[frame], close() {} });
  const drawList = drawDetail;
  window.drawDetail = () => drawTree(drawList);
  for (const [id, click] of Object.entries(clicks)) $(id).onclick = click;
  $("treePanel").addEventListener("click", (event) => { if (event.detail > 0) event.target.closest("button")?.blur(); }); // so that space plays
  document.addEventListener("keydown", keyed, true);
  new ResizeObserver(treeLaidOut).observe($("whyTree"));
  matchMedia("(prefers-color-scheme: dark)").addEventListener("change", () => refresh());
  window.resized(); // the page's own: the files of the tree have another one
  playAhead();
  // For tests, and for whoever looks in from the console.
  window.btview.live = { state, world, outline, chooseNode, seekTurn };
}
start().catch(end);
