// Playing, pointers, keys, and the start.

// ---- playing

const SPEEDS = [2, 5, 10, 30, 60, 600]; // frames a second
function setSpeed(speed) {
  $("speed").value = speed;
  const pace = `${SPEEDS[$("speed").value]} a second`;
  $("pace").textContent = pace;
  $("speed").setAttribute("aria-valuetext", pace);
}

// Plays on to the last frame, or past it where that is wanted; a stop on the way halts it.
function tick(now) {
  if (!state.isPlaying) return;
  const pace = 1000 / SPEEDS[$("speed").value], { film } = state;
  if (film && now - tick.last >= pace) {
    const count = Math.max(1, Math.min(60, Math.floor((now - tick.last) / pace)));
    tick.last = now - tick.last > 4 * pace && count == 60 ? now : tick.last + count * pace;
    if (state.isEndless && state.wanted + count > state.total) setTotal(state.total + Math.max(50, state.total >> 2));
    if (state.wanted >= state.total) return setPlaying(false);
    if (film.count > state.wanted && playTo(Math.min(state.wanted + count, film.count))) return;
  }
  tick.next = requestAnimationFrame(tick);
}

// Shows a frame, or one before it at which it halts; answers whether it halts.
function playTo(frame) {
  let stop = null;
  if (state.stops.length > 0) guarded(() => {
    for (let at = shownFrame() + 1; at <= frame && !stop; at++) {
      stop = stopAt(state.film, at);
      if (stop) frame = at;
    }
  });
  if (stop) haltAt(frame, stop);
  else show(frame);
  return Boolean(stop);
}

function setPlaying(isOn) {
  if (isOn && !state.isPlaying && state.wanted >= state.total && !state.isEndless) show(0);
  state.isPlaying = isOn;
  $("play").textContent = isOn ? "Pause" : "Play";
  cancelAnimationFrame(tick.next);
  search++;
  if (!isOn) return void keepAddress();
  tick.last = performance.now();
  tick.next = requestAnimationFrame(tick);
}

function seekChange(way) {
  const { film, chosen, total } = state;
  if (film) show(changeFrom(film, shownFrame(), way, chosen) ?? (way > 0 ? total : 0));
}

// ---- hands

const clicks = {
  first: () => show(0), last: () => show(state.total), back: () => show(shownFrame() - 1), next: () => goOn(1),
  whyBack: () => show(shownFrame() - 1), whyNext: () => goOn(1), whyClose: () => choose(-1),
  before: () => seekChange(-1), after: () => seekChange(1), play: () => setPlaying(!state.isPlaying),
  keys: () => setHelp(true), closeHelp: () => setHelp(false), help: (event) => { if (event.target == $("help")) setHelp(false); },
  proved: () => { setHelp(true, "start"); $("provedText").scrollIntoView(); }, manual: () => setHelp(true, "rules"),
  levelTab: () => setPage("level"), scriptTab: () => setPage("script"), paint: () => setPainting(!state.isPainting),
  blank: newLevel, newTree: addNewTree, ownTree: copyTree,
  clear: () => change({ script: "" }, "clear"), undo, redo, open: () => $("file").click(), link: makeLink, revert: () => load(originalOf(state.texts.name), 0),
  wrap: () => setWrap($("wrap").getAttribute("aria-pressed") != "true"), endless: () => setEndless(!state.isEndless), nextStop: seekStop,
  copyWhy,
  fold: () => { state.isFolding = $("fold").getAttribute("aria-pressed") != "true"; refresh(); },
  treeOut: () => zoomTree(1 / 1.25), treeIn: () => zoomTree(1.25), treeFit: () => zoomTree(0),
  lessons: beginLessons, begin: () => { closeWelcome(); beginLessons(); }, noWelcome: closeWelcome, nextLesson, solve: solveLesson,
  showHint: () => setHint($("hint").hidden), again: () => openLesson(lessonNow()), noLesson: () => openSample(`levels/${samples[0].name}`),
  saveLevel: () => save(`${state.texts.name}.json`, [state.texts.level]),
  saveScript: () => save(`${state.texts.name}.script`, [state.texts.script]),
  saveFrames: () => framesText().then((parts) => save(`${state.texts.name}.frames.txt`, parts), (error) => note(`${error.message}`)),
};
for (const [id, click] of Object.entries(clicks)) $(id).addEventListener("click", click);

function setEndless(isOn) {
  state.isEndless = isOn;
  $("endless").setAttribute("aria-pressed", isOn);
}

// One frame on, also past the last.
function goOn(by) {
  if (shownFrame() + by > state.total) setTotal(state.total + by);
  show(shownFrame() + by);
}

// A button that was clicked by a pointer gives the focus back, so that space plays.
document.addEventListener("click", (event) => {
  const button = event.target.closest && event.target.closest("button");
  if (button && event.detail > 0) button.blur();
  for (const menu of document.querySelectorAll(".menu")) if (!menu.contains(event.target) || button) menu.open = false;
});
$("slider").oninput = (event) => show(+event.target.value);
$("speed").oninput = (event) => setSpeed(event.target.value);
$("number").onchange = (event) => {
  const frame = event.target.valueAsNumber;
  if (frame > state.total) setTotal(frame);
  if (frame >= 0) show(frame);
  event.target.value = state.wanted;
};
$("total").onchange = (event) => {
  if (event.target.valueAsNumber >= 1) setTotal(event.target.valueAsNumber);
  event.target.value = state.total;
  refresh();
};
$("treeOf").onchange = (event) => followTree(event.target.value);
$("treeName").onchange = (event) => renameTree(event.target.value);
$("width").onchange = $("height").onchange = setSize;
$("sample").onchange = (event) => {
  openSample(event.target.value);
  event.target.blur();
};
$("name").onchange = (event) => change({ name: event.target.value.trim() || "level" }, "name");
for (const tab of $("panes").children) tab.onclick = () => setPane(tab.dataset.pane);

// the tree's nodes: two clicks go to the text
$("whyTree").addEventListener("dblclick", (event) => {
  const box = event.target.closest(".node");
  if (!box) return;
  chooseNode(+box.dataset.node);
  goToText();
});

// between tree and text: how much of the side the tree has
const SHARES = { least: 15, most: 85, first: 58 };
function setShare(share) {
  const now = Math.max(SHARES.least, Math.min(SHARES.most, Math.round(share)));
  $("right").style.setProperty("--share", `${now}%`);
  $("splitter").setAttribute("aria-valuenow", now);
  kept.write("share", now);
  fitTree();
}
const isBeside = () => getComputedStyle($("right")).flexDirection == "row";
$("splitter").onpointerdown = (event) => { $("splitter").setPointerCapture(event.pointerId); };
$("splitter").onpointermove = (event) => {
  if (!event.buttons) return;
  const box = $("right").getBoundingClientRect();
  setShare(isBeside() ? (event.clientX - box.left) / box.width * 100 : (event.clientY - box.top) / box.height * 100);
};
$("splitter").ondblclick = () => setShare(SHARES.first);
$("file").onchange = (event) => {
  openFiles(event.target.files);
  event.target.value = "";
};

// dropped files
const hasFiles = (event) => [...event.dataTransfer.types].includes("Files");
document.addEventListener("dragover", (event) => {
  if (!hasFiles(event)) return;
  event.preventDefault();
  $("drop").hidden = false;
});
document.addEventListener("dragleave", (event) => { if (!event.relatedTarget) $("drop").hidden = true; });
document.addEventListener("drop", (event) => {
  $("drop").hidden = true;
  if (!hasFiles(event)) return;
  event.preventDefault();
  openFiles(event.dataTransfer.files);
});

// the overview
const seek = (event) => show(frameAt($("overview"), event, state.total));
$("overview").onpointerdown = (event) => {
  $("overview").setPointerCapture(event.pointerId);
  seek(event);
};
$("overview").onpointermove = (event) => { if (event.buttons) seek(event); };

// the map: paints, or chooses an agent, or drags what is zoomed
let grip = null;
$("map").onpointerdown = (event) => {
  if (event.button != 0) return;
  $("map").setPointerCapture(event.pointerId);
  const cell = pointedAt(event);
  grip = { x: event.clientX, y: event.clientY, view: { ...state.view }, hasMoved: false, cell };
  if (!state.isPainting) return;
  state.stroke = ++strokes;
  state.cell = null;
  if (cell) paint([cell]);
};
let strokes = 0;
$("map").onpointermove = (event) => {
  const cell = pointedAt(event);
  scene.pointed = cell;
  sayCell();
  if (!grip || !event.buttons) return;
  if (state.isPainting) {
    if (cell) paint(grip.cell ? cellsBetween(grip.cell, cell) : [cell]);
    grip.cell = cell || grip.cell;
    return;
  }
  if (Math.abs(event.clientX - grip.x) + Math.abs(event.clientY - grip.y) > 4) grip.hasMoved = true;
  if (!grip.hasMoved || state.view.zoom == 1) return;
  state.view.x = grip.view.x + event.clientX - grip.x;
  state.view.y = grip.view.y + event.clientY - grip.y;
  drawMap();
};
$("map").onpointerup = (event) => {
  if (grip && !state.isPainting && !grip.hasMoved && state.film) choose(agentNear(scene, state.film, shownFrame(), ...onMap(event)));
  letGo();
};
$("map").onpointercancel = () => letGo();
$("map").onpointerleave = () => {
  scene.pointed = null;
  sayCell();
};
function letGo() {
  grip = null;
  state.stroke = 0;
}

$("map").addEventListener("wheel", (event) => {
  event.preventDefault();
  zoomMap(event.deltaY > 0 ? 1 / 1.25 : 1.25, ...onMap(event));
}, { passive: false });

// The help takes the focus, and gives it back.
let asker = null;
function setHelpPage(name) {
  for (const tab of $("helpHead").querySelectorAll("[data-help]")) {
    tab.setAttribute("aria-selected", tab.dataset.help == name);
    $(tab.dataset.help).hidden = tab.dataset.help != name;
  }
  $("helpText").scrollTop = 0;
}
for (const tab of $("helpHead").querySelectorAll("[data-help]")) tab.onclick = () => setHelpPage(tab.dataset.help);
function setHelp(isOn, page = "start") {
  if (isOn && page) setHelpPage(page);
  if (isOn == !$("help").hidden) return;
  $("help").hidden = !isOn;
  if (isOn) {
    asker = document.activeElement;
    $("helpText").focus();
  } else if (asker) asker.focus();
}

// ---- keys

const withCtrl = { z: undo, y: redo, Z: redo, o: clicks.open, s: clicks.saveLevel };
const plain = {
  " ": () => setPlaying(!state.isPlaying), Home: () => show(0), End: () => show(state.total),
  ArrowLeft: (ten) => show(shownFrame() - ten), ArrowRight: (ten) => goOn(ten), PageUp: () => show(shownFrame() - 10), PageDown: () => goOn(10),
  ArrowUp: () => seekChange(-1), ArrowDown: () => seekChange(1), Escape: () => leave(),
  ",": () => setSpeed(+$("speed").value - 1), ".": () => setSpeed(+$("speed").value + 1), "[": () => zoomMap(1 / 1.3), "]": () => zoomMap(1.3),
  "=": () => { Object.assign(state.view, { zoom: 1, x: 0, y: 0 }); zoomMap(1); },
  1: () => setPage("agents"), 2: () => goToEditor("level"), 3: () => goToEditor("script"), "?": () => setHelp(true),
  "<": () => seekTurn(-1), ">": () => seekTurn(1),
};
function goToEditor(name) {
  setPage(name);
  editors[name].area.focus({ preventScroll: true });
}
// With the focus on a node of the tree.
const ofTree = {
  ArrowUp: () => stepInTree(-1), ArrowDown: () => stepInTree(1), "+": (n) => setFolded(n, false), "-": (n) => setFolded(n, true),
  Enter: (n) => (state.node == n ? goToText() : chooseNode(n)),
};
const ofSplitter = { ArrowUp: -5, ArrowLeft: -5, ArrowDown: 5, ArrowRight: 5 };
const ofCell = { ArrowLeft: () => moveCell(-1, 0), ArrowRight: () => moveCell(1, 0), ArrowUp: () => moveCell(0, -1), ArrowDown: () => moveCell(0, 1), Enter: () => state.cell && paint([state.cell]) };

function leave() {
  if (!$("help").hidden) setHelp(false);
  else if (document.querySelector(".menu[open]")) document.querySelector(".menu[open]").open = false;
  else if (document.activeElement.matches("textarea, input, select")) document.activeElement.blur();
  else if (state.isPainting) setPainting(false);
  else if (state.node >= 0) chooseNode(-1);
  else choose(-1);
}

// What a key does, or null where it is left to the browser.
function handOf(event) {
  const { key, target } = event, isText = target.matches("textarea"), isField = target.matches("input:not([type=range]), select");
  if (key == "F2") return () => setPainting(!state.isPainting);
  if (event.ctrlKey || event.metaKey) return !event.altKey && !isField ? withCtrl[key] : null;
  if (event.altKey) return null;
  if (key == "Escape") return leave;
  if (!$("help").hidden) return key == "?" ? leave : key == "Tab" ? () => tabInHelp(event.shiftKey) : null;
  if (isField && key == "Enter") return () => target.blur();
  if (isText || isField) return null;
  if (target.matches("button, summary") && (key == "Enter" || (key == " " && !$("bar").contains(target)))) return null;
  if (target == $("speed") && /^(Arrow|Page|Home|End)/.test(key)) return null;
  if (target == $("agentsBox") && /^(Arrow|Page)(Up|Down)$/.test(key)) return null;
  if (target.matches("[role=treeitem]") && ofTree[key]) return () => ofTree[key](+target.dataset.node);
  if (target == $("splitter") && ofSplitter[key]) return () => setShare(+$("splitter").getAttribute("aria-valuenow") + ofSplitter[key]);
  if (state.isPainting) {
    if (target == $("map") && ofCell[key]) return ofCell[key];
    if (/^[#.*a-zA-Z0-9]$/.test(key)) return () => setTool(key);
    if (key == "Backspace" || key == "Delete") return () => setTool("erase");
  }
  if (/^[a-z]$/.test(key)) return state.good && signalLetters().includes(key) ? () => flip(key) : null;
  if (/^[A-Z]$/.test(key)) return () => choose(key.charCodeAt(0) - 65);
  return plain[key] && (() => plain[key](event.shiftKey ? 10 : 1));
}

document.addEventListener("keydown", (event) => {
  const hand = handOf(event);
  if (!hand) return;
  event.preventDefault();
  hand();
});

// Tab stays within the help.
function tabInHelp(isBack) {
  const all = [...$("help").querySelectorAll("button, a")].filter((it) => it.getClientRects().length > 0), at = all.indexOf(document.activeElement);
  all[(at + (isBack ? -1 : 1) + all.length) % all.length].focus();
}

// ---- the start

function laidOut() {
  if (state.film) layAgents();
  fitTree();
  refresh();
}

async function start() {
  readTheme();
  setSpeed(1);
  setWrap(true);
  setText("level");
  setPane("tree");
  await loadModule();
  setShare(kept.read("share") ?? SHARES.first);
  new ResizeObserver(() => guarded(drawMap)).observe($("mapBox"));
  new ResizeObserver(treeLaidOut).observe($("whyTree"));
  window.addEventListener("resize", laidOut);
  window.addEventListener("hashchange", followLink);
  window.addEventListener("pagehide", writeDraft);
  matchMedia("(prefers-color-scheme: dark)").addEventListener("change", () => { readTheme(); band.key = ""; refresh(); });
  const isLinked = await followLink(), isBack = !isLinked && openLast();
  if (!isLinked && !isBack) {
    load(samples[0], 0);
  }
  showWelcome();
  window.btworld.startedAt = performance.now();
  if (isLinked || isBack) return;
  if (!isStill()) setPlaying(true);
}

// For tests, and for whoever looks in from the console.
window.btworld = { state, show, load, flip, change, setTool, setPainting, setPlaying, setTotal, framesText, spellLink, choose, chooseNode };
start().catch((error) => { $("mapFault").textContent = `page: ${error.message}`; });
