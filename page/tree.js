// The tree of the chosen agent, drawn from left to right: a child stands right of its parent, brothers below each other, so the order in
// which nodes are ticked is the order of reading. The boxes are elements, so that they can be reached, heard and found; the edges lie
// below them.

const ROW = 29, GAP = 26, TALL = 23, WAY = 92, EDGES = 22;
const smallest = () => (innerWidth > NARROW ? .8 : .7); // as far as a tree is made smaller by itself
const LARGEST = 1.2; // and larger
// What stands in the page: the nodes in preorder, each { box, said, .. , name } and where it lies.
const outline = { agent: -1, text: null, nodes: [], letters: "", width: 0, height: 0, zoom: 0, folded: new Set(), quiet: new Set(), quietKey: "" };
const svg = (kind) => document.createElementNS("http://www.w3.org/2000/svg", kind);

// What the help says of each kind of node.
const nodeTexts = {};
for (const row of document.querySelectorAll("#help .nodes tr"))
  for (const code of row.cells[0].querySelectorAll("code")) nodeTexts[JSON.parse(/"[^"]+"/.exec(code.textContent)[0])] = row.cells[1].textContent;

// A tree as it is written, to see whether it is another one.
const spellOf = (draft, name) => JSON.stringify(draft.trees[name]);

function buildTree(agent, name) {
  const box = $("whyTree"), { good } = state, text = spellOf(good, name), isSame = outline.agent == agent;
  box.textContent = "";
  const plane = put(put(box, "div", "", "sheet"), "div", "", "plane"), edges = plane.appendChild(svg("svg"));
  edges.setAttribute("aria-hidden", "true");
  const nodes = treeOf(good, name).map((node) => buildNode(plane, node, labelOf(good.text, node)));
  for (const node of nodes) node.edge = node.parent !== null ? edges.appendChild(svg("path")) : null;
  if (!isSame) outline.folded.clear();
  Object.assign(outline, { agent, text, nodes, letters: "", quiet: new Set(), quietKey: "", edges, plane });
  box.setAttribute("aria-label", `tree ${name} of agent ${letterOf(agent)}`);
  if (state.node >= nodes.length) state.node = -1;
  outline.at = Math.max(0, state.node);
  layTree();
  if (!isSame) box.scrollTop = box.scrollLeft = 0;
}

function buildNode(plane, { number: n, name, depth, parent, children, end }, label) {
  const form = FORMS[name] ?? { group: "ask", sign: "" }, box = put(plane, "div", "", `node ${form.group}`);
  const said = put(box, "span", "", "said"), head = put(box, "span", "", children.length > 0 ? "inner" : "leaf");
  if (form.sign) put(box, "i", form.sign, "sign");
  put(head, "b", name);
  const words = label.slice(name.length);
  if (words) put(head, "code", words);
  if (form.sign) box.insertBefore(box.lastChild, head);
  const way = put(box, "small", "", "way"), numberBox = put(box, "span", "", "number"), more = children.length > 0 ? put(box, "span", "", "more") : null;
  box.title = nodeTexts[name] || "";
  box.setAttribute("role", "treeitem");
  box.setAttribute("aria-level", depth + 1);
  box.dataset.node = n;
  box.tabIndex = -1;
  if (more) more.title = "fold or unfold";
  return { n, box, said, head, way, number: numberBox, more, name: label, kind: name, end, isMove: name == "move", acts: form.group == "act", parent: parent ? parent.number : null, children: children.map((it) => it.number) };
}

// ---- where the nodes lie

const isFolded = (node) => outline.folded.has(node.n) || outline.quiet.has(node.n);

// The first child stands in its parent's row, each further one below what the one before holds.
function layTree() {
  const { nodes, edges } = outline;
  if (nodes.length == 0) return;
  let row = 0, width = 0;
  const isShut = (node) => node.children.length > 0 && isFolded(node);
  const hide = (node, isHidden) => {
    node.box.hidden = isHidden;
    if (node.edge) node.edge.style.display = isHidden ? "none" : "";
  };
  for (const node of nodes) {
    hide(node, false);
    node.box.classList.toggle("shut", isShut(node));
    if (!node.more) continue;
    node.more.textContent = isShut(node) ? `+${node.end - node.n - 1}` : "\u2212";
    node.box.setAttribute("aria-expanded", !isShut(node));
  }
  // Behind that: a box that is shut is wider, as it says how much is in it.
  const wide = nodes.map(({ box }) => box.offsetWidth);
  const lay = (node, x) => {
    Object.assign(node, { x, y: row * ROW, wide: wide[node.n] });
    width = Math.max(width, x + node.wide + (node.acts ? WAY : 14));
    if (isShut(node)) for (let n = node.n + 1; n < node.end; n++) hide(nodes[n], true);
    if (isShut(node) || node.children.length == 0) return void row++;
    for (const child of node.children) lay(nodes[child], x + node.wide + GAP);
  };
  lay(nodes[0], 2);
  for (const node of nodes) if (!node.box.hidden) node.box.style.transform = `translate(${node.x}px, ${node.y}px)`;
  for (const node of nodes) if (node.edge && !node.box.hidden) node.edge.setAttribute("d", edgeOf(nodes[node.parent], node));
  Object.assign(outline, { width, height: row * ROW });
  edges.setAttribute("width", width);
  edges.setAttribute("height", row * ROW);
  fitTree();
  rove(outline.at);
}

function edgeOf(from, to) {
  const x = from.x + from.wide, bus = x + GAP / 2, top = from.y + TALL / 2, end = to.y + TALL / 2;
  if (top == end) return `M${x} ${top}H${to.x}`;
  return `M${x} ${top}H${bus - 5}Q${bus} ${top} ${bus} ${top + 5}V${end - 5}Q${bus} ${end} ${bus + 5} ${end}H${to.x}`;
}

// An edge bears its child's answer; those that were ticked lie above the others.
function colourEdges(answers) {
  for (const { edge, n } of outline.nodes) {
    const name = answers[n] < WORDS.length ? WORDS[answers[n]][0] : "silent";
    if (!edge || edge.getAttribute("class") == name) continue;
    edge.setAttribute("class", name);
    if (name != "silent") outline.edges.append(edge);
  }
}

// As large as its panel has room for, but within bounds: never too small to be read. Or as it was zoomed by hand.
function fitTree() {
  const box = $("whyTree"), { width, height, plane, zoom } = outline;
  if (!plane || box.clientWidth == 0) return;
  const fitted = Math.min(LARGEST, (box.offsetWidth - EDGES) / width, (box.offsetHeight - EDGES) / height); // the room without bars to scroll by
  outline.scale = zoom || Math.max(smallest(), fitted);
  plane.style.transform = `scale(${outline.scale})`;
  plane.parentNode.style.width = `${Math.ceil(width * outline.scale)}px`;
  plane.parentNode.style.height = `${Math.ceil(height * outline.scale)}px`;
}

// The chosen node stays in sight.
function treeLaidOut() {
  fitTree();
  if (outline.nodes[state.node]) seeNode(outline.nodes[state.node]);
}

function zoomTree(by) {
  outline.zoom = by == 0 ? 0 : Math.max(.3, Math.min(2.5, outline.scale * by));
  fitTree();
}

// ---- folding

function setFolded(n, isOn) {
  if (outline.nodes[n].children.length == 0 || (!isOn && !isFolded(outline.nodes[n]))) return;
  outline.folded[isOn ? "add" : "delete"](n);
  if (!isOn) outline.quiet.delete(n);
  layTree();
}

// Branches that were not ticked in the frame fold by themselves: where that is wanted, or where the whole tree has no room and nobody
// said otherwise.
function foldQuiet(answers) {
  const rows = outline.nodes.filter((node) => node.children.length == 0).length, isTall = rows * ROW * smallest() > $("whyTree").offsetHeight;
  const isWanted = state.isFolding ?? isTall, isOn = isWanted && shownFrame() > 0;
  $("fold").setAttribute("aria-pressed", isWanted);
  const isChosen = ({ n, end }) => n < state.node && state.node < end; // the chosen node stays to be seen
  const quiet = isOn ? outline.nodes.filter((node) => node.children.length > 0 && answers[node.n] == NOT_TICKED && !isChosen(node)).map((node) => node.n) : [];
  if (quiet.join() == outline.quietKey) return;
  outline.quietKey = quiet.join();
  outline.quiet = new Set(quiet);
  layTree();
}

// ---- what is in sight

function seeNode(node) {
  const box = $("whyTree"), { scale } = outline, edge = 8;
  const left = node.x * scale, right = (node.x + node.wide) * scale, top = node.y * scale, bottom = (node.y + ROW) * scale;
  if (top < box.scrollTop) box.scrollTop = top - edge;
  else if (bottom + 16 > box.scrollTop + box.clientHeight) box.scrollTop = bottom + 16 - box.clientHeight;
  if (left < box.scrollLeft) box.scrollLeft = left - edge;
  else if (right + 24 > box.scrollLeft + box.clientWidth) box.scrollLeft = right + 24 - box.clientWidth;
}

// Where other nodes answer, or others than before, the last one that was ticked is scrolled into sight.
function followTick(letters) {
  if (outline.letters == letters) return;
  outline.letters = letters;
  const last = outline.nodes.filter((node) => node.spoken && !node.box.hidden).pop();
  if (last && state.node < 0) seeNode(last);
}

// The one node that Tab reaches.
function rove(n) {
  const { nodes } = outline;
  while (n > 0 && nodes[n].box.hidden) n = nodes[n].parent;
  if (nodes[outline.at]) nodes[outline.at].box.tabIndex = -1;
  outline.at = n;
  if (nodes[n]) nodes[n].box.tabIndex = 0;
}

function stepInTree(way) {
  const seen = outline.nodes.filter((node) => !node.box.hidden), at = seen.findIndex((node) => node.n == outline.at), next = seen[at + way];
  if (!next) return;
  rove(next.n);
  next.box.focus({ preventScroll: true });
  seeNode(next);
}

// ---- hands

// A click chooses a node, its sign of children folds it.
$("whyTree").addEventListener("click", (event) => {
  const box = event.target.closest(".node");
  if (!box) return;
  const n = +box.dataset.node;
  if (event.target.closest(".more")) setFolded(n, !isFolded(outline.nodes[n]));
  else chooseNode(state.node == n ? -1 : n);
});
// Drawn by its ground it moves.
let treeGrip = null;
$("whyTree").onpointerdown = (event) => {
  if (event.pointerType == "mouse" && event.button == 0 && !event.target.closest(".node")) treeGrip = { x: event.clientX + $("whyTree").scrollLeft, y: event.clientY + $("whyTree").scrollTop };
};
$("whyTree").onpointermove = (event) => {
  if (!treeGrip || !event.buttons) return void (treeGrip = null);
  $("whyTree").scrollTo(treeGrip.x - event.clientX, treeGrip.y - event.clientY);
};
$("whyTree").addEventListener("wheel", (event) => {
  if (!event.ctrlKey) return;
  event.preventDefault();
  zoomTree(event.deltaY > 0 ? 1 / 1.1 : 1.1);
}, { passive: false });
