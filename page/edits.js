// The chosen node in the level's text, and changes of the tree. A change is one of the level's text, and is offered where the module finds
// no fault in it.

// Where a node of the chosen agent's tree stands in the text, as far as the text still has this tree.
function nodeOf(n) {
  const { draft, good, chosen } = state;
  if (n < 0 || chosen < 0 || !draft || !good || draft.agents[chosen] != good.agents[chosen]) return null;
  return spellOf(draft, good.agents[chosen]) == spellOf(good, good.agents[chosen]) ? treeOf(draft, good.agents[chosen])[n] : null;
}
const rangeOf = (n) => { const it = nodeOf(n); return it ? { from: it.from, to: it.to } : null; };

// The caret of the level's text: its node is chosen, in the tree of the chosen agent or of the first one that has this tree.
function caretAt(at) {
  const { draft, good, film, fault } = state;
  if (!draft || !film || fault || draft.text != good.text) return;
  const found = nodeAt(draft, at);
  if (!found) return;
  const agents = good.agents, chosen = agents[state.chosen] == found.name ? state.chosen : agents.indexOf(found.name);
  if (chosen < 0 || (chosen == state.chosen && found.number == state.node)) return;
  state.chosen = chosen;
  state.node = found.number;
  refresh();
  if (outline.nodes[found.number]) {
    rove(found.number);
    seeNode(outline.nodes[found.number]);
  }
}

// Its text, with the caret in it.
function goToText() {
  const range = rangeOf(state.node), { area } = editors.level;
  if (!range) return;
  setPage("level");
  area.focus({ preventScroll: true });
  area.setSelectionRange(range.from + 2, range.from + 2);
  editors.level.see(lineOf(area.value, range.from).line);
}

// Its text in sight, and marked there.
function seeText(n) {
  const range = rangeOf(n);
  if (!range) return;
  setText("level");
  if (document.activeElement != editors.level.area) editors.level.see(lineOf(state.draft.text, range.from).line);
}
const markText = (n) => editors.level.pick(rangeOf(n));

// In the level's text the names of the nodes bear the colours of their answers.
function tintText(answers) {
  const tints = new Map(), nodes = answers.length > 0 && shownFrame() > 0 ? treeOf(state.draft, state.good.agents[state.chosen]) : [];
  if (nodes.length == answers.length) nodes.forEach((node, n) => { if (answers[n] < WORDS.length) tints.set(node.part.items[0].from, WORDS[answers[n]][0]); });
  editors.level.tint(tints);
}

// ---- changes

const isFine = (level) => world.fault(level, state.texts.script) == "";

// Another text, where the module finds no fault in it; WHERE finds the node to be chosen then.
function editTree(level, where) {
  const fault = world.fault(level, state.texts.script);
  if (fault) return void note(fault);
  const { chosen, good } = state, nodes = treeOf(readDraft(level), good.agents[chosen]);
  state.node = where(nodes);
  change({ level }, `tree ${steps.past.length}`);
  if (outline.nodes[state.node]) seeNode(outline.nodes[state.node]);
}

// A word behind a node's name: a field that takes what the map has; a number that is refused leaves the text as it was.
function putWord(box, node, k) {
  const { draft } = state, word = (FORMS[node.name]?.words ?? [])[k], was = wordsOf(draft.text, node)[k], here = draft.map.join("");
  const set = (by) => editTree(withWord(state.draft.text, nodeOf(node.number), k, by), () => node.number);
  const choices = { place: [..."0123456789"].filter((it) => here.includes(it)), agent: draft.agents.map((_, a) => letterOf(a)), signal: [..."abcdefghijklmnopqrstuvwxyz"] }[word];
  let field;
  if (choices) {
    field = put(box, "select", "");
    for (const it of choices.includes(was) ? choices : [was, ...choices]) field.append(new Option(it, it, false, it == was));
    field.onchange = () => set(field.value);
  } else {
    field = Object.assign(put(box, "input", ""), { type: "number", min: 1, value: was });
    field.onchange = () => {
      set(Math.round(field.valueAsNumber) || 0);
      field.value = wordsOf(state.draft.text, nodeOf(node.number) ?? node)[k] ?? was;
    };
  }
  field.setAttribute("aria-label", word ?? "word");
}

function putEdits(box, node, open) {
  const edits = put(box, "div", "", "edits"), row = put(edits, "div", "", "row");
  edits.id = "edits";
  if (!node) return void put(row, "span", state.fault ? "mend the fault, then the tree can be changed here" : "", "soft");
  const { draft } = state, self = letterOf(state.chosen), { parent, number: n } = node, text = draft.text, form = FORMS[node.name];
  const at = parent ? parent.children.indexOf(node) : 0, after = (nodes) => nodes[parent.number].children[at + 1].number;
  // What each place for a node makes of the text, and which node is chosen then.
  const places = {
    "replace by": { title: "another node here", spell: (kind) => asKind(text, node, kind, draft, self), where: () => n },
    "wrap in": { title: "a node around this one", spell: (kind) => (FORMS[kind].children == "none" ? null : wrapped(text, node, kind, draft, self)), where: () => n },
    "add child": form?.children == "many" && { title: "one more child, behind the others", spell: (kind) => withChild(text, node, node.children.length, filled(kind, draft, self)), where: (nodes) => nodes[n].children.at(-1).number },
    "add before": parent && FORMS[parent.name]?.children == "many" && { title: "a node before this one", spell: (kind) => withChild(text, parent, at, filled(kind, draft, self)), where: () => n },
    "add after": parent && FORMS[parent.name]?.children == "many" && { title: "a node behind this one", spell: (kind) => withChild(text, parent, at + 1, filled(kind, draft, self)), where: after },
  };
  const palette = put(edits, "div", "", "kinds");
  palette.hidden = true;
  for (const [name, place] of Object.entries(places)) {
    if (!place) continue;
    const button = putButton(row, name, place.title, () => openKinds(palette, row, button, place, node));
    button.setAttribute("aria-expanded", "false");
    if (open == name) openKinds(palette, row, button, place, node);
  }
  const move = (way) => parent && parent.children[at + way] && swapped(text, node, way);
  putStep(row, "\u2191", "change places with the node before", move(-1), (nodes) => nodes[parent.number].children[at - 1].number);
  putStep(row, "\u2193", "change places with the node behind", move(1), after);
  putStep(row, "remove", "take this node and its children away", parent && withoutNode(text, node), () => parent.number);
  putButton(row, "its text", "go to this node in the level's text (Enter)", goToText);
}

// A node that wants children comes with one.
const filled = (kind, draft, self) => spelt(kind, draft, self, FORMS[kind].children == "none" ? [] : [spelt("wait", draft, self)]);

function putStep(row, text, title, level, where) {
  const button = putButton(row, text, title, () => editTree(level, where));
  button.setAttribute("aria-label", title);
  if (!level || !isFine(level)) {
    button.disabled = true;
    button.dataset.never = "1";
  }
}

// The kinds of nodes that may come to a place: what the module finds a fault in can't be pressed.
function openKinds(palette, row, button, { spell, where }, node) {
  const isOpen = parts.open == button.textContent && !palette.hidden;
  for (const it of row.querySelectorAll("[aria-expanded]")) it.setAttribute("aria-expanded", it == button && !isOpen);
  palette.hidden = isOpen;
  parts.open = isOpen ? null : button.textContent;
  palette.textContent = "";
  if (isOpen) return;
  for (const [group, said] of Object.entries(GROUPS)) {
    const kinds = Object.keys(FORMS).filter((kind) => FORMS[kind].group == group), made = kinds.map((kind) => (kind == node.name && button.textContent == "replace by" ? null : spell(kind)));
    if (made.every((it) => it === null)) continue;
    const line = put(palette, "div", "", "group");
    put(line, "span", said, "soft");
    kinds.forEach((kind, k) => {
      if (made[k] === null) return;
      const fault = world.fault(made[k], state.texts.script), it = putButton(line, kind, fault || nodeTexts[kind] || "", () => { parts.open = null; editTree(made[k], where); }, `kind ${group}`);
      it.dataset.kind = kind;
      if (!fault) return;
      it.disabled = true;
      it.dataset.never = "1";
    });
  }
}
