// The menu of the chosen agent's tree: which one it follows, what it is called, another one for it.

function showTreeMenu() {
  const menu = $("treeMenu"), { draft, good, chosen, fault } = state, isOn = chosen >= 0 && draft !== null && !fault && chosen < good.agents.length;
  menu.hidden = chosen < 0;
  for (const it of menu.querySelectorAll("select, input, button")) it.disabled = !isOn;
  if (!isOn) return;
  const names = Object.keys(draft.trees), name = draft.agents[chosen], others = draft.agents.filter((it) => it == name).length - 1;
  const key = JSON.stringify([names, name, chosen, others]);
  if (showTreeMenu.key == key) return;
  showTreeMenu.key = key;
  $("treeOf").textContent = "";
  for (const it of names) $("treeOf").append(new Option(it, it, false, it == name));
  $("treeWhose").textContent = `${letterOf(chosen)} follows`;
  $("treeName").value = name;
  $("treeShared").textContent = others > 0 ? `${others} other agent${others > 1 ? "s follow" : " follows"} it too: a change is for all` : "";
  $("ownTree").textContent = `A copy for ${letterOf(chosen)} alone`;
  $("newTree").textContent = `A new tree for ${letterOf(chosen)}`;
}

// A text in which the module finds no fault takes the place of the one that stands; else its fault is said.
function changeTrees(level) {
  const fault = world.fault(level, state.texts.script);
  if (fault) return void note(fault);
  state.node = -1;
  change({ level }, `trees ${steps.past.length}`);
}

const treeName = () => state.draft.agents[state.chosen];
const followTree = (name) => changeTrees(withTreeOf(state.draft, state.chosen, name));

function renameTree(by) {
  const { draft } = state, name = by.trim();
  if (name && name != treeName()) {
    if (Object.hasOwn(draft.trees, name)) note(`there is a tree ${name} already`);
    else changeTrees(renamedTree(draft, treeName(), name));
  }
  showTreeMenu.key = ""; // a name that was refused goes
  showTreeMenu();
}

// One more tree, which the chosen agent follows from now on.
function addTree(stem, spelt) {
  const { draft, chosen } = state, name = freeName(draft, stem);
  changeTrees(withTreeOf(readDraft(withTree(draft.text, name, spelt)), chosen, name));
}
const addNewTree = () => addTree("tree", newTree(state.draft.map));
function copyTree() {
  const { text, parts } = state.draft, name = treeName(), { from, to } = parts.trees.items.filter((it) => it.key.value == name).pop().value;
  addTree(name, text.slice(from, to));
}
