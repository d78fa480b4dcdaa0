// A level's text: where its parts stand in it, and the changes that painting makes to it. A change leaves the rest of the text as it
// was written. Whether a text is a level, only the module says.

// What can be drawn and painted of a text, or null: rows of one length, the agents' tree names and the trees.
function readDraft(text) {
  try {
    const said = JSON.parse(text), whole = partsOf(text);
    const part = (name) => whole.items.filter((it) => it.key.value == name).pop().value;
    const parts = { map: part("map"), agents: part("agents"), trees: part("trees") };
    const { map, agents, trees } = said;
    const width = map[0].length;
    if (!map.every((row) => typeof row == "string" && row.length == width) || width == 0) return null;
    if (!agents.every((name) => typeof name == "string") || parts.trees.kind != "object") return null;
    return { text, parts, map, agents, trees, width, height: map.length, ground: groundOf(map) };
  } catch (_) {
    return null;
  }
}

// The letters of the doors on a map and of the signals that its trees ask for, a first.
function signalsOf(draft) {
  const found = new Set([...draft.map.join("")].filter(isDoor));
  const look = (node) => {
    if (!Array.isArray(node)) return;
    if (node[0] == "signal" && typeof node[1] == "string") found.add(node[1]);
    node.forEach(look);
  };
  Object.values(draft.trees).forEach(look);
  return [...found].filter((letter) => /^[a-z]$/.test(letter)).sort();
}

// The text with another map and other agents. Rows that stay are left as they were written.
function withMap(draft, map, agents) {
  const { text, parts } = draft, pieces = [];
  if (map.length == draft.height) {
    map.forEach((row, y) => {
      const { from, to } = parts.map.items[y];
      if (row != draft.map[y]) pieces.push({ from, to, by: JSON.stringify(row) });
    });
  } else {
    pieces.push({ ...parts.map, by: "[\n" + map.map((row) => `    ${JSON.stringify(row)}`).join(",\n") + "\n  ]" });
  }
  if (agents.join("\n") != draft.agents.join("\n") || agents.length != draft.agents.length)
    pieces.push({ ...parts.agents, by: "[" + agents.map((name) => JSON.stringify(name)).join(", ") + "]" });
  return replaced(text, pieces);
}

// The text with one more tree behind the others; it is spelt TREE.
function withTree(text, name, tree) {
  const { items, from, to } = readDraft(text).parts.trees;
  const spelt = `${JSON.stringify(name)}: ${tree}`;
  if (items.length == 0) return replaced(text, [{ from, to, by: `{${spelt}}` }]);
  const last = items[items.length - 1].value.to, before = items[items.length - 1].key.from;
  const gap = /[ \t]*$/.exec(text.slice(0, before))[0], ownLine = text[before - gap.length - 1] == "\n";
  return replaced(text, [{ from: last, to: last, by: ownLine ? `,\n${gap}${spelt}` : `, ${spelt}` }]);
}

// The text in which an agent follows another tree.
function withTreeOf(draft, agent, name) {
  const { from, to } = draft.parts.agents.items[agent];
  return replaced(draft.text, [{ from, to, by: JSON.stringify(name) }]);
}

// The text in which a tree has another name, also where agents name it.
function renamedTree(draft, name, by) {
  const { trees, agents } = draft.parts, named = [...trees.items.map((it) => it.key), ...agents.items].filter((it) => it.value == name);
  return replaced(draft.text, named.map(({ from, to }) => ({ from, to, by: JSON.stringify(by) })));
}

// A name that no tree has: this one, or with a number behind it.
function freeName(draft, name) {
  const stem = name.replace(/ \d+$/, "");
  let free = name;
  for (let k = 2; Object.hasOwn(draft.trees, free); k++) free = `${stem} ${k}`;
  return free;
}

// What a new agent does, as it is spelt: it walks between the first two places of the map, or to the only one, or waits.
const NEW_TREE = "walker";
function newTree(map) {
  const places = [...new Set([...map.join("")].filter(isPlace))].sort(), move = (place) => `["move", "${place}"]`;
  if (places.length == 0) return `["wait", 1]`;
  return places.length == 1 ? move(places[0]) : `["seq*", ${move(places[0])}, ${move(places[1])}]`;
}

const setCell = (map, x, y, char) => map.map((row, at) => (at == y ? row.slice(0, x) + char + row.slice(x + 1) : row));
const without = (map, char) => map.map((row) => row.split(char).join("."));

// The text without an agent: letters above it move down by one, on the map and where a tree gives to them.
function withoutAgent(draft, letter) {
  const down = (char) => (isAgent(char) && char > letter ? String.fromCharCode(char.charCodeAt(0) - 1) : char);
  const map = without(draft.map, letter).map((row) => [...row].map(down).join(""));
  const agents = draft.agents.filter((_, at) => letterOf(at) != letter);
  const { from, to } = draft.parts.trees;
  const trees = draft.text.slice(from, to).replace(/("give"\s*,\s*")([A-Z])"/g, (_, before, char) => `${before}${down(char)}"`);
  const changed = replaced(draft.text, [{ from, to, by: trees }]);
  return withMap(readDraft(changed), map, agents);
}

// The text after a tool was drawn over cells, each { x, y }: a character of the map, or "erase". An agent and a place stand once: they
// come to the last cell, an agent that isn't there yet with a tree. No tool but erase takes an agent away.
function painted(draft, cells, tool) {
  if (tool == "erase") return erased(draft, cells);
  const free = cells.filter(({ x, y }) => !isAgent(draft.map[y][x]));
  if (isAgent(tool) || isPlace(tool)) return free.length > 0 ? movedTo(draft, free[free.length - 1], tool) : draft.text;
  return withMap(draft, free.reduce((map, { x, y }) => setCell(map, x, y, tool), draft.map), draft.agents);
}

function erased(draft, cells) {
  // From the highest letter down: the others still bear theirs.
  const agents = cells.map(({ x, y }) => draft.map[y][x]).filter(isAgent).sort().reverse();
  for (const letter of new Set(agents)) draft = readDraft(withoutAgent(draft, letter));
  return withMap(draft, cells.reduce((map, { x, y }) => setCell(map, x, y, "."), draft.map), draft.agents);
}

function movedTo(draft, { x, y }, char) {
  const map = setCell(without(draft.map, char), x, y, char);
  if (!isAgent(char) || draft.map.join("").includes(char)) return withMap(draft, map, draft.agents);
  const text = withMap(draft, map, [...draft.agents, NEW_TREE]);
  return NEW_TREE in draft.trees ? text : withTree(text, NEW_TREE, newTree(draft.map));
}

// The text with the map made wider, narrower, higher or lower at its right and lower edges.
function resized(draft, width, height) {
  for (;;) {
    const cut = [...draft.map.join("\n")].find((char, at) => isAgent(char) && (at % (draft.width + 1) >= width || at / (draft.width + 1) >= height));
    if (!cut) break;
    draft = readDraft(withoutAgent(draft, cut));
  }
  const rows = draft.map.slice(0, height).map((row) => row.slice(0, width).padEnd(width, "."));
  while (rows.length < height) rows.push(".".repeat(width));
  return withMap(draft, rows, draft.agents);
}
