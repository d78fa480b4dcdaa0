// The trees in a level's text: which forms a node may have, where the nodes stand in the text, and changes of a tree, which are
// changes of the text. What nodes do, and whether a tree is one, only the module says.

// What may stand behind a node's name, and how many children it has. A sign stands for it where the tree is drawn.
const FORMS = {
  "seq": { group: "order", sign: "\u2192", words: [], children: "many" },
  "fallback": { group: "order", sign: "?", words: [], children: "many" },
  "par": { group: "order", sign: "\u21c9", words: ["threshold"], children: "many" },
  "seq*": { group: "order", sign: "\u2192*", words: [], children: "many" },
  "fallback*": { group: "order", sign: "?*", words: [], children: "many" },
  "not": { group: "around", sign: "\u00ac", words: [], children: "one" },
  "tries": { group: "around", sign: "\u25c7", words: ["count"], children: "one" },
  "ticks": { group: "around", sign: "\u25c7", words: ["count"], children: "one" },
  "wait": { group: "act", words: ["count"], children: "none" },
  "move": { group: "act", words: ["place"], children: "none" },
  "take": { group: "act", words: [], children: "none" },
  "drop": { group: "act", words: [], children: "none" },
  "give": { group: "act", words: ["agent"], children: "none" },
  "at": { group: "ask", words: ["place"], children: "none" },
  "carrying": { group: "ask", words: [], children: "none" },
  "item": { group: "ask", words: [], children: "none" },
  "signal": { group: "ask", words: ["signal"], children: "none" },
  "near": { group: "ask", words: ["count"], children: "none" },
};
const GROUPS = { order: "children in order", around: "around one child", act: "do", ask: "ask" };

// The nodes of a tree in preorder, each with its place in the text; a part that is no node is left out, so a tree may be half written.
function nodesOf(part) {
  const found = [];
  const look = (part, parent, depth) => {
    if (part.kind != "array" || part.items.length == 0 || part.items[0].kind != "string") return;
    const [kind, ...rest] = part.items, isChild = (it) => it.kind == "array";
    const node = { number: found.length, name: kind.value, from: part.from, to: part.to, part, parent, depth, words: rest.filter((it) => !isChild(it)), children: [] };
    found.push(node);
    if (parent) parent.children.push(node);
    for (const it of rest.filter(isChild)) look(it, node, depth + 1);
    node.end = found.length; // the number behind its last descendant
  };
  look(part, null, 0);
  return found;
}

// The nodes of a tree of a draft, or none.
function treeOf(draft, name) {
  const found = draft && draft.parts.trees.items.filter((it) => it.key.value == name).pop();
  return found ? nodesOf(found.value) : [];
}
const wordsOf = (text, node) => node.words.map((it) => (it.kind == "string" ? it.value : text.slice(it.from, it.to)));
const labelOf = (text, node) => [node.name, ...wordsOf(text, node)].join(" ");

// The tree and the node of it around a place of the text, or null.
function nodeAt(draft, at) {
  const tree = draft.parts.trees.items.find((it) => it.value.from <= at && at <= it.value.to);
  if (!tree) return null;
  const node = nodesOf(tree.value).filter((it) => it.from <= at && at <= it.to).pop();
  return node ? { name: tree.key.value, number: node.number } : null;
}

// ---- what a node may be

// A node of a form as text, with words that fit the map: the first place, the first agent but SELF, the first signal.
function spelt(kind, draft, self, children = []) {
  const here = draft.map.join(""), first = (test, other) => [...here].filter(test).sort()[0] ?? other;
  const words = {
    threshold: 1, count: kind == "near" ? 2 : 3, place: first(isPlace, "0"),
    agent: first((char) => isAgent(char) && char != self, self), signal: first(isDoor, "a"),
  };
  return `[${[JSON.stringify(kind), ...FORMS[kind].words.map((word) => JSON.stringify(words[word])), ...children].join(", ")}]`;
}

// ---- changes

// A child in front of the AT-th of a node's children, or behind all: parted from its brother as that is parted from what stands before it.
function withChild(text, node, at, by) {
  const { children, part } = node;
  if (children.length == 0) return replaced(text, [{ from: part.to - 1, to: part.to - 1, by: `, ${by}` }]);
  const beside = children[Math.min(at, children.length - 1)].part, between = text.slice(part.items[part.items.indexOf(beside) - 1].to, beside.from);
  const place = at < children.length ? beside.from : beside.to;
  return replaced(text, [{ from: place, to: place, by: at < children.length ? by + between : between + by }]);
}

// Without a node, its comma, and a line that would be empty.
function withoutNode(text, node) {
  const { items } = node.parent.part, at = items.indexOf(node.part);
  return replaced(text, [{ from: items[at - 1].to, to: node.to, by: "" }]);
}

const withNode = (text, node, by) => replaced(text, [{ from: node.from, to: node.to, by }]);
const withWord = (text, node, at, by) => replaced(text, [{ from: node.words[at].from, to: node.words[at].to, by: JSON.stringify(by) }]);

// The node around this one: a child is as it was written.
const wrapped = (text, node, kind, draft, self) => withNode(text, node, spelt(kind, draft, self, [text.slice(node.from, node.to)]));

// A node of another kind with the same children, as far as the form has room for them.
function asKind(text, node, kind, draft, self) {
  const form = FORMS[kind], was = FORMS[node.name];
  const spell = (it) => text.slice(it.from, it.to);
  if (form.children == "none") return withNode(text, node, spelt(kind, draft, self));
  // Of the same room for children: only the name and the words change, and the text around them stays.
  if (was && was.children == form.children && node.children.length > 0) {
    const head = spelt(kind, draft, self).slice(0, -1), gap = text.slice(node.part.items[node.words.length].to, node.children[0].from);
    return replaced(text, [{ from: node.from, to: node.children[0].from, by: head + gap }]);
  }
  const children = form.children == "one" ? node.children.slice(0, 1) : node.children;
  return withNode(text, node, spelt(kind, draft, self, children.length > 0 ? children.map(spell) : [spell(node)]));
}

// Changes places with the child before it (-1) or behind it (1).
function swapped(text, node, way) {
  const { children } = node.parent, other = children[children.indexOf(node) + way];
  if (!other) return text;
  const spell = (it) => text.slice(it.from, it.to);
  return replaced(text, [{ from: node.from, to: node.to, by: spell(other) }, { from: other.from, to: other.to, by: spell(node) }]);
}
