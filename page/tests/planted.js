// Rules of the game that rules.js plants into a page, each in the place of a text that stands in it once; AND comes behind the page's scripts. Each is
// right: of the level that is played it shows nothing but the truth.

// The way of a `move`, as docs/BEHAVIOUR.md defines it: how many steps there are from an agent's cell to the place, or -1.
const STEPS = `
function stepsTo(film, frame, agent, place) {
  const { map, ground } = state.good, at = (frame - 1) * film.agents + agent, isOpen = (x, y) => ground[y]?.[x] !== undefined && ground[y][x] != "#" && !(isDoor(ground[y][x]) && !film.signals.isOn(frame, ground[y][x]));
  if (frame < 2) return -1;
  let edge = [[film.x[at], film.y[at]]];
  const seen = new Set(edge.map(String));
  for (let steps = 0; edge.length > 0; steps++) {
    if (edge.some(([x, y]) => map[y][x] == place)) return steps;
    edge = edge.flatMap(([x, y]) => [[x, y - 1], [x + 1, y], [x, y + 1], [x - 1, y]]).filter(([x, y]) => isOpen(x, y) && !seen.has(String([x, y])) && seen.add(String([x, y])));
  }
  return -1;
}
`;

const PLANTED = [
  {
    what: "a tick: what a seq and a fallback answer, of their children's answers",
    old: "return (told[frame] ??= this.world.nodes(this.at(frame - 1), this.signals.of(frame), agent));",
    by: `if (told[frame]) return told[frame];
    const answers = (told[frame] = this.world.nodes(this.at(frame - 1), this.signals.of(frame), agent)), draft = readDraft(this.level);
    for (const { name, number, children } of treeOf(draft, draft.agents[agent]).reverse()) {
      const passes = { seq: 0, fallback: 1 }[name];
      if (passes !== undefined && answers[number] != NOT_TICKED) answers[number] = children.map((it) => answers[it.number]).find((it) => it != passes) ?? passes;
    }
    return answers;`,
  },
  {
    what: "a way: how many steps it is to the place of a move",
    old: `  node.way.textContent = [way ?? "", isBlocked ? "in vain" : ""].filter((it) => it).join(", ");`,
    by: `  const steps = node.isMove && answer == RUNNING ? stepsTo(state.film, shownFrame(), state.chosen, node.name.slice(-1)) : -1;
  node.way.textContent = (way ?? "") + (steps > 0 ? " of " + steps : "");`,
    and: STEPS,
  },
  {
    what: "an intent and what comes of it: who takes an item has it in the next frame, who drops it has none",
    old: `  if (word) put(box, "small", word, \`answer \${word[0]}\`);`,
    by: `  if (word) put(box, "small", word, \`answer \${word[0]}\`);
  const intent = word ? treeOf(good, good.agents[chosen]).find((it) => ["move", "take", "drop", "give"].includes(it.name) && told.answers[it.number] == RUNNING) : undefined;
  if (intent && intent.name != "move") put(box, "small", intent.name == "take" ? "will carry" : "will not carry");`,
  },
];

module.exports = { PLANTED };
