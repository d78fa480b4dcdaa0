// A call that the module of the page lacks, or another one in its place: it writes the text that BODY returns as the module's calls write
// theirs, into the buffer whose place, room and size come last. Without BODY the module is as it was.
async function standIn(browser, name, body) {
  const call = JSON.stringify(name);
  const put = `calls[${call}] = (...given) => {
      const [at, room, size] = given.slice(-3), said = new TextEncoder().encode(((...given) => { ${body} })(...given));
      new DataView(calls.memory.buffer).setUint32(Number(size), said.length, true);
      if (Number(room) < said.length) return 5;
      world.bytes(at, said.length).set(said);
      return 0;
    };`;
  const putBack = `if (plain[${call}]) calls[${call}] = plain[${call}]; else delete calls[${call}]; delete plain[${call}];`;
  await browser.evaluate(`(() => {
    const { calls } = world, plain = (window.plain ??= {});
    if (!(${call} in plain)) plain[${call}] = calls[${call}];
    ${body === undefined ? putBack : put}
  })()`);
}

// Puts a call of the module's own back, or takes the one away that stands in for it.
const putBack = (browser, name) => standIn(browser, name);

// A call that writes to where its last argument points, by a body that has the module's calls, and game, signals, agent and more; or the one
// that is there, where the module has it.
async function standInTold(browser, name, body) {
  const call = JSON.stringify(name);
  await browser.evaluate(`(() => {
    const { calls } = world, plain = (window.plain ??= {});
    if (${call} in plain) return;
    plain[${call}] = calls[${call}];
    if (calls[${call}]) return;
    calls[${call}] = (game, signals, agent, ...more) => { ${body} };
  })()`);
}

// Ways, found by a search over the cells that the module tells; a door is open where its signal is on.
const standInWays = (browser) => standInTold(browser, "btworld_way", `
  const [place, out] = more, { map } = btworld.state.good, cellsOf = (mark) => map.flatMap((row, y) => [...row].flatMap((it, x) => (it == mark ? [[x, y]] : [])));
  const [[startX, startY]] = cellsOf(String.fromCharCode(65 + agent)), at = world.agent(game, agent) ?? { x: startX, y: startY };
  const isOpen = (x, y) => { const it = map[y]?.[x]; return it !== undefined && it != "#" && !(it >= "a" && it <= "z" && !(signals >> (it.charCodeAt(0) - 97) & 1)); };
  const [target] = cellsOf(String(place)), SIDES = [[0, -1], [1, 0], [0, 1], [-1, 0]], steps = new Map([[String(target), 0]]);
  if (!target) return 10;
  for (let edge = [target]; edge.length > 0;) {
    const next = [];
    for (const [x, y] of edge) for (const [dx, dy] of SIDES) {
      const cell = [x + dx, y + dy];
      if (!isOpen(...cell) || steps.has(String(cell))) continue;
      steps.set(String(cell), steps.get(String([x, y])) + 1);
      next.push(cell);
    }
    edge = next;
  }
  const ways = SIDES.map(([dx, dy]) => steps.get(String([at.x + dx, at.y + dy]))), nearest = Math.min(...ways.filter((it) => it !== undefined));
  const isHere = String([at.x, at.y]) == String(target), direction = isHere ? 4 : nearest < Infinity ? ways.indexOf(nearest) : 5;
  new DataView(calls.memory.buffer).setUint32(Number(out), direction < 4 ? nearest + 1 : 0, true);
  new DataView(calls.memory.buffer).setUint32(Number(out) + 4, direction, true);
  return 0;`);

// Intents, read off what the nodes answer and what a step of a fork changes: the first node that acts and is Running wants, and is granted it
// where the agent's cell or load changes. It errs where an agent loses an item and gets another in one frame.
const standInIntents = (browser) => standInTold(browser, "btworld_intent", `
  const [out] = more, { good } = btworld.state, answers = world.nodes(game, signals, agent), WANTS = ["stay", "move", "take", "drop", "give"];
  const node = treeOf(good, good.agents[agent]).find((it) => WANTS.includes(it.name) && answers[it.number] == 2), deed = node ? WANTS.indexOf(node.name) : 0;
  const was = world.agent(game, agent) ?? { x: btworld.state.film.x[agent], y: btworld.state.film.y[agent], loaded: 0 }, next = world.fork(game);
  world.stepWith(next, signals);
  const is = world.agent(next, agent), isGranted = deed == 1 ? is.x != was.x || is.y != was.y : deed > 1 && is.loaded != was.loaded;
  world.close(next);
  const at = new DataView(calls.memory.buffer, Number(out), 16);
  [node ? node.number : -1, was.x, was.y].forEach((it, k) => at.setInt32(4 * k, it, true));
  [deed, 4, deed == 4 ? wordsOf(good.text, node)[0].charCodeAt(0) - 65 : 255, +isGranted].forEach((it, k) => at.setUint8(12 + k, it));
  return 0;`);

module.exports = { standIn, standInTold, standInWays, standInIntents, putBack };
