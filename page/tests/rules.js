// node rules.js BROWSER PAGE: looks for rules of the game in the page's JavaScript.
//
// What happens in the game, the page may have from the module alone. So it is told of one level while the module plays another: of the
// same size, with the same agents, places, doors and items, and trees of the same shape, but with other walls, other kinds of nodes and
// other words behind them. All that the page says of the game, and each of its pictures but for the ground, must then be as if it had
// been told of the level that is played. A tick, a way or an outcome that the page works out by itself follows the level that it was
// told of, and is seen. So that the looking is known to find such a thing, rules are planted (planted.js), and each must be found.
//
// It doesn't find a rule that needs neither walls nor trees, such as that no two agents stand on one cell.
const fs = require("fs");
const os = require("os");
const path = require("path");
const { pathToFileURL } = require("url");
const { startBrowser } = require("./browser.js");
const { readPage, Looks, randomFrom } = require("./core.js");
const { PLANTED } = require("./planted.js");
const [name, page] = process.argv.slice(2);
const { readDraft, nodesOf, LESSONS, levelOf, samples } = readPage(page);
const looks = new Looks(), FRAMES = 12;
const LAST = "// For tests, and for whoever looks in from the console.\n"; // in the page's last script

// Of a kind those that it changes places with: as many children and words, and no other use on the page.
const KIN = [["seq", "fallback", "seq*", "fallback*"], ["tries", "ticks"], ["take", "drop"], ["carrying", "item"]];

// HAS tells whether the module tells ways: then the places of moves stay, as the page asks for the way to a place.
function otherLevel(level, random, has) {
  const draft = readDraft(level), here = draft.map.join(""), pieces = [];
  const other = (all, it) => { const rest = all.filter((one) => one != it); return rest.length > 0 ? rest[random(rest.length)] : it; };
  const places = [...new Set([...here].filter((it) => /\d/.test(it)))], signals = [...new Set([...level.matchAll(/"signal",\s*"([a-z])"/g)].map((it) => it[1]))];
  const put = ({ from, to }, by) => pieces.push({ from, to, by: JSON.stringify(by) });
  draft.map.forEach((row, y) => put(draft.parts.map.items[y], [...row].map((char) => ("#.".includes(char) && random(4) == 0 ? (char == "#" ? "." : "#") : char)).join("")));
  for (const tree of draft.parts.trees.items) for (const node of nodesOf(tree.value)) {
    put(node.part.items[0], other(KIN.find((it) => it.includes(node.name)) ?? [node.name], node.name));
    if ((node.name == "move" && !has.way) || node.name == "at") put(node.words[0], other(places, node.words[0].value));
    if (node.name == "give") put(node.words[0], other(draft.agents.map((_, a) => String.fromCharCode(65 + a)), node.words[0].value));
    if (node.name == "signal") put(node.words[0], signals[(signals.indexOf(node.words[0].value) + 1) % signals.length]);
    if (["tries", "ticks", "wait", "near"].includes(node.name)) put(node.words[0], 2 + random(6));
    if (node.name == "par") put(node.words[0], other(node.children.map((_, k) => k + 1), +level.slice(node.words[0].from, node.words[0].to)));
  }
  return pieces.sort((one, two) => two.from - one.from).reduce((text, { from, to, by }) => text.slice(0, from) + by + text.slice(to), level);
}

// What the page says and draws: each element with its text, its classes and its state, each canvas with the strokes on it. Left out are the
// texts themselves, the help, the names of nodes, and what may be changed in the tree.
const heard = `(() => {
  const LEFT_OUT = "script, style, noscript, .code, #help, #undo, #whySaid, #edits, #node h3, #node .told, .node :is(.leaf, .inner, .sign), svg:not(.edges)";
  const found = [];
  (function list(it) {
    if (it.matches(LEFT_OUT)) return;
    const isNode = it.matches(".node"), label = it.getAttribute("aria-label") ?? "", own = [...it.childNodes].filter((one) => one.nodeType == 3).map((one) => one.data.trim()).join(" ");
    const said = [it.tagName, it.id, [...it.classList].sort(), own, isNode ? label.split(", ").slice(1) : label, isNode ? "" : it.title, it.hidden, it.disabled, it.tagName == "INPUT" ? it.value : ""];
    for (const name of ["pressed", "selected", "expanded", "hidden"]) said.push(it.getAttribute("aria-" + name));
    found.push(said.join("~") + (it.tagName == "CANVAS" ? "~" + drawn.get(it) : ""));
    if (!it.hidden) for (const child of it.children) list(child);
  })(document.body);
  const { film, stops, chosen, node } = btworld.state, frame = shownFrame();
  found.push("names in the text " + [...editors.level.tints.values()].join(""), "edges " + outline.nodes.map(({ edge }) => edge && edge.getAttribute("class")).join());
  if (frame > 0) for (let a = 0; a < film.agents; a++) found.push([a, film.isBlocked(frame, a), film.giftOf(frame, a), itemSaid(film, frame, a)].join());
  return found;
})()`;

// What is heard in each frame of a level, while each agent in turn and each node of its tree is chosen.
const listen = ({ level, script, goals }) => `(async () => {
  btworld.setPlaying(false);
  closeWelcome();
  btworld.state.isFolding = false; // else it goes by the room that the words of the chosen node leave
  btworld.load(BLANK); // frames of the same text would stay
  btworld.load({ name: "one", level: ${JSON.stringify(level)}, script: ${JSON.stringify(script)}, frames: ${FRAMES} });
  while (!btworld.state.film || btworld.state.film.count < ${FRAMES}) await new Promise((done) => requestAnimationFrame(done));
  const all = [], picture = () => new Promise((done) => requestAnimationFrame(() => setTimeout(done)));
  if (btworld.state.film.agents > 0) btworld.choose(0, true); // the panels get their room
  await picture();
  await picture();
  for (let frame = 0; frame <= ${FRAMES}; frame++) {
    const { film } = btworld.state, agent = film.agents > 0 ? frame % film.agents : -1;
    if (agent != btworld.state.chosen) btworld.choose(agent, true);
    drawn.clear();
    Object.assign(btworld.state, { wanted: frame, node: frame % 3 == 0 ? -1 : frame % outline.nodes.length });
    refresh();
    document.getElementById("note").textContent = "";
    all.push(${heard});
  }
  all.push(${JSON.stringify(goals)}.map((goal) => JSON.stringify(reached(goal, btworld.state.film, btworld.state.good))));
  return all;
})()`;

// What is heard, as far as it is of use to see a difference: its begin, and where it parts from another.
function partedFrom(line = "nothing", other = "nothing") {
  let at = 0;
  while (at < line.length && line[at] == other[at]) at++;
  return at < 90 ? line.slice(0, 160) : `${line.slice(0, 60)} .. ${line.slice(at - 30, at + 80)}`;
}

// In how many frames what is heard differs where the page is told of another level than is played, and the first difference.
async function differences(browser, { level, script, goals }, told) {
  const value = (expression) => browser.evaluate(expression);
  const really = await value(listen({ level, script, goals }));
  await value(`window.played = ${JSON.stringify(level)}; window.told = ${JSON.stringify(told)}; 0`);
  const other = await value(listen({ level: told, script, goals }));
  await value("window.told = null; 0");
  let count = 0, first = "";
  really.forEach((lines, frame) => {
    const at = lines.findIndex((line, k) => line != other[frame][k]);
    if (at < 0 && lines.length == other[frame].length) return;
    count++;
    first ||= `frame ${frame}: ${partedFrom(lines[at], other[frame][at])}\n    told of another level: ${partedFrom(other[frame][at], lines[at])}`;
  });
  return { count, first, frames: really.length };
}

// Notes each stroke on a canvas with its colours. The points themselves are of no use: a browser draws the same stroke now so, now so.
const noteStrokes = `
  window.drawn = new Map();
  const pens = CanvasRenderingContext2D.prototype;
  for (const name of Object.getOwnPropertyNames(pens)) {
    const { value } = Object.getOwnPropertyDescriptor(pens, name);
    if (typeof value != "function" || name == "constructor") continue;
    pens[name] = function (...words) {
      const said = words.map((it) => (it instanceof ImageData ? new Uint32Array(it.data.buffer).reduce((sum, one) => Math.imul(sum ^ one, 16777619) | 0, 1) : it)).join();
      drawn.set(this.canvas, (drawn.get(this.canvas) ?? "") + name + " " + said + (/^(fill|stroke)/.test(name) ? [" by", this.fillStyle, this.strokeStyle, this.globalAlpha, this.font].join(" ") : "") + "; ");
      return value.apply(this, words);
    };
  }`;

// A page whose module plays window.played where it is given window.told; the ground, which is drawn of the text, is left blank.
async function open(browser, file) {
  await browser.open(pathToFileURL(path.resolve(file)).href, 1000, 760);
  await browser.evaluate(`(() => {
    const { open, fault } = Btworld.prototype;
    window.told = null;
    Btworld.prototype.open = function (level, script) { return open.call(this, level === window.told ? window.played : level, script); };
    Btworld.prototype.fault = function (level, script) { return fault.call(this, level === window.told ? window.played : level, script); };
    drawGround = (pen, { place }) => { pen.fillStyle = "#fff"; pen.fillRect(0, 0, place.width, place.height); };
    ${noteStrokes}
  })()`);
}

async function main(browser) {
  const levels = [
    ...samples.map(({ name, level, script }) => ({ name, level, script, goals: [] })),
    ...LESSONS.map((it) => ({ name: it.name, level: levelOf(it, it.yours == "trees" ? it.solved : {}), script: it.script, goals: LESSONS.map(({ goal }) => goal) })),
  ];
  const random = randomFrom(11);
  await open(browser, page);
  const has = await browser.evaluate("({ way: world.calls.btworld_way !== undefined })");
  for (const level of levels) {
    const { count, first, frames } = await differences(browser, level, otherLevel(level.level, random, has));
    looks.all += frames - 1;
    console.log(`${level.name}: ${frames} frames`);
    looks.look(count == 0, `${level.name}: ${count} frames: the page knows of the game what the module did not tell: ${first}`);
  }
  const folder = fs.mkdtempSync(path.join(os.tmpdir(), "planted-")), text = fs.readFileSync(page, "utf8");
  for (const { what, old, by, and = "" } of PLANTED) {
    const file = path.join(folder, "play.html");
    looks.look(text.split(old).length == 2, `${what}: its place stands ${text.split(old).length - 1} times in the page`);
    fs.writeFileSync(file, text.replace(old, () => by).replace(LAST, () => LAST + and));
    await open(browser, file);
    let found = 0;
    for (const level of levels) {
      found = (await differences(browser, level, otherLevel(level.level, random, has))).count;
      console.log(`planted, ${what}: seen in ${found} frames of ${level.name}`);
      if (found > 0) break;
    }
    looks.look(found > 0, `${what} was planted and is not found`);
  }
  fs.rmSync(folder, { recursive: true });
}

startBrowser(name).then(async (browser) => {
  await main(browser).catch((error) => looks.look(false, error.stack));
  await browser.stop();
  looks.end("rules of the game in the page");
});
