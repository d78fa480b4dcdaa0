// node try_live.js BROWSER PLAY TOP WAREHOUSE COURIER [SHOTS]: opens pages of `btview page` that are live in a headless browser, and uses the tree as hands do. PLAY is play.html; WAREHOUSE and COURIER show 70 frames of these levels of TOP. What the tree says of each agent in each frame has to be what play.html says.
const fs = require("fs");
const os = require("os");
const path = require("path");
const { pathToFileURL } = require("url");
const { startBrowser } = require("./browser.js");
const { pale } = require("./looks.js");
const [name, play, top, warehouse, courier, shots] = process.argv.slice(2);
const SHIFT = 8, FRAMES = 70, TURN = "(a, f) => { if (chosen != a) choose(a); show(f); }";
const addressOf = (file) => pathToFileURL(path.resolve(file)).href;
// The tree stands, or a line says why it doesn't.
const ready = "window.btview && (btview.live && (btview.live.state.film?.count === N) || document.getElementById('liveSaid')?.textContent) ? 1 : 0";

let wrong = 0;
function look(fact, what) {
  console.log(`${fact ? "ok" : "WRONG"}: ${what}`);
  wrong += !fact;
}
const same = (is, wanted, what) => look(JSON.stringify(is) === JSON.stringify(wanted), `${what}${JSON.stringify(is) === JSON.stringify(wanted) ? "" : `: ${JSON.stringify(is)}, not ${JSON.stringify(wanted)}`}`);

// What the tree says of each agent in each frame: of each node its name, answer, way and number, and what stands in the head; forwards, then
// backwards. TURN chooses an agent and shows a frame.
const told = (agents, turn) => `(() => {
  const said = () => [[...document.querySelectorAll("#whyTree .node")].map((it) => it.getAttribute("aria-label")), ["whyName", "happened"].map((id) => document.getElementById(id).textContent)].flat(2).join("; ");
  const all = [], frames = Array.from({ length: ${FRAMES} }, (_, k) => k + 1);
  for (let a = 0; a < ${agents}; a++) for (const f of [...frames, ...frames.reverse()]) {
    (${turn})(a, f);
    all.push(said());
  }
  return all;
})()`;

async function main(browser) {
  const value = (expression) => browser.evaluate(expression), text = (id) => value(`document.getElementById("${id}").textContent`);
  const shot = async (name) => { if (shots) await browser.shot(path.join(shots, `${name}.png`)); };
  const middle = (selector) => value(`(() => { const box = document.querySelector(${JSON.stringify(selector)}).getBoundingClientRect(); return [box.left + box.width / 2, box.top + box.height / 2]; })()`);
  const click = async (selector) => {
    await value("Promise.all(document.getAnimations().map((it) => it.finished)).then(() => 0, () => 0)"); // boxes slide to their places
    await value(`document.querySelector(${JSON.stringify(selector)}).scrollIntoView({ block: "nearest" })`);
    await browser.click(...await middle(selector));
  };
  const isShown = (id) => value(`document.getElementById("${id}").getBoundingClientRect().height > 0`);
  const node = (n) => `.node[data-node="${n}"]`;

  const wanted = {};
  await browser.open(addressOf(play), 1280, 800);
  for (const [level, agents] of [["warehouse", 4], ["courier", 3]]) {
    const script = path.join(top, "levels", `${level}.script`);
    await value(`btworld.setPlaying(false); btworld.load(${JSON.stringify({ name: level, level: fs.readFileSync(path.join(top, "levels", `${level}.json`), "utf8"), script: fs.existsSync(script) ? fs.readFileSync(script, "utf8") : "", frames: FRAMES })})`);
    await browser.until(`btworld.state.film.count == ${FRAMES}`);
    wanted[level] = await value(told(agents, "(a, f) => { if (btworld.state.chosen != a) btworld.choose(a, true); btworld.show(f); }"));
  }
  for (const [level, file, agents] of [["courier", courier, 3], ["warehouse", warehouse, 4]]) {
    await browser.open(addressOf(file), 1280, 800, { ready });
    same(await value("document.getElementById('liveSaid').hidden"), true, `${level}: the frames are those that the core plays`);
    const is = await value(told(agents, TURN)), bad = is.findIndex((it, k) => it != wanted[level][k]);
    look(bad < 0 && is.length == 2 * FRAMES * agents && new Set(is).size > FRAMES, `${level}: ${agents} trees in ${FRAMES} frames, forwards and backwards, are those of play.html${bad < 0 ? "" : `; not ${bad}: ${is[bad]}; but ${wanted[level][bad]}`}`);
  }

  // The warehouse stands there now.
  await browser.open(addressOf(warehouse), 1280, 800, { ready });
  same([await isShown("treePanel"), await isShown("detail")], [false, true], "no agent is chosen, and no tree is drawn");
  await browser.key("A", SHIFT);
  same([await value("chosen"), await isShown("treePanel"), await isShown("detail"), await value("document.querySelectorAll('#whyTree .node').length")], [0, true, false, 35], "Shift+A draws A's tree in the place of the list");
  await value("show(25)");
  const drawn = await value("btview.live.outline.nodes.filter((it) => !it.box.hidden).map(({ n, x, y, wide, parent }) => ({ n, x, y, wide, parent }))");
  look(drawn.every((it) => it.parent === null || drawn.find((other) => other.n == it.parent).x + drawn.find((other) => other.n == it.parent).wide < it.x), "children stand right of their parent");
  look(drawn.every((it, k) => drawn.every((other, l) => l <= k || it.y != other.y || it.x + it.wide < other.x || other.x + other.wide < it.x)), "no box lies on another");
  same(await value("btview.live.outline.nodes.every(({ box, said }) => box.classList.contains(said.textContent == '\\u00b7' ? 'silent' : said.textContent))"), true, "each box has the colour of its answer");
  const cell = (a) => value(`(() => { const box = document.getElementById('map').getBoundingClientRect(), { left, top, cell } = scene.place; return [box.left + left + (film.x[25 * A + ${a}] + .5) * cell, box.top + top + (film.y[25 * A + ${a}] + .5) * cell]; })()`);
  await browser.until("scene.place.width == document.getElementById('mapBox').clientWidth");
  await browser.click(...await cell(1));
  await browser.until("chosen == 1");
  same([await value("chosen"), await value("document.querySelector('#whyName span')?.textContent")], [1, "guard"], "a click on B on the map shows its tree");
  await click("#agents tr:nth-child(1) .letter");
  await click(node(0));
  same([await value("btview.live.state.node"), await value("document.querySelector('#happened li')?.textContent"), await value("document.querySelector('#node .spelt').textContent.startsWith('[\"seq*\", [\"fallback\"')")], [0, "A puts its item down, at 11,1", true], "a click chooses a node, and its text is told");
  await browser.key("Escape");
  same([await value("btview.live.state.node"), await value("chosen")], [-1, 0], "Esc chooses no node");
  await browser.key("Escape");
  same([await value("chosen"), await isShown("treePanel"), await isShown("detail")], [-1, false, true], "and once more no agent");

  // The frames in which a node answers otherwise than in the frame before, as play.html told them.
  const at = wanted.warehouse.slice(0, FRAMES).map((it) => it.split("; ")[1].split(", ")[1]);
  const turns = at.map((it, k) => (it != (k > 0 ? at[k - 1] : "not ticked") ? k + 1 : 0)).filter((it) => it > 1);
  await value("choose(0); btview.live.chooseNode(1); show(1)");
  const found = [];
  for (let k = 0; k < turns.length; k++) {
    const was = await value("shown");
    await browser.key(">");
    await browser.until(`shown != ${was}`);
    found.push(await value("shown"));
  }
  same(found, turns, `> goes to each frame in which the node turns: ${turns.join()}`);
  await browser.key(">");
  look(await browser.until("document.getElementById('note').textContent.startsWith('no later frame')"), "and says where there is none");
  await browser.key("<");
  look(await browser.until(`shown == ${turns[turns.length - 2]}`), "< goes back");
  same(await text("note"), "", "and nothing is said any more");
  await browser.key("Escape");
  await browser.key("<");
  same(await text("note"), "choose a node of the tree first", "no node is chosen");

  // Keys of the tree, and those of the page beside it.
  await value("choose(-1); choose(0); show(1); btview.live.outline.nodes[0].box.focus()");
  await browser.key("ArrowDown");
  await browser.key("ArrowDown");
  await browser.key("ArrowUp");
  same([await value("document.activeElement.dataset.node"), await value("shown")], ["1", 1], "Up and Down go through the boxes");
  await browser.key("Enter");
  same(await value("btview.live.state.node"), 1, "Enter chooses");
  await browser.key("-");
  same(await value("[btview.live.outline.nodes[2].box.hidden, document.activeElement.getAttribute('aria-expanded')]"), [true, "false"], "- folds");
  await browser.key("+");
  same(await value("btview.live.outline.nodes[2].box.hidden"), false, "+ unfolds");
  await browser.key("ArrowRight");
  await browser.key("Escape");
  await value("document.activeElement.blur()");
  await browser.key("ArrowDown");
  same(await value("shown"), 6, "Right, and Down: A's next change");
  await click("#treeIn");
  const larger = await value("btview.live.outline.scale");
  await click("#treeFit");
  look(larger > await value("btview.live.outline.scale"), "+ draws it larger, fit as before");
  await click("#fold");
  const folded = await value("[btview.live.state.isFolding, document.getElementById('fold').getAttribute('aria-pressed')]");
  same(folded, [folded[0], String(folded[0])], "fold quiet is pressed or not");
  await browser.key(" ");
  look(await browser.until("shown > 8"), "space plays, also after a click on a button");
  await browser.key(" ");
  same([await value("playing"), await value("document.querySelector('#whyTree .said').textContent == 'SFR'[film.answer[shown * A]]")], [false, true], "and the tree is of the frame that is shown");
  await browser.key("?");
  same(await value("[document.querySelectorAll('#help .nodes tr').length > 10, document.getElementById('helpText').textContent.includes('the answer of the chosen node changes')]"), [true, true], "the help has the nodes and the keys");
  await browser.key(">");
  await browser.key("?");
  same(await browser.told(), [], "no message on the console");

  for (const isDark of [false, true]) for (const [width, height] of [[360, 640], [390, 844], [700, 900], [901, 700], [1024, 768], [1280, 800], [1920, 1080]]) {
    await browser.open(addressOf(warehouse), width, height, { ready, isDark, scale: width < 900 ? 2 : 1, isTouch: width < 900 });
    await value("show(25); choose(0); btview.live.chooseNode(16)");
    const beyond = await value("[...document.querySelectorAll('button, input, select, canvas, .panel, th, td, #treePanel, #node, #whyTree')].filter((it) => !it.closest('#whyTree *')).filter((it) => { const box = it.getBoundingClientRect(); return box.width > 0 && (box.right > innerWidth + 1 || box.left < -1); }).map((it) => it.id || it.outerHTML.slice(0, 60))");
    const room = await value("document.getElementById('whyTree').offsetHeight");
    same([beyond, await value("document.documentElement.scrollWidth <= innerWidth"), room > 70], [[], true, true], `${width} by ${height}${isDark ? ", dark" : ""}: nothing sticks out, and the tree has ${room} pixels`);
    await value("setHelp(true)");
    same(await value(pale), {}, "letters stand out from their ground");
    await value("setHelp(false)");
    if ([360, 1024, 1280, 1920].includes(width)) await shot(`live_${width}${isDark ? "_dark" : ""}`);
  }
  same(await browser.told(), [], "no message on the console");

  // Told of a level with other kinds of nodes than the module plays, the page shows the answers of the level that is played: it knows none.
  const room = fs.mkdtempSync(path.join(os.tmpdir(), "live-")), page = fs.readFileSync(courier, "utf8"), lie = path.join(room, "lie.html"), other = path.join(room, "other.html"), broken = path.join(room, "broken.html");
  const KIN = { seq: "fallback", fallback: "seq", "seq*": "fallback*", "fallback*": "seq*", take: "drop", drop: "take", carrying: "item", item: "carrying" };
  const level = /id="level">([^]*?)<\/script>/.exec(page)[1], answers = (it) => it.split("; ").map((label) => label.split(", ").slice(1).join());
  fs.writeFileSync(lie, page.replace(level, () => level.replace(/"[a-z]+[*]?"/g, (kind) => (KIN[kind.slice(1, -1)] ? `"${KIN[kind.slice(1, -1)]}"` : kind))).replace("new Film(world, text,", () => `new Film(world, ${JSON.stringify(level)},`));
  await browser.open(addressOf(lie), 1280, 800, { ready });
  const lied = await value(told(3, TURN));
  look(lied.length == wanted.courier.length && lied.every((it, k) => answers(it).join() == answers(wanted.courier[k]).join()) && lied[0] != wanted.courier[0], "told of other kinds of nodes, it shows the answers of those that are played");

  // A page whose level isn't that of its frames says so; one whose module is broken has the list of nodes.
  fs.writeFileSync(other, page.replace('["move", "0"]', '["move", "2"]'));
  await browser.open(addressOf(other), 1280, 800, { ready });
  look(/^frame \d+ of this page is not what the core plays/.test(await text("liveSaid")) && await isShown("liveSaid"), `a page of another level says so: ${await text("liveSaid")}`);
  fs.writeFileSync(broken, page.replace(/id="module">[^<]{100}/, 'id="module">'));
  await browser.open(addressOf(broken), 1280, 800, { ready });
  await value("choose(0)");
  same([await value("document.getElementById('liveSaid').textContent.startsWith('no answers of nodes')"), await isShown("treePanel"), await value("document.querySelectorAll('#detail .leaf').length > 5")], [true, false, true], "a broken module leaves the list of nodes");
  fs.rmSync(room, { recursive: true });
}

startBrowser(name).then(async (browser) => {
  await main(browser).catch((error) => {
    console.log(`WRONG: ${error.stack}`, browser.messages);
    wrong++;
  });
  await browser.stop();
  console.log(wrong ? `${wrong} wrong` : "all well");
  process.exit(wrong ? 1 : 0);
});
