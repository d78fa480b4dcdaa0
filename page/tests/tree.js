// For try_play.js: the tree that is drawn, a node that is chosen, searches, stops, and changes by the palette, by clicks and keys.
const { standInIntents, putBack } = require("./stand_in.js");

async function tryTree(browser, { look, same, load, middle, cellMiddle, levelOf, pause, shot }) {
  const value = (expression) => browser.evaluate(expression);
  const press = async (selector) => {
    await value(`document.querySelector(${JSON.stringify(selector)}).scrollIntoView({ block: "nearest" })`);
    await browser.click(...await value(`(() => { const box = document.querySelector(${JSON.stringify(selector)}).getBoundingClientRect(); return [box.left + box.width / 2, box.top + box.height / 2]; })()`));
  };
  const node = (n) => `.node[data-node="${n}"]`;
  await load("warehouse", "12 on a\n30 on b\n", 70);
  await browser.until("btworld.state.film.count == 70");
  await value("btworld.show(27); btworld.choose(0, true)");
  await pause(200);

  const drawn = await value(`outline.nodes.filter((it) => !it.box.hidden).map(({ n, x, y, wide, parent }) => ({ n, x, y, wide, parent }))`);
  look(drawn.every((it) => it.parent === null || drawn.find((other) => other.n == it.parent).x + drawn.find((other) => other.n == it.parent).wide < it.x), "children stand right of their parent");
  look(drawn.every((it, k) => drawn.every((other, l) => l <= k || it.y != other.y || it.x + it.wide < other.x || other.x + other.wide < it.x)), "no box lies on another");
  look(drawn.every((it, k) => k == 0 || it.y > drawn[k - 1].y || it.x > drawn[k - 1].x), "in the order of ticks, to the right and down");
  same(await value("outline.nodes.every(({ box, said }) => said.textContent == '\\u00b7' ? box.classList.contains('silent') : box.classList.contains(said.textContent))"), true, "each box has the colour of its answer");
  same(await value("outline.nodes.filter((it) => it.edge).every(({ edge, said }) => edge.getAttribute('class') == (said.textContent == '\\u00b7' ? 'silent' : said.textContent))"), true, "and so has its edge");
  look(drawn.length < await value("outline.nodes.length"), `a tree that has no room folds what was not ticked: ${drawn.length} of ${await value("outline.nodes.length")} boxes`);
  await press("#fold");
  same(await value("outline.nodes.every((it) => !it.box.hidden)"), true, "fold quiet shows all");
  await press("#fold");
  await press(`${node(1)} .more`);
  same(await value("outline.nodes.filter((it) => it.n > 1 && it.n < outline.nodes[1].end).every((it) => it.box.hidden)"), true, "a node is folded by its sign");
  await press(`${node(1)} .more`);
  same(await value("outline.nodes[2].box.hidden"), false, "and unfolded");
  same(await value("outline.nodes.filter((it) => !it.box.hidden && it.wide != it.box.offsetWidth).length"), 0, "each box is as wide as its edge takes it for");
  const scale = await value("outline.scale");
  await press("#treeIn");
  look(await value("outline.scale") > scale, "+ draws it larger");
  await press("#treeFit");
  same(await value("outline.scale"), scale, "fit as before");

  await press(node(5));
  same(await value("[btworld.state.node, document.querySelector('#node h3 b').textContent, document.querySelector('#levelCode .picked') !== null]"), [5, "not", true], "a click chooses a node, and marks its text");
  same(await value("btworld.state.texts.level.slice(editors.level.picked.from, editors.level.picked.to)"), '["not", ["fallback", ["at", "4"], ["at", "5"], ["at", "6"]]]', "just its text");
  look(await value("(() => { const box = document.querySelector('#levelCode').getBoundingClientRect(), it = document.querySelector('#levelCode .picked').getBoundingClientRect(); return it.top >= box.top && it.bottom <= box.bottom; })()"), "which is in sight");
  await value("editors.level.area.focus(); editors.level.area.setSelectionRange(btworld.state.texts.level.indexOf('[\"near\"') + 3, btworld.state.texts.level.indexOf('[\"near\"') + 3)");
  look(await browser.until("btworld.state.chosen == 1 && btworld.state.node == 1"), "the caret in the text of near chooses it in the tree of B");
  await browser.key("Escape");
  await browser.key("Escape");
  same(await value("[btworld.state.chosen, btworld.state.node]"), [1, -1], "Esc chooses no node");
  await browser.key("Escape");
  same(await value("btworld.state.chosen"), -1, "and once more no agent");

  await value("btworld.choose(0, true); btworld.show(1); outline.nodes[0].box.focus()");
  await browser.key("ArrowDown");
  await browser.key("ArrowDown");
  await browser.key("ArrowUp");
  same(await value("document.activeElement.dataset.node"), "1", "Up and Down go through the boxes");
  await browser.key("Enter");
  same(await value("btworld.state.node"), 1, "Enter chooses");
  await browser.key("-");
  same(await value("[outline.nodes[2].box.hidden, document.activeElement.getAttribute('aria-expanded')]"), [true, "false"], "- folds");
  await browser.key("+");
  await browser.key("Enter");
  same(await value("document.activeElement == editors.level.area && btworld.state.texts.level.slice(editors.level.area.selectionStart - 2).startsWith('[\"fallback\"')"), true, "Enter once more goes to the text");
  await browser.key("Escape");

  // The next frame in which a node answers otherwise, against all frames.
  const turns = await value("Array.from({ length: 70 }, (_, k) => k + 1).filter((frame) => frame > 1 ? world.nodes(btworld.state.film.at(frame - 1), btworld.state.film.signals.of(frame), 0)[1] != world.nodes(btworld.state.film.at(frame - 2), btworld.state.film.signals.of(frame - 1), 0)[1] : true)");
  const found = [];
  await value("btworld.show(0)");
  for (let k = 0; k < turns.length; k++) {
    const was = await value("shownFrame()");
    await browser.key(">");
    await browser.until(`shownFrame() != ${was}`);
    found.push(await value("shownFrame()"));
  }
  same(found, turns, `> goes to each frame in which the node turns: ${turns.join()}`);
  await browser.key(">");
  look(await browser.until("document.getElementById('note').textContent.startsWith('no later frame')"), "and says where there is none");
  await browser.key("<");
  look(await browser.until(`shownFrame() == ${turns[turns.length - 2]}`), "< goes back");

  await value("btworld.show(0); btworld.chooseNode(outline.nodes.find((it) => it.name == 'take').n)");
  await press("#node .halt.S");
  same(await value("[btworld.state.stops.length, document.querySelectorAll('#stops .chip').length, document.querySelector('#node .halt.S').getAttribute('aria-pressed'), document.querySelectorAll('.node.halts').length]"), [1, 1, "true", 1], "a stop at Success of take");
  const first = await value("(() => { const { film } = btworld.state, n = btworld.state.node; for (let f = 1; f <= 70; f++) if (film.answers(f, 0)[n] == 0) return f; })()");
  await value("setSpeed(5); btworld.setPlaying(true)");
  look(await browser.until("!btworld.state.isPlaying"), "playing halts");
  same(await value("[shownFrame(), document.getElementById('note').textContent]"), [first, `halted in frame ${first}: A: take answers Success`], "in the first frame in which it does, at 600 frames a second");
  await press("#nextStop");
  look(await browser.until(`shownFrame() > ${first} && document.getElementById('note').textContent.startsWith('halted')`), "to the next stop");
  same(await value("[btworld.state.film.answers(shownFrame(), 0)[btworld.state.node], btworld.state.film.answers(shownFrame() - 1, 0)[btworld.state.node] == 0]"), [0, false], "where it turns to Success again");
  await press("#stops .chip");
  same(await value("btworld.state.stops.length"), 0, "a click on it takes it away");
  const tellsIntents = await value("world.calls.btworld_intent !== undefined");
  if (!tellsIntents) look(await value("!document.querySelector('#node .halt:not(.S, .F, .R)')"), "a module that tells no intents: no stop goes by them");
  await standInIntents(browser);
  await load("passing_place", "", 60);
  await value("btworld.show(0); btworld.choose(0, true); btworld.chooseNode(0)");
  await press("#node .halt:not(.S, .F, .R)");
  await value("btworld.setPlaying(true)");
  look(await browser.until("!btworld.state.isPlaying"), "A in the corridor halts");
  same(await value("[shownFrame(), document.getElementById('note').textContent]"), [5, "halted in frame 5: A is blocked"], "where B stands in its way");
  same(await value("[...document.querySelectorAll('#whyTree .way.vain')].map((it) => it.textContent.replace(/^.*, /, ''))"), ["in vain"], "the node that wanted it says so");
  await shot("in_vain");
  await value("setSpeed(1); toggleStop(btworld.state.stops[0])");
  // A module that tells intents: node 3 wants to give to C, which is granted to B alone.
  same(await value(`(() => {
    const { calls } = world, { film } = btworld.state, { btworld_intent: plain } = calls;
    calls.btworld_intent = (game, signals, agent, out) => { world.bytes(out, 16).set([3, 0, 0, 0, 5, 0, 0, 0, 6, 0, 0, 0, 4, 4, 2, agent]); return 0; };
    const told = [world.intent(0n, 0, 1), film.isBlocked(5, 0), film.isBlocked(5, 1), film.giftOf(5, 0), film.giftOf(5, 1)];
    calls.btworld_intent = plain;
    return told;
  })()`), [{ node: 3, deed: "give", agent: 2, isGranted: true }, true, false, -1, 2], "a module that tells an intent is asked for it");

  // Where items go, against what the nodes that act answered.
  for (const name of ["bucket_chain", "courier", "warehouse"]) {
    await load(name, "12 on a\n30 on b\n", 60);
    await browser.until("btworld.state.film.count == 60");
    const told = await value(`(() => {
      const { film, good } = btworld.state, gone = [];
      for (let f = 1; f <= 60; f++) for (let a = 0; a < film.agents; a++) {
        const at = f * film.agents + a;
        if (film.loaded[at] || !film.loaded[at - film.agents]) continue;
        const answers = film.answers(f, a), first = treeOf(good, good.agents[a]).find((it) => ["move", "take", "drop", "give"].includes(it.name) && answers[it.number] == 2), to = wordsOf(good.text, first)[0];
        gone.push([itemSaid(film, f, a), first.name == "give" ? letterOf(a) + " gives its item to " + to : letterOf(a) + " puts its item down, at " + film.cell(f, a)]);
      }
      return gone;
    })()`);
    look(told.length > 0 && told.every(([is, wanted]) => is == wanted), `${name}: ${told.length} items that are given or put down: ${told[0][0]}`);
  }
  await putBack(browser, "btworld_intent");

  await load("warehouse", "", 40);
  await value("btworld.show(10); btworld.choose(3, true); btworld.chooseNode(1)");
  const tree = () => value("JSON.stringify(JSON.parse(btworld.state.texts.level).trees.sleeper)");
  const edit = async (label, kind) => {
    await press(`#edits .row button[aria-expanded]:nth-of-type(${await value(`[...document.querySelectorAll('#edits .row button')].findIndex((it) => it.textContent == '${label}') + 1`)})`);
    if (kind == "drop") await shot("palette");
    await press(`.kinds [data-kind="${kind}"]`);
  };
  await edit("replace by", "near");
  same(await tree(), '["seq",["near",2],["fallback",["at","8"],["move","8"]]]', "replaced by near");
  same(await value("[btworld.state.node, btworld.state.fault, document.querySelector('#node h3 b').textContent]"), [1, "", "near"], "it plays, and is chosen");
  await value("(() => { const it = document.querySelector('#node .words input'); it.value = 5; it.onchange(); })()");
  same(await tree(), '["seq",["near",5],["fallback",["at","8"],["move","8"]]]', "its number is 5");
  await value("(() => { const it = document.querySelector('#node .words input'); it.value = 99; it.onchange(); })()");
  same([await tree(), await value("document.querySelector('#node .words input').value"), await value("document.getElementById('note').textContent")], ['["seq",["near",5],["fallback",["at","8"],["move","8"]]]', "5", "level: tree sleeper: count"], "99 is refused, as the module says");
  await edit("wrap in", "not");
  same(await tree(), '["seq",["not",["near",5]],["fallback",["at","8"],["move","8"]]]', "wrapped in not");
  await edit("add after", "drop");
  same([await tree(), await value("btworld.state.node")], ['["seq",["not",["near",5]],["drop"],["fallback",["at","8"],["move","8"]]]', 3], "drop behind it, which is chosen");
  await press('#edits button[title="change places with the node before"]');
  same([await tree(), await value("btworld.state.node")], ['["seq",["drop"],["not",["near",5]],["fallback",["at","8"],["move","8"]]]', 1], "up");
  await press('#edits button[title="take this node and its children away"]');
  same(await tree(), '["seq",["not",["near",5]],["fallback",["at","8"],["move","8"]]]', "removed");
  same(await value("btworld.state.node"), 0, "its parent is chosen");
  await edit("add child", "give");
  same(await tree(), '["seq",["not",["near",5]],["fallback",["at","8"],["move","8"]],["give","A"]]', "a child behind the others");
  await value("(() => { const it = document.querySelector('#node .words select'); it.value = 'B'; it.onchange(); })()");
  look((await tree()).includes('["give","B"]'), "its agent is B");
  await value("btworld.chooseNode(0)");
  await edit("replace by", "fallback*");
  look((await tree()).startsWith('["fallback*",["not"'), "the root is another kind, its children stay");
  same(await value("btworld.state.fault"), "", "never a fault");
  const before = levelOf("warehouse");
  for (let k = 0; k < 12 && (await value("btworld.state.texts.level")) != before; k++) await browser.key("z", 2);
  same(await value("btworld.state.texts.level") == before, true, "undo takes all of it back");
  await value("btworld.chooseNode(2)");
  same(await value("[...document.querySelectorAll('#edits button')].find((it) => it.textContent == 'remove').disabled"), false, "fallback may go");
  await value("btworld.choose(2, true); btworld.chooseNode(2)");
  same(await value("[...document.querySelectorAll('#edits button')].find((it) => it.textContent == 'remove').disabled"), true, "the only child of tries may not: the module says so");
  await value("btworld.choose(-1)");

  // Trees by hand.
  await load("parade", "", 20);
  await value("btworld.choose(3, true)");
  const unchanged = await value("btworld.state.texts.level"), set = (id, by) => value(`(() => { const it = document.getElementById("${id}"); it.value = ${JSON.stringify(by)}; it.onchange({ target: it }); })()`), here = () => value("(() => { const { agents, trees } = JSON.parse(btworld.state.texts.level); return [agents[3], JSON.stringify(trees[agents[3]]), btworld.state.fault]; })()");
  const [was, spelt] = await here();
  await press("#treeMenu summary");
  await shot("tree_menu");
  look(await value("[...document.querySelectorAll('#treeMenu > div :not(option)')].every((it) => { const { left, right, top, bottom } = it.getBoundingClientRect(); return left >= document.getElementById('treePanel').getBoundingClientRect().left && right <= innerWidth && top >= 0 && bottom <= innerHeight; })"), "the tree's menu has room");
  await press("#ownTree");
  same(await here(), [`${was} 2`, spelt, ""], `D gets a copy of ${was}`);
  same(await value("[document.getElementById('treeMenu').open, document.querySelector('#whyName span').textContent]"), [false, `${was} 2`], "and its name stands at the tree");
  await set("treeName", "its own");
  same(await here(), ["its own", spelt, ""], "which gets another name");
  await set("treeName", was);
  same([...await here(), await value("document.getElementById('note').textContent"), await value("document.getElementById('treeName').value")], ["its own", spelt, "", `there is a tree ${was} already`, "its own"], "but not that of another tree");
  await press("#treeMenu summary");
  await press("#newTree");
  same((await here()).filter((_, k) => k != 1), ["tree", ""], "a new tree");
  await set("treeOf", "its own");
  same(await here(), ["its own", spelt, ""], "and back, by its name");
  await set("treeName", 'a "name"');
  same(await here(), ['a "name"', spelt, ""], "a name with quotation marks");
  for (let k = 0; k < 9 && (await value("btworld.state.texts.level")) != unchanged; k++) await browser.key("z", 2);
  same(await value("btworld.state.texts.level") == unchanged, true, "undo takes all of it back");

  // A level of one's own, from an empty room.
  await press("#saveMenu summary");
  await press("#blank");
  same(await value("[btworld.state.isPainting, btworld.state.texts.name, document.getElementById('saveMenu').open]"), [true, "new level", false], "an empty room, ready to be painted");
  const cell = async (key, x, y) => { await browser.key(key, /[A-Z]/.test(key) ? 8 : 0); await browser.click(...await cellMiddle(x, y)); await pause(30); };
  for (const [key, x, y] of [["#", 6, 1], ["#", 6, 2], ["a", 6, 3], ["#", 6, 4], ["*", 3, 3], ["B", 9, 2]]) await cell(key, x, y);
  await browser.key("Escape");
  same(await value("[btworld.state.fault, btworld.state.good.map[3], btworld.state.film.agents]"), ["", "#..*.Aa....#", 2], "walls, a door, an item and B are put");
  await value("btworld.choose(1, true)");
  await press("#treeMenu summary");
  await press("#newTree");
  await set("treeName", "keeper");
  await value("btworld.chooseNode(0)");
  await edit("wrap in", "fallback");
  await value("btworld.chooseNode(1)");
  await edit("add before", "signal");
  same(await value("[JSON.stringify(JSON.parse(btworld.state.texts.level).trees.keeper), btworld.state.fault]"), ['["fallback",["signal","a"],["seq*",["move","0"],["move","1"]]]', ""], "B gets a tree of its own");
  await browser.key("a");
  await browser.until("btworld.state.film.count == btworld.state.total");
  same(await value("btworld.state.texts.script"), "1 on a\n", "and its door opens by a");
}

module.exports = { tryTree };
